"""Writes crates/NAME/LAWS.md of each crate that has laws: its laws, their sentences, and what their contracts name.

A law is a `pub fn` without a result. Its contract has `ensures`, and its body is empty or cites other laws. Any store,
desk or outlet of which it speaks is its parameter. The list has the modules of a crate, `laws.rt` first, and the laws
of a module in the order of the source. A law has

- its name, with a link to its file;
- its sentences, from its `///` comment, which it must have;
- the definitions of `specs/` that its contract names, each file once, with a link. Left out are names of the standard
  library, types of the code and their variants.
"""
import collections
import os
import re
import textwrap

from ill import repository
from ill.repository import Unread, found, read

HEAD = """\
# The laws of `{crate}`

`make laws` writes this page from the comments of the sources. Each law is a function that does nothing, and its
contract is the law. The files after a law define what its contract names.
[PROMISES.md](../../docs/PROMISES.md) says what the laws are for.
"""

# A law, its sentences and its contract; and a name that a source takes from `specs/`, in which file that is.
Law = collections.namedtuple("Law", "name said contract")
Named = collections.namedtuple("Named", "crate module name")


def laws_of(path):
    """Yields the laws of a source, in its order."""
    blocks = re.split(r"\n\s*\n(?=\S)", read(path))
    for block in blocks:
        head = re.search(r"(?m)^pub fn (\w+)(?:<[^>]*>)?\([^)]*\)\n", block)
        body = head and re.fullmatch(r"(.*)^\{\n?((?: +(?:let _ = )?[\w:.]+(?:::<\w+>)?\(\);\n)*)\}\s*",
                                     block[head.end():], re.S | re.M)
        if body and re.match(r" +ensures\b", body[1]):
            said = " ".join(re.findall(r"(?m)^/// ?(.*)", block[:head.start()]))
            if not said:
                raise Unread(f"{path}: the law {head[1]} has no comment that says it")
            yield Law(head[1], said, body[1])


def subject(path):
    """Returns the first sentence that a source says of itself, without the stop."""
    said = " ".join(re.match(r"(?://! ?.*\n)*", read(path))[0].replace("//!", "").split())
    return re.split(r"\. |\.$", said)[0]


def names_in(path):
    """Returns what a source takes from `specs/` of the crates here, by the word that it has for it: single names, and
    whole files."""
    single, whole = {}, {}
    for crate, module, names, word in re.findall(
            r"(?m)^(?:ghost |pub )?use Rattle\.(\w+)\.specs\.(\w+)(?:\.\{([^}]*)\}| as (\w+));?$", read(path)):
        if crate in repository.stand_on() and module != "declared":
            for name, _, other in (part.strip().partition(" as ") for part in names.split(",") if names):
                single[other or name] = Named(crate, module, name)
            if word:
                whole[word] = Named(crate, module, "")
    return single, whole


def defined(named, place):
    """Returns the name in the file that defines it: the one that it is taken from, or one that passes it on."""
    path = f"crates/{named.crate}/specs/{named.module}.antt"
    name = re.escape(named.name)
    if re.search(rf"(?m)^(?:\w+ )?pub (?:(?:record|data|mod) )?{name}(?!\w)|^  {name} :", read(path)):
        return named
    if named.name not in names_in(path)[0]:
        raise Unread(f"{place}: {path} has no {named.name}")
    return defined(names_in(path)[0][named.name], place)


def definitions(path, contract):
    """Yields the definitions that a contract of a source names, in its order, each with its file."""
    single, whole = names_in(path)
    code = re.sub(r"(?m)^ +ensures \w+", "", contract)
    for prefix, word in re.findall(r"(?<![\w.⟦])(?:(\w+)\.)?(\w+)", code):
        if prefix in whole:
            yield defined(whole[prefix]._replace(name=word), path)
        else:
            for name in (prefix, word):
                if name in single:
                    yield defined(single[name], path)


def files_of(crate, path, contract):
    """Yields the definitions that a contract names, file by file, with links from the page of the crate."""
    files = {}
    for named in definitions(path, contract):
        names = files.setdefault((named.crate, named.module), [])
        if named.name not in names:
            names.append(named.name)
    for (other, module), names in files.items():
        target = f"specs/{module}.antt" if other == crate else f"../{other}/specs/{module}.antt"
        yield ", ".join(f"`{name}`" for name in names) + f" ([{module}]({target}))"


def wrapped(text, first):
    """Returns a text in lines of at most 119 columns; words and links are not cut."""
    return textwrap.fill(text, 119, initial_indent=first, subsequent_indent="  ", break_long_words=False,
                         break_on_hyphens=False)


def page(crate):
    """Returns the page of a crate, or an empty text if the crate has no law."""
    text = ""
    sources = found("crates", crate, "src", "**", "*.rt")
    for path in sorted(sources, key=lambda path: (os.path.basename(path) != "laws.rt", path)):
        source = os.path.relpath(path, f"crates/{crate}")
        laws = list(laws_of(path))
        if laws:
            text += f"\n## `{source}`\n\n{subject(path)}.\n\n"
        for law in laws:
            text += wrapped(f"**[`{law.name}`]({source})**: {law.said}", "- ") + "\n"
            named = "; ".join(files_of(crate, path, law.contract))
            text += wrapped(named, "  <br>") + "\n" if named else ""
    return text and HEAD.format(crate=crate) + text


def written():
    """Returns each page with what has to stand there."""
    pages = {f"crates/{crate}/LAWS.md": page(crate) for crate in repository.stand_on()
             if not repository.is_for_tests(crate)}
    return {path: text for path, text in pages.items() if text}


def of_no_laws(pages):
    """Returns the pages that are there of crates without a law."""
    return [path for path in found("crates", "*", "LAWS.md") if path not in pages]


def count(pages):
    """Returns how many laws these pages have."""
    return sum(text.count("\n- **[") for text in pages.values())


def faults_of(pages):
    """Returns the places in which the pages of the repository differ from these."""
    return repository.all_differences(pages) + [
        f"{path}:1: it is there; the sources have no law of this crate" for path in of_no_laws(pages)]


def compare():
    """Returns the lines that differ, and which pages have how many laws."""
    pages = written()
    return faults_of(pages), f"{', '.join(pages)} have the {count(pages)} laws of the sources"


def write():
    """Writes the pages anew. Returns what was written."""
    pages = written()
    changed = len(faults_of(pages))
    for path in of_no_laws(pages):
        os.remove(repository.full(path))
    for path, text in pages.items():
        repository.write(path, text)
    return f"written: {', '.join(pages)}: {count(pages)} laws; {changed} places changed"
