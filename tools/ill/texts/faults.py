"""Writes docs/FAULTS.md, and compares what it says of public calls with the sources and with the tests.

The page is fault-page beside this file, with the rows of three tables in the place of three marks: in that of {program}
those of `program`, in that of {memory} the rows of fault-rows whose fault is `OutOfMemory`, and in that of {calls} its
other rows. A row of fault-rows is

    cause: WHY
    changed: WHAT
    CALL, ..: FAULT, ..
        PLACE: TEST

with one entry or more, each of calls, faults and tests. The row of the page has the calls of all its entries, and each
call has each fault of the row. An entry names one test for all, or one for each call, or one for each fault, a line
each. A test is a function, or a line, of a crate of tests, or words of a tool. In one that is named alone, CALL stands
for the name of each call. `none: WHY` is in place of the tests if there can be none. A row that begins with
`never: WHY` has entries without tests, and no place on the page: by its contract no input has the call answer the
fault. # begins a remark.

The calls and the faults are taken from the sources: a call is what a library exports and answers a `Result`, a
fault type an exported enum that derives `Error`. A room is a library that only other libraries stand on: it exports
what one of these that is no room passes on. Each variant of a call's fault type is once in fault-rows, and nothing
else.
"""
import collections
import re
from pathlib import Path

from ill import repository
from ill.repository import Unread, read
from ill.texts import program

PAGE, TEXT, ROWS = "docs/FAULTS.md", "tools/ill/texts/fault-page", "tools/ill/texts/fault-rows"
USE = re.compile(r"^pub use ([\w:]+?)(?:::\{([^}]*)\}|( as \w+)?);", re.M)
MODULE = re.compile(r"^pub mod (\w+);", re.M)
ENUM = re.compile(r"#\[derive\([^)]*\bError\b[^)]*\)\]\npub enum (\w+) \{\n(.*?)\n\}", re.S)
BLOCK = re.compile(r"^(?:impl\b|(?:pub(?:\(crate\))? )?trait \w)[^{;]*\{$", re.M)
CALL = re.compile(r"^( *)(pub )?fn (\w+)(?:<[^(]*>)?\(([^)]*)\) -> (.*?)(?=\n *(?:requires|ensures|\{)| \{|;\n)",
                  re.S | re.M)
KEY = re.compile(r"(cause|changed|never): (\S.*)")
ENTRY = re.compile(r"([\w:]+(?:, [\w:]+)*): ([\w:]+(?:, [\w:]+)*)")
TEST = re.compile(r"    (\w+_tests|tools/[\w/.-]+|none): (\S.*)")
MEMORY = "OutOfMemory"
ALIAS = re.compile(r"^pub type (\w+)<\w+> = (\w+)<", re.M)
# What a desk holds is called by desks alone, which have its faults.
PARTS = {"Holdings"}
# Calls of any desk in whose place each desk has one of its own: `create`, `act` and `message`.
OF_ANY = {"begin", "act_on", "message_of"}

# The calls of an entry, its faults, and its tests, which are pairs of a place and a test.
Entry = collections.namedtuple("Entry", "calls faults tests")


class Row:
    """A row of fault-rows: what it says, by its keys, and its entries."""

    def __init__(self, key, said):
        """Begins with what the first line says."""
        self.said, self.entries = {key: said}, []

    def calls(self):
        """Returns the calls of all entries, each once."""
        return list(dict.fromkeys(call for entry in self.entries for call in entry.calls))

    def faults(self):
        """Returns the faults of all entries, each once."""
        return list(dict.fromkeys(fault for entry in self.entries for fault in entry.faults))

    def pairs(self):
        """Returns each call with each fault that an entry has for it."""
        return [pair for entry in self.entries for pair in pairs(entry.calls, entry.faults)]


def folder_of(crate):
    """Returns the folder of a crate."""
    return Path(repository.full("crates", crate))


def libraries():
    """Yields the folder of each library that is not for tests, lowest first, and true if it is a room."""
    rooms = repository.rooms()
    for name in repository.stand_on():
        folder = folder_of(name)
        if (folder / "src" / "lib.rt").exists() and not repository.is_for_tests(name):
            yield folder, name in rooms


def passed_on(root):
    """Yields what a file exports by `pub use`: the path, the name at its end, and the name that it has then."""
    for path, group, renamed in USE.findall(root.read_text()):
        prefix, _, last = path.rpartition("::")
        for part in group.split(",") if group else [last + renamed]:
            old, _, new = part.strip().partition(" as ")
            if old:
                yield path if group else prefix, old, new or old


def exported(root, prefix=""):
    """Returns the names that a file exports: the name in its source -> the name for others, after `prefix`. The
    functions of its public modules are among them."""
    names = {old: prefix + new for _, old, new in passed_on(root)}
    for module in MODULE.findall(root.read_text()):
        names |= of_module(root.parent / f"{module}.rt", module)
    return names


def of_module(path, module):
    """Returns the names that a module exports: the name in its source -> the name for others, after that of the
    module."""
    functions = re.findall(r"^pub fn (\w+)", path.read_text(), re.M)
    return {name: f"{module}::{name}" for name in functions} | exported(path, f"{module}::")


def exported_of_room(room):
    """Returns the names of a room that libraries pass on which are no rooms: the name in its source -> that for
    others."""
    names = {}
    for folder, is_room in libraries():
        for path, old, new in [] if is_room else passed_on(folder / "src" / "lib.rt"):
            module = room / "src" / f"{old}.rt"
            if path == room.name and module.exists():
                names |= of_module(module, new)
            elif path.split("::")[0] == room.name:
                names[old] = new
    return names


def subject(head):
    """Returns the type of the head of a block, and its trait. The trait is empty for a type's own methods, and the word
    `trait` if the block declares one."""
    head = re.sub(r"^impl<.*?> (?=\S)", "", re.sub(r"^impl ", "", head.replace("pub trait", "trait")))
    trait, _, name = head.partition(" for ") if " for " in head else ("", "", head)
    return re.match(r"(?:trait )?(\w+)", name).group(1), trait or ("trait" if head.startswith("trait") else "")


def fault_of(answer):
    """Returns the type of the faults in an answer, or None if the answer is no `Result`. Of a pair it is the first
    type."""
    answer = " ".join(answer.split()).partition(" where ")[0]
    if not answer.startswith("Result<"):
        return None
    depth, last = 0, 0
    inside = answer[len("Result<"):-1]
    for offset, letter in enumerate(inside):
        depth += (letter in "<([") - (letter in ">)]")
        if letter == "," and depth == 0:
            last = offset + 1
    return inside[last:].strip().lstrip("(").split(",")[0].strip()


def calls_of(path, names, traits):
    """Yields the calls in a file that answer a `Result`, each with the type of its faults. `names` are what its library
    exports, and `traits` the exported traits."""
    text = path.read_text()
    blocks = [(found.start(), subject(" ".join(found.group().split()))) for found in BLOCK.finditer(text)]
    for found in CALL.finditer(text):
        fault = fault_of(found.group(5))
        if fault is None:
            continue
        if not found.group(1):
            if found.group(2) and found.group(3) in names:
                yield names[found.group(3)], fault
            continue
        owner, trait = max(block for block in blocks if block[0] < found.start())[1]
        is_public = found.group(2) or trait == "trait" or trait.split("<")[0] in traits
        if is_public and owner in names and not {owner, trait} & PARTS:
            # A call of a generic type is one of each type that is another name of it.
            aliases = [alias for alias, base in ALIAS.findall(text) if base == owner and found.group(3) not in OF_ANY]
            for name in aliases or [owner]:
                yield f"{names[name]}::{found.group(3)}", fault


def read_sources():
    """Returns each call with the type of its faults, and each type of faults with its variants."""
    calls, types = {}, {MEMORY: [MEMORY]}
    traits = set()
    for folder, is_room in libraries():
        names = exported_of_room(folder) if is_room else exported(folder / "src" / "lib.rt")
        files = sorted((folder / "src").rglob("*.rt"))
        for path in files:
            text = path.read_text()
            traits |= {name for name in re.findall(r"^pub trait (\w+)", text, re.M) if name in names}
            for name, body in ENUM.findall(text):
                if name in names:
                    types[name] = re.findall(r"^    (\w+)", body, re.M)
        for path in files:
            calls |= dict(calls_of(path, names, traits))
    return calls, types


def test_is_there(place, test):
    """Returns true if a crate of tests has a function or a line `test`, or if a tool has these words."""
    if place.startswith("tools/"):
        path = Path(repository.full(place))
        return path.exists() and test in path.read_text()
    folder = folder_of(place)
    if (folder / "stdin").exists():
        lines = (folder / "stdin").read_text().splitlines()
        return any(test in (line, line.strip(), line.lstrip("# ")) or line == f"# {test}" for line in lines)
    texts = [path.read_text() for path in (folder / "src").glob("*.rt")]
    return any(re.search(rf"#\[test\]\n(?:#.*\n)*fn {re.escape(test)}\(", text) for text in texts)


def are_there(entry):
    """Returns true if an entry names tests that are there, or says that there can be none."""
    calls, faults, tests = entry
    if [place for place, _ in tests] == ["none"]:
        return True
    if len(tests) == 1:
        place, test = tests[0]
        return all(test_is_there(place, test.replace("CALL", call)) for call in calls)
    has_one_for_each = (len(tests) == len(calls)) != (len(tests) == len(faults))
    return has_one_for_each and all(test_is_there(*found) for found in tests)


def pairs(calls, faults):
    """Returns each call with each fault."""
    return [(call, fault) for call in calls for fault in faults]


def read_rows(wrong):
    """Returns the rows of fault-rows: those of the page, and those of what is never answered. Adds to `wrong` each line
    that has no place in a row."""
    rows = []
    for line in read(ROWS).splitlines():
        key, entry, test = KEY.fullmatch(line), ENTRY.fullmatch(line), TEST.fullmatch(line)
        if key and key[1] != "changed":
            rows.append(Row(*key.groups()))
        elif key and rows and not rows[-1].entries and "changed" not in rows[-1].said:
            rows[-1].said["changed"] = key[2]
        elif entry and not key and rows:
            rows[-1].entries.append(Entry(entry[1].split(", "), entry[2].split(", "), []))
        elif test and rows and rows[-1].entries:
            rows[-1].entries[-1].tests.append(test.groups())
        elif line and not line.startswith("#"):
            wrong.append(f"{ROWS}: it is no line of a row: {line}")
    return [row for row in rows if "never" not in row.said], [row for row in rows if "never" in row.said]


def cell(names):
    """Returns the text of a cell with names."""
    return ", ".join(f"`{name}`" for name in names)


def written(rows):
    """Returns the page that has to stand there, with these rows of calls."""
    texts = {"{program}": "".join(program.rows()), "{calls}": "", "{memory}": ""}
    for row in rows:
        of_memory = row.faults() == [MEMORY]
        cells = [cell(row.calls())] + ([] if of_memory else [cell(row.faults())]) + list(row.said.values())
        texts["{memory}" if of_memory else "{calls}"] += f"| {' | '.join(cells)} |\n"
    page = read(TEXT)
    for mark, text in texts.items():
        if page.count(f"\n{mark}\n") != 1:
            raise Unread(f"{TEXT}: no line, or more than one, is {mark}")
        page = page.replace(f"{mark}\n", text)
    return page


def twice(found):
    """Returns what is found more than once."""
    return sorted({one for one in found if found.count(one) > 1})


def wrong_rows(rows, never):
    """Yields what is wrong with the rows, of the page and of what is never answered: with what each says, and with its
    entries."""
    for row in rows + never:
        place = f"{ROWS}: a row of {', '.join(row.calls()) or 'no call'}"
        keys = ["never"] if row in never else ["cause", "changed"]
        if list(row.said) != keys or not row.entries or "|" in "".join(row.said.values()):
            yield f"{place} has no entry, or something else than {' and '.join(keys)} before it, or a | there"
        for call, fault in pairs(row.calls(), row.faults()) if row in rows else []:
            if (call, fault) not in row.pairs():
                yield f"{place} has no entry of {call} with {fault}"
        if MEMORY in row.faults() and row in rows and row.faults() != [MEMORY]:
            yield f"{place} has {MEMORY} beside other faults"
        for entry in row.entries:
            yield from wrong_tests(entry, row in never)


def wrong_tests(entry, is_never):
    """Yields what is wrong with the tests of an entry. `is_never` is true if its faults are never answered."""
    place = f"{', '.join(entry.calls)}, {', '.join(entry.faults)}"
    said = "; ".join(f"{folder}: {test}" for folder, test in entry.tests) or "at all"
    if is_never and entry.tests:
        yield f"{place}: they are never answered, but there is a test {said}"
    if not is_never and not are_there(entry):
        yield f"{place}: there is no test {said}, or not one for each"


def wrong_entries(calls, types, seen):
    """Returns what is wrong with the entries: each call has each fault once. `seen` are the pairs of the entries."""
    wanted = [pair for call, fault in calls.items() for pair in pairs([call], types.get(fault, [fault]))]
    wrong = [f"{call}: no row has its fault {fault}, and none says that it is never answered"
             for call, fault in wanted if (call, fault) not in seen]
    wrong += [f"{call}: {fault} is no fault of such a call" for call, fault in seen if (call, fault) not in wanted]
    return wrong + [f"{call}, {fault}: two entries have it" for call, fault in twice(seen)]


def compare():
    """Returns the faults of the page and of the tests, and how much was compared."""
    calls, types = read_sources()
    wrong = []
    rows, never = read_rows(wrong)
    wrong += wrong_rows(rows, never)
    wrong += wrong_entries(calls, types, [pair for row in rows + never for pair in row.pairs()])
    faults = [f"{name}::{one}" for name, found in types.items() if name not in calls.values() for one in found]
    wrong += [f"{fault}: no public call answers it" for fault in faults]
    wrong += repository.differences(PAGE, written(rows))
    variants = sum(len(found) for name, found in types.items() if name != MEMORY)
    tested = sum(len(row.pairs()) for row in rows)
    return wrong, (f"{PAGE} has {len(calls)} calls with each of their faults, {variants} of {len(types) - 1} types, "
                   f"and the {len(list(program.rows()))} of the program; {ROWS} has the tests of {tested}")


def write():
    """Writes the page anew. Returns what was written."""
    wrong = []
    rows, _ = read_rows(wrong)
    if wrong:
        raise Unread("; ".join(wrong))
    text = written(rows)
    changed = len(list(repository.differences(PAGE, text)))
    repository.write(PAGE, text)
    return (f"written: {PAGE}: {len(rows)} rows of calls, {len(list(program.rows()))} of the program; {changed} places "
            f"changed")
