"""Tries the mutants that the prover must refuse at what they change.

It works on copies, over the libraries below a crate as `make check` has proved them, and builds those that are not
there. LANES says how many checks are made side by side.

An edit is a file: lines `file: src/day.rt` and after each pairs of `old: TEXT` and `new: TEXT`, as the module `edits`
says. An edit changes the body of one function, which must be refused, or else lines `refuses: PATH` name the functions
that must be.

How it is tried: a function is proved from the contracts of what it calls, whatever bodies these have. So in a copy of
the crate the bodies and proofs of all functions that no edit is about are left out, and their theorems are taken as
axioms. A mutant stands in that copy as a function beside the right one, with the same contract and the same proof. One
check of the copy tries all of them: the right function must be proved, and each wrong one refused at a goal of its own.
What is no body of a function with a name of its own, as a constant, a definition or a method of a trait, is changed in
place, in a further copy; there edits of different bodies, or of different sources, are tried together.

How it is refused: the proof of a function may have answers, which fit its goals and no others. If a right function has
none, `search` proves it, and fails at a goal of the wrong one. If it has answers, they do not fit the wrong one. Both
are then checked once more without them. If `search` then leaves a goal of the wrong one open and no goal of its kind of
the right one, the wrong one is refused at that goal. Else it is open for want of a proof alone: a right body with other
goals would be refused too, so this says little, and it is counted apart. If all is proved then, the body is right, and
is not refused.

For the gate the right functions are not tried, since `rt ci` has just proved them. An answer that is false of a wrong
body refuses it there, and it is not checked without its answers.

The controls, in strength/controls/CRATE, are edits that leave a body right. They are tried with the edits of their
crate, and none may be refused at a goal.
"""
import collections
import concurrent.futures
import functools
import os
import re
import shutil
import subprocess
import sys
import tempfile
import threading

from ill.repository import full, libraries, read, stand_on, write
from ill.strength.edits import BadEdit, Pair, change, changed, places_of

PARTS = ("src", "specs", "proofs")
LANES = int(os.environ.get("LANES", "1"))
# What a check takes while it runs.
CHECKS = threading.BoundedSemaphore(LANES)
AXIOM = """use Rattle.{crate}.proofs.{path}.Statement.{{statement}}

axiom pub {name}_spec : {{M : Type 1}} → statement M
"""
# What antt says of a name that is not there, and of a text that it cannot read: neither makes a statement false.
UNNAMED = r"^record `|is not in scope|has no field|has no `"
UNREAD = UNNAMED + r"|is no name|operand is missing|expected the end|cannot continue"
# The line that is printed about an error, and not of a macro whose name has the word, as `by-macro: thiserror::Error`.
ERROR = r"(?!by-macro: ).*\berror\b"
# What may become of an edit, and how that is reported of a mutant and of a right one.
AT_GOAL, BY_ANSWERS, FOR_WANT, PROVED, UNTRIED = "at a goal", "by answers", "for want", "proved", "untried"
WRONG = {AT_GOAL: "refused at a goal", BY_ANSWERS: "refused by an answer of the right body",
         FOR_WANT: "refused, but open for want of a proof alone", PROVED: "NOT REFUSED", UNTRIED: "NOT REFUSED"}
RIGHT = {AT_GOAL: "REFUSED AT A GOAL", FOR_WANT: "open for want of a proof alone",
         PROVED: "proved", UNTRIED: "NOT TRIED"}

# A function of a crate: its path, whether it is a method of a trait, its source, where it begins, and where its body
# begins and ends.
Function = collections.namedtuple("Function", "path of_trait file start begin end")
# An edit: its pairs, the functions that must be refused, those that it changes, the one whose body it is, if any,
# whether it changes bodies alone, and whether it is a control.
Edit = collections.namedtuple("Edit", "name pairs refuses changes body_of is_of_bodies is_right")


# The sources, as rt fmt lays them out.

def functions_of(folder):
    """Returns the functions of a crate, by path."""
    files = [os.path.relpath(f"{at}/{name}", folder) for at, _, names in os.walk(f"{folder}/src") for name in names]
    texts = {file: read(f"{folder}/{file}") for file in files}
    types = {name: module_of(file) for file, text in texts.items()
             for name in re.findall(r"(?m)^(?:pub(?:\(\w+\))? )?(?:struct|enum) (\w+)", text)}
    return {it.path: it for file, text in texts.items() for it in functions_in(text, file, types)}


def module_of(file):
    """Returns the path of the module that a source is."""
    return [word for word in file[len("src/"):-len(".rt")].split("/") if word not in ("lib", "main")]


def functions_in(text, file, types):
    """Yields the functions of a source: each item, and each method of a type or a trait that has a body."""
    for found in re.finditer(r"(?m)^(    )?(?:pub(?:\([\w ]+\))? )?(?:const )?fn (\w+)", text):
        indent, name = found[1] or "", found[2]
        block, kind = block_of(text[:found.start()], types) if indent else ([], None)
        ends = r"|;$" if kind == "declared" else ""
        head = re.compile(rf"(?m)^{indent}(?! ).*(?:\{{|\{{\}})$" + ends).search(text, found.start())
        if head[0].endswith(";"):
            continue
        is_empty = head[0].endswith("}")
        begin = head.end() - is_empty
        end = head.end() if is_empty else re.compile(rf"(?m)^{indent}\}}$").search(text, begin).end()
        above = text.rfind("\n\n", 0, found.start()) + 2
        start = max(above, text.rfind("{\n", above, found.start()) + 2)
        module = types.get(block[0], module_of(file)) if kind == "own" else module_of(file)
        path = "::".join([*module, *block, name])
        yield Function(path, kind in ("instance", "trait", "declared"), file, start, begin, end)


def block_of(text, types):
    """Returns the name of the last block of methods that begins in this text, in a list, and its kind. The kind is
    `own` for a type's own methods, and `trait` for those of a trait for a type. It is `instance` for those of an
    instance, and `declared` for those of a trait."""
    head = [*re.finditer(r"(?m)^(?:pub(?:\(\w+\))? )?(impl|trait)\b(?:<.*?>(?= ))? ?(.*(?:\n    for .*)?)", text)][-1]
    instance = re.match(r"impl(?:<(.*?)>(?= ))? (\w+)<([\w, ]+)> \{", head[0])
    if instance:
        own, of = re.findall(r"(?:^|, )(\w+)", instance[1] or ""), instance[3].split(", ")
        if own != of or instance[2] not in types:
            return ["+".join([instance[2], *of])], "instance"
    names = " ".join(re.sub(r"<[^<>]*(<[^<>]*>[^<>]*)*>", "", head[2]).split())
    of_trait = re.match(r"(?:\w+::)*(\w+) for (\w+)", names)
    if of_trait:
        return [camel(of_trait[2]) + of_trait[1] + arguments_in(head)], "trait"
    return [re.match(r"\w+", names)[0]], "own" if head[1] == "impl" else "declared"


def arguments_in(head):
    """Returns the words of the types that an instance gives its trait, as the prover names it: `VecU8` of `Vec<u8>`, and
    `RefStr` of `&str`. Lifetimes, and words that the instance itself declares, are left out."""
    declared = re.match(r"impl<(.*?)>(?= )", head[0])
    own = re.findall(r"\w+", declared[1]) if declared else []
    given = re.match(r"(?:\w+::)*\w+<(.*)>\s+for ", head[2])
    words = re.findall(r"\w+|&|\(\)", re.sub(r"'\w+", "", given[1])) if given else []
    return "".join({"&": "Ref", "()": "Unit"}.get(word, camel(word)) for word in words if word not in own)


def camel(word):
    """Returns a word with a capital letter first."""
    return word[0].upper() + word[1:]


# The edits.

def edits_of(folders, crate, functions):
    """Returns the edits of a crate in these folders, and after them its controls."""
    return [edit_of(name, read(f"{folder}/{name}.edit"), crate, functions, "/controls/" in folder)
            for folder in folders for name in names_in(folder)]


def folders_of(crate, is_gate):
    """Returns the folders that have the edits of a crate: those of the gate, and unless they alone are tried, all
    others and the controls."""
    others = [] if is_gate else [full("strength", crate), full("strength", "controls", crate)]
    return [full("strength", "gate", crate), *others]


def names_in(folder):
    """Returns the names of the edits in a folder, if it is there."""
    names = os.listdir(folder) if os.path.isdir(folder) else []
    return sorted(name[:-len(".edit")] for name in names if name.endswith(".edit"))


def edit_of(name, text, crate, functions, is_right):
    """Returns the edit of a text: its pairs, the functions that must be refused, and what it changes."""
    pairs, refuses, file, old = [], [], None, None
    for line in text.splitlines():
        word, _, rest = line.partition(": ")
        if word == "file":
            file = rest
        elif word == "refuses":
            refuses.append(rest)
        elif word == "old":
            old = rest
        elif line.startswith("new:"):
            pairs.append(Pair(file, old, rest))
    found = {changed_by(pair, full("crates", crate), functions) for pair in pairs}
    changes = sorted(it.path for it in found if it)
    body_of = next((it for it in found if len(found) == 1 and it and not it.of_trait and not refuses), None)
    return Edit(name, pairs, refuses or changes, changes, body_of, None not in found, is_right)


def changed_by(pair, folder, functions):
    """Returns the function whose body or whose own proof a pair changes, or nothing if it changes anything else."""
    begin, end = next(iter(places_of(read(f"{folder}/{pair.file}"), pair.old)), (-1, -1))
    for it in functions.values():
        is_body = it.file == pair.file and it.begin <= begin and end <= it.end
        if is_body or pair.file.startswith(f"{proof_of(it.path)}/"):
            return it
    return None


def proof_of(path):
    """Returns the folder of the proof of a function."""
    return f"proofs/{path.replace('::', '/')}"


def rounds_of(edits):
    """Returns edits that are made in place, as they are tried: together, if they change different bodies, or else
    different sources. An edit of several sources, or of anything but sources, is tried alone."""
    rounds = []
    for edit in edits:
        files = {pair.file for pair in edit.pairs}
        is_alone = len(files) > 1 or not min(files).startswith("src/")
        takes = {(file, path) for file in files for path in (edit.changes if edit.is_of_bodies else [None])}
        room = None if is_alone else next((it for it in rounds if it[1] and are_apart(takes, it[1])), None)
        if room is None:
            rounds.append(([edit], set() if is_alone else takes))
        else:
            room[0].append(edit)
            room[1].update(takes)
    return [edits for edits, _ in rounds]


def are_apart(takes, taken):
    """Returns true if no place of `takes` is one of `taken`. A place is a source with the path of a function, or all of
    a source with None."""
    return not any(file == other and (path == it or None in (path, it)) for file, path in takes for other, it in taken)


# The prover.

@functools.cache
def kit():
    """Returns the folder of the kit."""
    rt = shutil.which("rt") or sys.exit("strength: there is no rt")
    return os.path.dirname(os.path.dirname(os.path.realpath(rt)))


def below(crate):
    """Returns the crates of the repository below this one, lowest first."""
    found = []
    for name in stand_on()[crate]:
        found += [it for it in [*below(name), name] if it not in found]
    return found


def root_of(crate):
    """Returns the source at the root of this crate, a library or a program."""
    return next(it for it in ("src/lib.rt", "src/main.rt") if os.path.exists(f"{full('crates', crate)}/{it}"))


def words_of(crate):
    """Returns the words of a check of this crate, over the built libraries below it."""
    own, crates = libraries()[crate], libraries()
    words = ["--crate-name", crate, root_of(crate), "-L", f"dependency={kit()}/rlibs"]
    for name in ["std", *(name for name in own if name not in crates)]:
        words += ["--extern", f"{name}={kit()}/rlibs/{name}.rlib"]
    for name in below(crate):
        words += ["-L", f"dependency={full('crates', name)}/out/rlib"]
        if name in own:
            words += ["--extern", f"{name}={full('crates', name)}/out/rlib/{name}.rlib"]
    return [*words, "--antt-project", f"{kit()}/rattle/logic/antt-project.json", "--logic-built",
            f"{kit()}/logic_built"]


def build_below(crate):
    """Builds the libraries below a crate that are not there, or older than their sources."""
    newest = 0
    for name in below(crate):
        folder = full("crates", name)
        files = [f"{at}/{file}" for part in PARTS for at, _, names in os.walk(f"{folder}/{part}") for file in names]
        newest = max([newest, *map(os.path.getmtime, files)])
        built = f"{folder}/out/rlib/{name}.rlib"
        if not os.path.exists(built) or os.path.getmtime(built) < newest:
            print(f"building {name}", flush=True)
            subprocess.run(["rt", "lib"], cwd=folder, stdout=subprocess.DEVNULL, check=True)


class Trial:
    """The copies of a crate in which its edits are tried."""

    def __init__(self, crate, edits, functions, room, is_gate):
        """Makes the copies of the crate. `beside` are edits of one body by the paths of their functions, and `in_place`
        all others."""
        self.crate, self.functions, self.room, self.source = crate, functions, room, full("crates", crate)
        self.is_gate = is_gate
        self.words = [f"{kit()}/bin/rattle", "check", *words_of(crate), "--allow-holes", "--jobs", "1"]
        self.beside = {f"{edit.body_of.path}_wrong_{number}": edit for number, edit in enumerate(edits) if edit.body_of}
        self.in_place = [edit for edit in edits if not edit.body_of]
        self.right = sorted({path for edit in edits for path in edit.refuses})
        self.answered = {path for path in self.right if os.path.exists(f"{self.source}/{answers_of(path)}")}
        self.kept = {*self.right, *(path for edit in edits for path in edit.changes)}
        self.copy(f"{room}/whole", {})
        if self.beside:
            self.copy(f"{room}/beside", self.beside)

    def copy(self, folder, beside):
        """Copies the crate: without the bodies that no edit is about, and with mutants beside the right ones."""
        for part in filter(lambda part: os.path.isdir(f"{self.source}/{part}"), PARTS):
            shutil.copytree(f"{self.source}/{part}", f"{folder}/{part}")
        for it in sorted(self.functions.values(), key=lambda it: -it.begin):
            text = read(f"{folder}/{it.file}")
            body = text[it.begin:it.end]
            if not it.of_trait and it.path not in self.kept:
                body = body if body == "}" else " loop {} }"
                self.take_as_axiom(folder, it)
            wrong = [self.wrong(folder, path, edit) for path, edit in beside.items() if edit.body_of is it]
            write(f"{folder}/{it.file}", "\n\n".join([text[:it.begin] + body, *wrong]) + text[it.end:])

    def take_as_axiom(self, folder, it):
        """Takes the theorem of a function as an axiom. One that called itself has its measure in a folder with a +."""
        proof, path = f"{folder}/{proof_of(it.path)}", it.path.replace("::", ".")
        for left in (proof, f"{os.path.dirname(proof)}/+{it.path.rpartition('::')[2]}"):
            shutil.rmtree(left, ignore_errors=True)
        write(f"{proof}/Proof.antt", AXIOM.format(crate=self.crate, path=path, name=path.rpartition(".")[2]))

    def wrong(self, folder, path, edit):
        """Returns the text of a mutant as a function of this path. Its proof is a copy of that of the right one."""
        it = edit.body_of
        right = f"{self.source}/{proof_of(it.path)}"
        files = [f"{proof_of(it.path)}/{file}" for file in os.listdir(right)] if os.path.isdir(right) else []
        texts = {file: read(f"{self.source}/{file}") for file in files}
        texts[it.file] = read(f"{self.source}/{it.file}")[it.start:it.end]
        for pair in edit.pairs:
            texts[pair.file] = changed(texts[pair.file], pair)
        for file in files:
            proof = texts[file].replace(f".{it.path.replace('::', '.')}.", f".{path.replace('::', '.')}.")
            write(f"{folder}/{proof_of(path)}/{os.path.basename(file)}", proof)
        name = rf"\g<1>{path.rpartition('::')[2]}"
        return re.sub(r"(?m)^( *(?:pub(?:\([\w ]+\))? )?(?:const )?fn )\w+", name, texts[it.file], count=1)

    def check(self, folder, paths, kept="kept"):
        """Checks these functions in a copy. Returns what is said of each, and all that is printed. It begins with what
        the last check with these `kept` has proved."""
        how = {"cwd": folder, "stdin": subprocess.DEVNULL, "stdout": subprocess.PIPE, "stderr": subprocess.STDOUT}
        words = [*self.words, "--incremental", f"{self.room}/{kept}"]
        words += [word for path in paths for word in ("--only", path)]
        with CHECKS:
            printed = subprocess.run(words, text=True, errors="replace", check=False, **how).stdout
        said = dict(re.findall(rf"(?m)^fn {self.crate}::(\S+): (.*)$", printed))
        errors = [line for line in printed.splitlines() if re.match(ERROR, line)]
        unread = [it for it in errors if re.match(r"(\./)?(src|specs)/\S+: error: ", it) and re.search(UNREAD, it)]
        if not said or unread:
            why = [*unread, *errors, *printed.splitlines()[-1:], "nothing is said"][0]
            raise BadEdit(f"it cannot be read: {why[:300]}")
        return said, printed

    def judge(self):
        """Yields what became of each edit: the edit, or None for a right function that is not proved; the verdict; and
        what was said."""
        folder = f"{self.room}/{'beside' if self.beside else 'whole'}"
        right = [] if self.is_gate else self.right
        paths = [*right, *self.beside]
        try:
            said, printed = self.check(folder, paths) if paths else ({}, "")
            left = [it for it, edit in self.beside.items() if self.is_left(said, printed, it, edit.body_of.path)]
            rights = {self.beside[it].body_of.path for it in left} if self.is_gate else self.answered
            bare = self.check_bare(folder, [*rights, *left])
        except BadEdit as bad:
            yield None, UNTRIED, f"an edit of a body: {bad}"
            return
        for path in right:
            if said.get(path) != "no holes":
                yield None, UNTRIED, f"{path} is not proved without any edit: {said.get(path)}"
        for path, edit in self.beside.items():
            yield edit, *self.how(said, printed, path, edit.body_of.path, bare, bare)
        rounds = rounds_of(self.in_place)
        with concurrent.futures.ThreadPoolExecutor(LANES) as lanes:
            for found in lanes.map(lambda at: self.judge_in_place(at, rounds[at], bare), range(len(rounds))):
                yield from found

    def is_left(self, said, printed, path, right):
        """Returns true if the function `path`, which stands for the function `right`, is to be checked without its
        answers."""
        is_refused = self.is_gate and refusal(said, printed, path)[0]
        return right in self.answered and not is_proved(said, path) and not is_refused

    def check_bare(self, folder, paths, kept="kept"):
        """Returns what is said of these functions in a copy without their answers, or nothing if there are none."""
        if not paths:
            return {}
        with tempfile.TemporaryDirectory(prefix="bare-", dir=self.room) as bare:
            shutil.copytree(folder, bare, dirs_exist_ok=True)
            for path in paths:
                os.remove(f"{bare}/{answers_of(path)}")
            return self.check(bare, paths, kept)[0]

    def how(self, said, printed, path, right, bare, right_bare):
        """Returns the verdict on the function `path`, which stands for `right`, and what was said of it. `bare` and
        `right_bare` are what was said of both without their answers. A goal that both leave open then is open for want
        of a proof alone."""
        well, what = refusal(said, printed, path)
        if is_proved(said, path):
            return PROVED, what
        if right not in self.answered:
            return (AT_GOAL if well else UNTRIED), what
        if self.is_gate and well:
            return BY_ANSWERS, what
        goals = open_goals(bare, path)
        if not goals:
            what = f"without its answers: {'; '.join(said_of(bare, path)) or 'nothing is said'}"
            return (PROVED if is_proved(bare, path) else UNTRIED), what
        known = {kind_of(goal) for goal in open_goals(right_bare, right)}
        own = [goal for goal in goals if kind_of(goal) not in known]
        if own:
            return AT_GOAL, f"without its answers, at {', '.join(own)}, where the right body leaves nothing open"
        return FOR_WANT, f"without its answers, at {', '.join(goals)}, which the right body leaves open too"

    def judge_in_place(self, number, edits, right_bare):
        """Returns what became of edits that are made together in place, in the round of this number."""
        folder, kept = f"{self.room}/round-{number}", f"kept-{number}"
        shutil.copytree(f"{self.room}/whole", folder)
        # A check replaces files of what is kept, and writes in none.
        if os.path.isdir(f"{self.room}/kept"):
            shutil.copytree(f"{self.room}/kept", f"{self.room}/{kept}", copy_function=os.link)
        paths = sorted({path for edit in edits for path in edit.refuses})
        try:
            for edit in edits:
                change(folder, edit.pairs)
            said, printed = self.check(folder, paths, kept)
            left = [path for path in paths if self.is_left(said, printed, path, path)]
            bare = self.check_bare(folder, left, kept)
            right_bare = self.check_bare(f"{self.room}/whole", left, kept) if self.is_gate else right_bare
        except BadEdit as bad:
            return [(edit, UNTRIED, str(bad)) for edit in edits]
        finally:
            shutil.rmtree(folder)
            shutil.rmtree(f"{self.room}/{kept}", ignore_errors=True)
        found = [[self.how(said, printed, path, path, bare, right_bare) for path in edit.refuses] for edit in edits]
        return [(edit, worst(each), "; ".join(what for _, what in each)) for edit, each in zip(edits, found)]


def answers_of(path):
    """Returns the file of the answers of a function."""
    return f"{proof_of(path)}/Answers.antt"


def worst(found):
    """Returns the least of these verdicts on the functions of an edit, which is that of the edit."""
    order = [UNTRIED, PROVED, FOR_WANT, BY_ANSWERS, AT_GOAL]
    return min((verdict for verdict, _ in found), key=order.index, default=UNTRIED)


def said_of(said, path):
    """Returns what was said of a function, and of each closure in it."""
    name = path.rpartition("::")[2]
    owner = re.compile(rf"{re.escape(path)}|.*\bfn::(?:\w+::)?{name}::.*")
    return [what for it, what in said.items() if owner.fullmatch(it)]


def is_proved(said, path):
    """Returns true if a function is proved, and each closure in it."""
    return set(said_of(said, path)) == {"no holes"}


def open_goals(said, path):
    """Returns the goals of a function, and of each closure in it, that `search` left open."""
    lists = [what.partition("`search` did not prove ")[2].partition("; it calls")[0] for what in said_of(said, path)]
    return re.findall(r"`([^`]+)`", " ".join(lists))


def kind_of(goal):
    """Returns the kind of a goal: its first word, what it asks for, and its clause, whatever way leads to it."""
    way, _, clause = goal.partition("-clause-")
    words = way.split("-")
    last = [it for it in words[-1:] if it in ("requires", "preserved", "init")]
    return (words[0], *(words[1:2] if words[0] == "invariant_of" else last), clause)


def refusal(said, printed, path):
    """Returns true if a function, or a closure in it, was refused at a goal of its own; and what was said. The
    parameters are what a check has said, what it has printed, and the path of the function."""
    found = said_of(said, path)
    errors = re.findall(r"(?m)^\./proofs/.*?: error: `([^`]+)`: (.*)$", printed)
    for what in found:
        if "`search` did not prove" in what:
            return True, what
        # What the function's proof says is false, and not only names what the edit took away.
        cited = what.partition("it stands on ")[2].partition("which antt refuses")[0]
        lemmas = re.findall(r"`[^` ]*?([^`. ]+)`", cited)
        false = next((error for lemma, error in errors if lemma in lemmas and not re.search(UNNAMED, error)), None)
        if false:
            return True, f"{what[:200]}: {false}"
    return False, "; ".join(found) or "nothing is said of it"


def try_crate(crate, names, is_gate):
    """Tries the edits of a crate: those of these names, or all if `names` is empty. Returns how many came to each
    verdict, of the mutants and of the right ones."""
    functions = functions_of(full("crates", crate))
    edits = edits_of(folders_of(crate, is_gate), crate, functions)
    edits = [edit for edit in edits if not names or edit.name in names]
    wrong, right = collections.Counter(), collections.Counter()
    with tempfile.TemporaryDirectory(prefix="strength-") as room:
        for edit, verdict, what in Trial(crate, edits, functions, room, is_gate).judge():
            is_right = edit is not None and edit.is_right
            (right if is_right else wrong)[verdict] += 1
            words = f"right, and {RIGHT[verdict]}" if is_right else WRONG[verdict]
            print(f"{crate}: {edit.name if edit else 'all'}: {words}: {what}", flush=True)
    return wrong, right


def report(counts):
    """Prints what became of all edits. Returns true if each mutant was refused, and no right one at a goal."""
    wrong, right = (sum(numbers, collections.Counter()) for numbers in zip(*counts))
    refused = wrong[AT_GOAL] + wrong[BY_ANSWERS] + wrong[FOR_WANT]
    by_answers = f"{wrong[BY_ANSWERS]} by answers, " if wrong[BY_ANSWERS] else ""
    print(f"{refused} of {wrong.total()} mutants were refused: {wrong[AT_GOAL]} at a goal, {by_answers}"
          f"{wrong[FOR_WANT]} open for want of a proof alone")
    let_be = right[PROVED] + right[FOR_WANT]
    print(f"{let_be} of {right.total()} equivalent mutants were refused at no goal")
    return refused == wrong.total() and let_be == right.total()


def known(is_gate):
    """Returns the crates that have edits, each with their names."""
    found = {it: [name for folder in folders_of(it, is_gate) for name in names_in(folder)] for it in libraries()}
    return {it: names for it, names in found.items() if names}


def perform(asked, is_gate):
    """Tries the edits of these crates. `asked` maps a crate to the names of its edits, or to no names for all. Returns
    true if all succeed. If `is_gate`, tries the edits of the gate alone."""
    for crate in asked:
        build_below(crate)
    # The longest first. While a crate waits for a lane, the checks of others go on.
    order = sorted(asked, key=lambda crate: -len(known(is_gate)[crate]))
    with concurrent.futures.ThreadPoolExecutor(2 * LANES) as lanes:
        return report(list(lanes.map(lambda crate: try_crate(crate, asked[crate], is_gate), order)))
