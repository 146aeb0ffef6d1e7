"""Compares the documents with what they name: files, headings, targets of make, tools, and what can be counted.

It looks through each .md of the repository. In a document it looks up

- each link that leads to no other site: the file, and the heading after a #;
- each word in backquotes or in a block that looks like a path of the repository. A name in capitals, as in
  `strength/gate/NAME/`, stands for any. Under a heading that names crates a source stands in one of these, or of their
  rooms: libraries that they stand on, and no crate of tests does;
- each word in backquotes of several parts, as `is_over` or `HaveConverged`: a name of the sources, the definitions or
  the proofs, or a crate;
- each target that they give to make, and each file of tools/, wherever it is named;
- each number of mutants, against those that are there; docs/TESTS.md has to say how many stand where, and how those of
  each crate are refused, in one row each or in one of several crates;
- what it says that a crate prints, after `$ cd crates/NAME && rt try`, against the crate's stdout;
- each block of Rust, against the sources: one has its lines, one after another, however far they are indented;
- that each line of the crates.txt that it shows, but for one of `yours`, stands there.

The map, docs/ARCHITECTURE.md, has to name each crate, with docs/TESTS.md those of tests. Its arrows are those of
crates.txt: of each crate but tests and examples, to the nearest crates below it, each once. docs/TESTS.md has to name
each script of tools/, and the head of each package there its modules. The README has to name each document of docs/,
and docs/PROMISES.md each LAWS.md. Under a heading that names crates, each name there in backquotes stands in the source
that its link leads to, or else in a source or a definition of one of these crates or of their rooms. Each entry of
docs/DECISIONS.md has a day at the end of its first sentence. The picture of a night in docs/EXCHANGE.md has the steps
of its table, for each library. Each line of standard error there, as `.. is lost: ..`, is one of the sources. Each
definition, law, function and command in the picture of docs/THEOREM.md is one.
"""
import collections
import fnmatch
import os
import re

from ill import repository
from ill.repository import read, stand_on
from ill.strength import across

# Folders of what is made, which are passed over; and folders of a crate or of examples/, with which a path may begin.
MADE = {".git", "out", "dist", "__pycache__"}
PARTS = {"src", "specs", "proofs", "messages", "scripts"}
# Words for numbers, each at the place of its number; and the pattern of a number in words or figures.
NUMBERS = ("none one two three four five six seven eight nine ten eleven twelve thirteen fourteen fifteen "
           "sixteen seventeen eighteen nineteen twenty").split()
NUMBER = r"\b(\d+|" + "|".join(NUMBERS) + r")\b"
KIT = {"assert_eq", "serde_json"}  # names of the kit that no source of the repository has
# The patterns of the edits that leave a body right, and of those that the gate tries.
CONTROLS = "strength/controls/*.edit"
GATE = "strength/gate/*.edit"

COMPARED = repository.Comparison()


def expect(kind, is_there, place, what):
    """Counts one more thing of this kind that was looked up. Keeps a fault of the place if it is not there."""
    COMPARED.expect(kind, is_there, f"{place}: {what}")


def paths():
    """Yields all files and folders of the repository, but what is made."""
    for folder, folders, files in os.walk(repository.TOP):
        folders[:] = sorted(name for name in folders if name not in MADE)
        for name in folders + sorted(files):
            yield os.path.relpath(os.path.join(folder, name), repository.TOP)


def lines(document):
    """Yields the lines of a document, each with its number and whether it is one of a block."""
    fenced = False
    for number, line in enumerate(read(document).splitlines(), 1):
        fence = line.startswith("```")
        yield number, fenced or fence or line.startswith("    "), line
        fenced ^= fence


def headings(document):
    """Yields the anchors of a document's headings, as the site that shows it makes them."""
    seen = collections.Counter()
    for _, in_block, line in lines(document):
        title = re.match(r"#+ +(.*)", line)
        if title and not in_block:
            anchor = re.sub(r"[^\w\- ]", "", title[1].lower()).strip().replace(" ", "-")
            yield f"{anchor}-{seen[anchor]}" if seen[anchor] else anchor
            seen[anchor] += 1


def check_links(document, place, line):
    """Expects that each link of a line leads to a file. If the link names a heading, the file has it."""
    for target in re.findall(r"\]\(([^)\s]+)\)", re.sub(r"`[^`]*`", "", line)):
        if re.match(r"[a-z]+:", target):
            continue
        path, _, anchor = target.partition("#")
        file = os.path.normpath(os.path.join(os.path.dirname(document), path)) if path else document
        is_there = os.path.exists(repository.full(file))
        expect("links", is_there, place, f"the link {target} leads to no file")
        if anchor and is_there:
            expect("headings", anchor in headings(file), place, f"the link {target} leads to no heading")


def looks_like_path(word):
    """Returns true if a word is the path of something in the repository, there or not."""
    if not re.fullmatch(r"\.?[\w*-][\w.*-]*(/[\w.*-]+)*/?", word) or MADE & set(word.split("/")):
        return False
    first = word.split("/")[0]
    is_below = "/" in word and (first in PARTS or os.path.isdir(repository.full(first)))
    return is_below or re.fullmatch(r"[\w-][\w/.-]*\.(md|rt|antt|c)", word) is not None


def matches(path, patterns):
    """Returns true if a path fits one of the patterns."""
    return any(fnmatch.fnmatchcase(path, pattern) for pattern in patterns)


def check_paths(words, crates, everything, place):
    """Expects that each word that looks like a path is one. A source has to be in one of these crates, if there are
    any."""
    for word in filter(looks_like_path, words):
        path = re.sub(r"\b(NAME|TYPE)\b", "*", word.rstrip("/"))
        prefixes = ["", "*/"]
        if crates and word.endswith((".rt", ".antt")) and not word.startswith("crates/"):
            prefixes = [f"crates/{crate}/{deep}" for crate in crates for deep in ("", "*/")]
        patterns = [prefix + path for prefix in prefixes]
        is_there = any(matches(other, patterns) for other in everything)
        expect("paths", is_there, place, f"there is no {word}" + (" here" if prefixes[0] else ""))


def names(everything):
    """Returns the names of the sources, the definitions and the proofs, the crates, and some of the kit."""
    sources = [path for path in everything if path.startswith("crates/") and path.endswith((".rt", ".antt"))]
    return set(re.findall(r"[A-Za-z]\w*", "\n".join(map(read, sources)))).union(repository.libraries(), KIT)


def check_names(span, known, place):
    """Expects that each word of several parts in a span of code is a known name."""
    for word in re.findall(r"(?<![\w./-])[A-Za-z]\w*(?:::\w+)*(?![\w/.-])", span):
        name = word.split("::")[-1]
        if re.fullmatch(r"[a-z]+(_[a-z0-9]+)+|[A-Z][a-z0-9]+([A-Z][a-z0-9]*)+", name):
            expect("names", name in known, place, f"no source has {word}")


def check_targets(code, targets, place):
    """Expects in the Makefile each target that code gives to make."""
    for target in re.findall(r"(?:^|\$ |&& )make +([a-z][a-z-]*)", code):
        expect("targets", target in targets, place, f"make has no target {target}")


def check_tools(text, place):
    """Expects that each file of tools/ is there that a text names."""
    for name in re.findall(r"(?<![\w/])tools/((?:\w+/)*[\w-]+(?:\.(?:c|py|jsonl))?)", text):
        is_there = os.path.exists(repository.full("tools", name))
        expect("tools", is_there, place, f"there is no tools/{name}")


def with_rooms(crates):
    """Returns these crates, and their rooms: what they stand on of the libraries on which no crate of tests stands."""
    below, rooms = stand_on(), repository.rooms()
    return sorted({*crates, *(other for name in crates for other in below[name] if other in rooms)})


def counts(everything):
    """Returns how many mutants the gate has, how many there are beside it, and the least and the most of a crate."""
    edits = collections.Counter(path.split("/")[2] for path in everything if matches(path, [GATE]))
    beside = sum(matches(path, ["strength/*.edit"]) and not matches(path, [CONTROLS, GATE]) for path in everything)
    return sum(edits.values()), beside + len(across.CASES), min(edits.values()), max(edits.values())


def value(word):
    """Returns the number that a word says."""
    return NUMBERS.index(word) if word in NUMBERS else int(word)


def check_counts(document, text, counted):
    """Expects that each number of mutants in a text is right. `counted` is what `counts` returns."""
    gate, beside, least, most = counted
    for number, more in re.findall(NUMBER + r" mutants( more)?(?! in the gate)", text):
        wanted = beside if more else gate
        said = f"{number} mutants{more}"
        expect("numbers", value(number) == wanted, document, f"it says {said}, and there are {wanted}")
    for low, high in re.findall(NUMBER + r" to " + NUMBER + r" (?:a crate|mutants in the gate)", text):
        expect("numbers", (value(low), value(high)) == (least, most), document,
               f"it says {low} to {high} mutants a crate, and there are {least} to {most}")


def places_of_mutants(everything):
    """Returns what docs/TESTS.md says of each place of mutants, with N for their number; and how many stand there."""
    beside = [path.split("/")[1] for path in everything if matches(path, ["strength/*/*.edit"])]
    others = sum(beside.count(folder) for folder in ("tests", "controls", "gate"))
    return {"The gate has N mutants, in `strength/gate/NAME/`": counts(everything)[0],
            "tries N more, in `strength/NAME/`": len(beside) - others,
            "The N equivalent mutants in `strength/controls/`": beside.count("controls"),
            "`strength/NAME/`, and N across two crates": len(across.CASES),
            "The N that no contract can refuse[^.:]* are in `strength/tests/`": beside.count("tests")}


def check_places(everything):
    """Expects that docs/TESTS.md says once of each place of mutants how many stand there."""
    text = " ".join(read("docs/TESTS.md").split())
    for sentence, wanted in places_of_mutants(everything).items():
        said = re.findall(re.sub(r"\bN\b", lambda _: NUMBER, sentence), text)
        expect("numbers", [value(number.lower()) for number in said] == [wanted], "docs/TESTS.md",
               f"it says {said or 'no number'} in \"{sentence}\", and there are {wanted}")
    check_table_of_places(everything)


def check_table_of_places(everything):
    """Expects that the table of docs/TESTS.md has each crate with mutants in one row. Each row must have the number
    that is there."""
    edits = [path for path in everything if matches(path, ["strength/*.edit"])
             and not matches(path, [CONTROLS, "strength/tests/*"])]
    crates = collections.Counter(path.split("/")[-2] for path in edits)
    named = []
    rows = r"(?m)^\| (`\w+`(?:, `\w+`)*) \| (\d+) \| (\d+) \| (\d+) \|$"
    for names, *numbers in re.findall(rows, read("docs/TESTS.md")):
        all_of_it, at_goal, for_want = map(int, numbers)
        row = re.findall(r"`(\w+)`", names)
        named += row
        wanted = sum(crates[crate] for crate in row)
        expect("numbers", all_of_it == at_goal + for_want == wanted, "docs/TESTS.md",
               f"it says {at_goal} and {for_want} of {all_of_it} for {', '.join(row)}, and there are {wanted}")
    expect("numbers", sorted(named) == sorted(crates), "docs/TESTS.md",
           f"the table of mutants has {', '.join(named)}, and these have some: {', '.join(sorted(crates))}")


def check_document(document, everything, targets, known):
    """Looks up what a document names, line by line. `everything` has the paths of the repository, `targets` those of
    make, and `known` the names of the sources."""
    all_crates = set(stand_on())
    crates = []
    for number, in_block, line in lines(document):
        place = f"{document}:{number}"
        code = [line.strip()] if in_block else re.findall(r"`([^`]+)`", line)
        if line.startswith("## "):
            crates = with_rooms(all_crates & set(re.findall(r"`(\w+)`", line)))
        if not in_block:
            check_links(document, place, line)
        words = [word.strip(",;:()'\"") for span in code for word in span.split()]
        check_paths(words, crates, everything, place)
        for span in code:
            check_targets(span, targets, place)
            if not in_block:
                check_names(span, known, place)
        check_tools(line, place)


def check_runs(document):
    """Expects that what a crate is said to print is its stdout, and that lines of crates.txt stand there."""
    for block in re.findall(r"(?ms)^```\n(.*?)^```", read(document)):
        run = re.match(r"\$ cd crates/(\w+) && rt try(?: -- .*)?\n", block)
        if run:
            printed = read(f"crates/{run[1]}/stdout")
            expect("runs", block[run.end():] == printed, document, f"{run[1]} prints something else")
        for line in re.findall(r"(?m)^ill_\w+: .*", block):
            expect("lines of crates.txt", line + "\n" in read("crates.txt"), document, f"crates.txt has no line {line}")


def unindented(text):
    """Returns the lines of a text, each without the spaces before and after it."""
    return "".join(line.strip() + "\n" for line in text.strip().splitlines())


def check_code(document, sources):
    """Expects the lines of each block of Rust in a source, one after another."""
    for block in re.findall(r"(?ms)^```rust\n(.*?)^```", read(document)):
        is_there = any("\n" + unindented(block) in "\n" + source for source in sources)
        expect("blocks of Rust", is_there, document, f"no source has the lines after {block.splitlines()[0].strip()}")


def tools(everything):
    """Returns the files of tools/."""
    return [path for path in everything if path.startswith("tools/") and os.path.isfile(repository.full(path))]


def named_at(path):
    """Returns the file that has to name a file of tools/, and the name. docs/TESTS.md names the scripts, and the head
    of a package its modules and packages."""
    folder, name = os.path.split(path.removesuffix("/__init__.py"))
    return ("docs/TESTS.md", path) if folder == "tools" else (f"{folder}/__init__.py", name.removesuffix(".py"))


def check_maps(everything):
    """Expects that the maps of the code and of the tests name each crate. Each file of tools/ has to be named in its
    place, and each document in the README."""
    maps, readme = read("docs/ARCHITECTURE.md") + read("docs/TESTS.md"), read("README.md")
    for crate in stand_on():
        expect("crates", f"`{crate}`" in maps, "docs/ARCHITECTURE.md", f"no map names the crate {crate}")
    for path in tools(everything):
        page, name = named_at(path)
        expect("tools", f"`{name}`" in read(page), page, f"it does not name {name}")
    for path in everything:
        if matches(path, ["docs/*.md"]):
            expect("documents", path in readme, "README.md", f"it does not name {path}")
        if matches(path, ["crates/*/LAWS.md"]):
            page = "docs/PROMISES.md"
            expect("documents", f"../{path}" in read(page), page, f"it does not name {path}")


def all_below():
    """Returns the crates, each with all on which it stands, directly or through others."""
    found = {}
    for crate, below in stand_on().items():
        found[crate] = set(below).union(*(found[other] for other in below))
    return found


def check_arrows():
    """Expects that the arrows of the map lead from each crate to the nearest crates below it. A crate is nearest if no
    other of them stands on it."""
    page = "docs/ARCHITECTURE.md"
    picture = re.search(r"(?ms)^```mermaid\n(.*?)^```", read(page))[1]
    crates = re.findall(r'(?m)^ +(\w+)\["\1: ', picture)
    drawn = collections.Counter()
    for line in picture.splitlines():
        names = line.strip().split(" --> ")
        drawn.update(zip(names, names[1:]))
    nearest, below = stand_on(), all_below()
    wanted = {(name, other) for name in crates for other in nearest[name]
              if not any(other in below[nearer] for nearer in nearest[name])}
    for arrow in sorted(wanted | set(drawn)):
        expect("arrows", drawn[arrow] == (arrow in wanted), page,
               f"an arrow leads {drawn[arrow]} times from {arrow[0]} to {arrow[1]}, and crates.txt says otherwise")


def stands_in(name, files):
    """Returns true if one of the files has the last part of a name such as `Desk::act`."""
    word = re.compile(rf"\b{re.escape(name.split('::')[-1])}\b")
    return any(word.search(read(path)) for path in files)


def check_promises(everything):
    """Expects that each name that docs/PROMISES.md cites stands where the promise says."""
    page = "docs/PROMISES.md"
    for part in re.split(r"(?m)^## ", read(page))[1:]:
        heading, _, text = part.partition("\n")
        crates = [name for name in re.findall(r"`(\w+)`", heading) if name in stand_on()]
        folders = [f"crates/{crate}/{folder}/*" for crate in with_rooms(crates) for folder in ("src", "specs")]
        sources = [path for path in everything if path.endswith((".rt", ".antt")) and matches(path, folders)]
        for label, target in re.findall(r"\[([^\]]*)\]\(([^)\s]+\.rt)\)", text):
            for name in re.findall(r"`([\w:]+)`", label):
                is_there = stands_in(name, [os.path.normpath(os.path.join("docs", target))])
                expect("names of promises", is_there, page, f"{target} has no {name}")
        for name in re.findall(r"`([A-Za-z_][\w:]*)`", re.sub(r"\[[^\]]*\]\([^)\s]+\)", "", text)):
            missing = f"no source of {' or '.join(crates)} has {name}"
            expect("names of promises", stands_in(name, sources), page, missing)


def check_decisions():
    """Expects a day at the end of the first sentence of each entry of docs/DECISIONS.md."""
    page = "docs/DECISIONS.md"
    for entry in re.findall(r"(?m)^- (.*(?:\n  .*)*)", read(page)):
        first = re.split(r"\.(?:\s|$)", " ".join(entry.split()))[0]
        has_day = re.search(r" \(20\d\d-[01]\d-[0-3]\d\)$", first)
        expect("days of decisions", has_day, page, f"no day at the end of: {first}")


def check_night():
    """Expects that the picture of a night has the steps of the table below it. Each library has them in their order."""
    page = "docs/EXCHANGE.md"
    _, picture, rest = re.split(r"(?m)^```\n", read(page).partition("\n## 2. ")[2], maxsplit=2)
    steps = re.findall(r"(?m)^\| ([a-z]+) \|", rest.partition("\n## ")[0])
    for column in (0, picture.splitlines()[0].index("B, ")):
        drawn = [word[0] for line in picture.splitlines() if (word := re.match(r"[a-z]+\b", line[column:]))]
        expect("steps of a night", drawn[:len(steps)] == steps, page, f"its picture has {', '.join(drawn)}")


def check_lines(everything):
    """Expects in the sources the words of each line that docs/EXCHANGE.md explains. What stands for other words is left
    out: `..`, a word in capitals, and a number."""
    page = "docs/EXCHANGE.md"
    sources = " ".join("\n".join(read(path) for path in everything if matches(path, ["crates/ill_*/src/*.rt"])).split())
    for line in re.findall(r"`(\.\. [^`]+)`", read(page)):
        for part in re.split(r"\.\.|\b[A-Z]{3,}\b|\d+|\bas\b", line):
            words = part.strip(" :;,")
            if words:
                expect("lines of a run", words in sources, page, f"no source writes: {words}")


def check_ways(everything):
    """Expects that each definition, law, function and command in the picture of docs/THEOREM.md is one of the
    sources."""
    page = "docs/THEOREM.md"
    picture, = [block for block in re.findall(r"(?ms)^```\n(.*?)^```", read(page)) if block.startswith("definition ")]
    forms = {"definition": ("crates/*/specs/*.antt", r"(?m)^[a-z ]+ pub {} :|^pub (?:record|data) {}\b"),
             "law": ("crates/*/src/*laws.rt", r"\bpub fn {}\("), "function": ("crates/*/src/*.rt", r"\bpub fn {}[<(]"),
             "command": ("tools/ill/help.jsonl", r'"command":"{}"')}
    for kind, names in re.findall(r"\b(definition|law|function|command) {2,}([\w-]+(?:, [\w-]+)*)", picture):
        pattern, form = forms[kind]
        for name in names.split(", "):
            sources = "\n".join(read(path) for path in everything if matches(path, [pattern]))
            is_there = re.search(form.replace("{}", re.escape(name)), sources)
            expect("names of a picture", is_there, page, f"there is no {kind} {name}")


def compare():
    """Returns the faults of all documents, and what was looked up."""
    everything = list(paths())
    targets = set(re.findall(r"(?m)^([a-z-]+):", read("Makefile")))
    counted, known = counts(everything), names(everything)
    sources = [unindented(read(path)) for path in everything if matches(path, ["crates/*/src/*.rt"])]
    for document in [path for path in everything if path.endswith(".md")]:
        check_document(document, everything, targets, known)
        check_counts(document, " ".join(read(document).split()), counted)
        check_runs(document)
        check_code(document, sources)
    for path in ["Makefile", "crates.txt", "man/ill.1", *tools(everything)]:
        check_tools(read(path).replace("\\-", "-"), path)
    check_maps(everything)
    check_places(everything)
    check_promises(everything)
    check_decisions()
    check_night()
    check_lines(everything)
    check_ways(everything)
    check_arrows()
    return list(dict.fromkeys(COMPARED.faults)), COMPARED.summary()
