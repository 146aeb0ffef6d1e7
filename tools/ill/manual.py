"""Compares the man page, the completions and tools/ill/help.jsonl with the built program.

The last has to be what the program prints; tools/texts writes the others from it. It compares the usages of the man page
with those that the program prints. It renders the page, if man is installed. It asks bash, zsh and fish themselves what
they offer, and says which of them it had: zsh and fish are asked if they are installed. It performs the examples of the
help and of the man page. It prints a line for each comparison, and what is in one and not in the other; exit 1 if one
fails.
"""
import collections
import os
import re
import shlex
import shutil
import subprocess

from ill import command_line, harness
from ill.harness import read, write

REPORT = harness.Report()
MAN = os.path.join(harness.TOP, "man", "ill.1")
COMPLETIONS = os.path.join(harness.TOP, "completions")
PRINTED_HELP = os.path.join(harness.TOP, command_line.FILE)
WIDTH = 80
EXPLAIN = "--explain"
ROLES = ("requester", "responder")
SECONDS = 100  # that a shell may take
ONE_LETTER = "-[a-zA-Z]"  # an option: each shell has its own way with these


# ---- Lines of a text

def text_of(path):
    """Returns the text of a file."""
    return read(path).decode()


def found(pattern, lines):
    """Returns the match of each line in which a pattern is found."""
    return [match for match in (re.search(pattern, line) for line in lines) if match]


def between(begin, end, lines):
    """Gives the lines from each that fits `begin` to the next line after it that fits `end`, with both."""
    is_within = False
    for line in lines:
        if is_within:
            yield line
            is_within = not re.search(end, line)
        elif re.search(begin, line):
            yield line
            is_within = True


# ---- The help

NEVER = r"(?!)"  # fits no line


class Help:
    """The help of the program: the text of each command by its name, after `shelf ` for one on a shelf."""

    def __init__(self, ill):
        """Asks the program for the help of each command."""
        self.texts = {"ill": ill.well("--help").decode()}
        self.commands = self.commands_of("ill")
        for command in self.commands:
            is_help = command == "help"
            self.texts[command] = "Usage: ill help [COMMAND]\n" if is_help else ill.well([command, "--help"]).decode()
        self.on_shelf = [command for command in self.commands_of("shelf") if command != "help"]
        for command in self.on_shelf:
            self.texts[f"shelf {command}"] = ill.well(["shelf", command, "--help"]).decode()
        self.roles = sorted({match[1] for match in found(f"^  ({'|'.join(ROLES)}) ", self.lines("simulate"))})
        self.words = {role: self.words_of(role) for role in ROLES}

    def lines(self, name):
        """Returns the lines of a help."""
        return self.texts[name].splitlines()

    def commands_of(self, name):
        """Returns the commands that a help lists."""
        return [match[1] for match in found(r"^  ([a-z-]*) ", between("^Commands:", "^$", self.lines(name)))]

    def options_of(self, name):
        """Returns the options of a command, each as its name and the label of its value. The label is None if it has no
        value."""
        # The help of a command on a shelf has no examples of its own.
        end = NEVER if name.startswith("shelf ") else "^Example"
        matches = found(r"^ *(--[a-z-]*)(?: <(.*)>)?$", between("^Options:", end, self.lines(name)))
        return [match.groups() for match in matches]

    def names_of_options(self, name):
        """Returns the options of a command, without their values, as shells offer them."""
        return [option for option, _ in self.options_of(name)]

    def has_file(self, name):
        """Returns True if files stand after a command."""
        return bool(found(r"^Usage:.* <(FILE|KEYFILE|PATH)>", self.lines(name)))

    def words_of(self, role):
        """Returns the first word of each action of a role."""
        lines = between(f"^The words of a {role}", "^$", self.lines("act"))
        return sorted({match[1] for match in found(r"^  (?=[^ ].*[^ ]   *[^ ])([a-z-]*)", lines)})

    def facts(self):
        """Gives a line for each command, for its arguments, as `argument send FILE NUMBER`, and for each option."""
        for command in self.commands:
            yield f"command {command}"
            for match in found("^Usage: [^ ]* (.*)$", self.lines(command)):
                yield "argument " + re.sub("[<>]", "", match[1].replace(" [OPTIONS]", "", 1))
            for option, value in self.options_of(command):
                if option == EXPLAIN:  # the man page has it once, for all commands
                    continue
                yield f"option {command} {option}" + (f" {value}" if value else "")


def report_only(who, lines):
    """Prints these lines, as what only `who` has."""
    for line in sorted(lines):
        print(f"only {who} has: {line}", flush=True)


# ---- The command line, as the program prints it

def compare_printed(ill):
    """Compares tools/ill/help.jsonl with what the program prints. A further word there is refused as no command."""
    REPORT.run("ill help --json", ill.run("help --json"), 0, read(PRINTED_HELP), b"")
    for words in ("help --json act", "help act --json", "--explain help --json"):
        REPORT.run(f"ill {words}", ill.run(words), 2, b"", "error: unrecognized subcommand '--json'\n")


# ---- The man page

class Page:
    """The man page without its macros and fonts."""

    def __init__(self):
        """Reads the man page."""
        self.lines = [self.plain(line) for line in text_of(MAN).splitlines()]

    @staticmethod
    def plain(line):
        """Returns a line without macros and fonts."""
        line = re.sub(r"\\f[A-Z]", "", line).replace(r"\-", "-").replace(r"\e", "\\")
        is_font = re.match(r"\.(B|I|BR|RB|IR|RI|BI) ", line)
        return re.sub(r"^\.[A-Z]* ", "", line).replace('"', "") if is_font else line

    def section(self, name):
        """Yields the lines of a section."""
        is_within = False
        for line in self.lines:
            if line.startswith(".SH "):
                is_within = line == f".SH {name}"
            elif is_within:
                yield line

    def heads(self, name):
        """Returns the heads of a list in a section, which stand after `.TP`."""
        lines = list(self.section(name))
        return [line for before, line in zip(lines, lines[1:]) if before.startswith(".TP")]

    def examples(self):
        """Returns the examples, as a document."""
        lines, is_within = [], False
        for line in self.lines:
            if line.startswith((".EX", ".EE")):
                lines.append("```")
                is_within = line.startswith(".EX")
            if is_within and not line.startswith(".EX"):
                lines.append(line)
        return lines


def usages(lines):
    """Yields the facts of lines such as `act FILE [--today DAY] WORDS...`: the command, the arguments, and each option.
    A line that begins with no small letter is passed over."""
    for usage in lines:
        if not re.match("[a-z]", usage):
            continue
        command = usage.split(" ")[0]
        yield f"command {command}"
        yield "argument " + re.sub(r" *\[--[^]]*\]", "", usage)
        for option in re.findall(r" (--[a-z-]* [A-Z]*)(?= |$)", re.sub(r"\[[^]]*\]", "", usage)):
            yield f"option {command} {option}"
        for option in re.findall(r"\[(--[^]]*)\]", usage):
            yield f"option {command} {option}"


def compare_page(known, page):
    """Compares the usages of the man page with those of the help. The heads of commands on a shelf are left out."""
    heads = [head for head in page.heads("COMMANDS") if not head.startswith("shelf ")]
    printed = collections.Counter(usages([*heads, "shelf COMMAND", "help [COMMAND]"]))
    wanted = collections.Counter(known.facts())
    report_only("the help", wanted - printed)
    report_only("the other", printed - wanted)
    REPORT.holds("COMMANDS of the man page", wanted and wanted == printed, "they differ")


def render_page():
    """Renders the man page, which may give no warning."""
    if not shutil.which("man"):
        REPORT.skip("the page is not rendered", "there is no man")
        return
    done = harness.run(["man", "--warnings", "-l", MAN], env={**os.environ, "MANWIDTH": str(WIDTH)})
    lines = harness.run(["col", "-b"], done.output).output.splitlines()
    REPORT.case(f"man renders the page in {WIDTH} columns without a warning",
                None if done.output else "there is no page", done.errors.decode(errors="replace").strip(),
                *(f"wide: {line.decode(errors='replace')}" for line in lines if len(line) > WIDTH))


# ---- What each shell has to offer

def prepare_desks(ill):
    """Makes a folder with the desks of a requester (one) and of two responders (two, and `my desk`, which has no loan),
    a folder, and a requester's shelf (row)."""
    os.mkdir("shelf")

    def well(words, given=None):
        """Runs the program in the folder of the desks, and returns its output."""
        return ill.well(words, given, cwd="shelf")

    well("new one requester")
    well("act one G1 T1 request none Maps")
    well("act one G1 T2 request none Atlas")
    well(["act", "one", "my group", "no. 1", "request", "none", "Globe"])
    well("new two responder")
    well("take two", well("send one G1 T1 1"))
    well(["new", "my desk", "responder"])
    os.mkdir("shelf/folder")
    well("shelf new row requester")
    for loan in ("G1 T1", "G1 T2", "G2 T3"):
        well(f"shelf act row {loan} --new-group request none Maps")


class Offers:
    """Lines of a shell, each with the words that it has to offer at the end of the line."""

    def __init__(self, known):
        """Adds all lines. `known` is the help, from which the words come."""
        self.known, self.rows = known, []
        self.requester, self.responder = (known.words[role] for role in ROLES)
        self.folders = ["folder", "row"]
        self.files = ["one", "two", "my desk", *self.folders]
        for part in (self.of_commands, self.of_files, self.of_shelf, self.of_lists, self.of_folders, self.of_loans,
                     self.of_actions):
            part()

    def offers(self, line, *words):
        """Adds a line, at whose end these words are offered, and no others."""
        self.rows.append((line, words))

    def all_offer(self, lines, *words):
        """Adds lines, at whose ends these words are offered, after a space."""
        for line in lines:
            self.offers(f"ill {line} ", *words)

    def of_commands(self):
        """Adds lines for commands, and for words before them."""
        commands = self.known.commands
        self.offers("ill ", *commands)
        self.offers("ill s", *beginning("s", commands))
        self.offers("ill -", EXPLAIN, "--help", "--version")
        for word in commands:
            self.offers(f"ill --explain {word}", *beginning(word, commands))
        self.offers("ill --explain ", *commands)
        self.offers("ill --explain status my", "my desk")
        for line in ("--explain act one", "act --explain one", "act one --explain", "shelf --explain act row",
                     "shelf act --explain row", "--explain shelf act row"):
            self.offers(f"ill {line} G1 T1 ", *self.requester)
        self.offers("ill shelf --explain re", "retire")

    def of_files(self):
        """Adds lines for files and options, after each command."""
        for command in self.known.commands:
            if command == "shelf":
                continue
            options = ["--help", *self.known.names_of_options(command)]
            first = self.files if self.known.has_file(command) else []
            if command == "help":
                options, first = [], self.known.commands
            self.offers(f"ill {command} ", *first)
            self.offers(f"ill {command} -", *options)
            self.offers(f"ill {command} -- ", *first)
            self.offers(f"ill {command} -- --")

    def of_shelf(self):
        """Adds lines for commands on a shelf."""
        on_shelf, folders = self.known.on_shelf, self.folders
        self.offers("ill shelf ", *on_shelf, "help")
        self.offers("ill shelf s", "send", "slip", "status")
        self.offers("ill shelf -", EXPLAIN, "--help")
        self.offers("ill --explain shelf re", "retire")
        for command in on_shelf:
            self.offers(f"ill shelf {command} ", *folders)
            self.offers(f"ill shelf {command} -- ", *folders)
            self.offers(f"ill shelf {command} -", "--help", *self.known.names_of_options(f"shelf {command}"))
        self.all_offer(("shelf act row", "shelf send row", "shelf loan -- row", "shelf act row --today 20250301",
                        "shelf act row --new-group", "shelf retire row"), "G1", "G2")
        self.all_offer(("shelf act row G1", "shelf send row G1", "shelf loan row G1"), "T1", "T2")
        self.offers("ill shelf act row G1 T1 ", *self.requester)
        self.offers("ill shelf act row --new-group G3 T1 re", *beginning("re", self.requester))
        self.all_offer(("shelf inbox row", "shelf outbox row", "shelf exchange row folder"), *folders)
        self.all_offer(("shelf exchange --copy", "shelf exchange row --beat"), *self.files)
        self.offers("ill shelf new other ", *self.known.roles)
        self.all_offer(("shelf retire row G1", "shelf status row", "shelf new other requester"))

    def of_lists(self):
        """Adds lines for `status`, `list`, `report` and `take`."""
        self.offers("ill status my", "my desk")
        self.offers(r"ill status my\ d", "my desk")
        self.all_offer([f"list {flag}" for flag in (
            "--open", "--mine", "--actions", "--notes", "--since-when", "--find Maps", "--find=Maps", "--today 20250301", "--ahead 3",
            "--due-before=20250301", "--state SHIPPED", "--state=RENEW/PENDING", "one", "one -- two")], *self.files)
        self.all_offer([f"news {flag}" for flag in ("--last 7", "--last=7", "one", "one --last 7 two")], *self.files)
        self.all_offer(("list --today", "list one --ahead", "list one --due-before", "exchange one --today",
                        "news one --last"))
        self.all_offer(("report --today 20250301", "report --today=20250301", "report one",
                        "report one --today 20250301 two"), *self.files)
        for command in ("list", "news", "report"):
            self.offers(f"ill {command} fol", "folder")
        self.offers("ill report --today ")
        self.offers("ill list one --state ", *command_line.words_of("state"))
        self.offers("ill take --long ", *self.files)
        self.all_offer(("take --key", "take one --key", "send one G1 T1 1 --key", "key --show"), *self.files)

    def of_folders(self):
        """Adds lines for folders of message files."""
        self.all_offer(("inbox one", "inbox -- one", "outbox one", "outbox one --stream", "exchange one",
                        "exchange one --copy two folder", "exchange --today 20250301 --overdue one",
                        "exchange -- one folder"), *self.folders)
        self.all_offer(("exchange --copy", "exchange one folder --beat", "exchange --expire"), *self.files)

    def of_loans(self):
        """Adds lines for roles, groups and transactions."""
        self.all_offer(("new one", "new -- one", "new one --"), *self.known.roles)
        self.all_offer(("new one requester", "take one", "send one G1 T1", "send one G2", r"send my\ desk", "act other",
                        "status one", "loan one G1 T1", "loan one G2", "inbox one folder", "exchange one folder folder",
                        "simulate G1", "help new"))
        for line in ("send one", "send -- one", "loan one", "loan -- one", "act one --today 20250301", "act -- one"):
            self.offers(f"ill {line} ", "G1", "my group")
            self.offers(f"ill {line} G", "G1")
            self.offers(f"ill {line} G1 ", "T1", "T2")
            self.all_offer([f"{line} {group}" for group in (r"my\ group", '"my group"', "'my group'")], "no. 1")

    def of_actions(self):
        """Adds lines for `act`."""
        for day in ("", "--today 20250301 ", "--today=20250301 "):
            self.offers(f"ill act {day}", *self.files)
            for file in ("one", "two", r"my\ desk", '"my desk"', "'my desk'", "other"):
                self.of_act(day, file)
        self.offers("ill act one G1 T1 re", *beginning("re", self.requester))
        self.offers("ill act two G1 T1 --today 20250301 re", *beginning("re", self.responder))
        for line in ("one --today ", "--today ", "one G1 T1 request ", "one G1 T1 request -",
                     "one G1 T1 request --today ", "one -- G1 T1 request --"):
            self.offers(f"ill act {line}")

    def of_act(self, day, file):
        """Adds lines for `act` on a file, with a day or without one."""
        words = {"one": self.requester, "two": self.responder}.get(file, self.requester + self.responder)
        for line in (f"{day}{file} G1 T1 ", f"{file} {day} G1 T1 ", f"{file} G1 T1 {day}", f"{day}-- {file} G1 T1 ",
                     f"{file} {day}-- G1 T1 "):
            self.offers(f"ill act {line}", *words)
        self.offers(f"ill act {day}{file} -", EXPLAIN, "--help", "--today", "--by", "--seen", "--dry-run", "--long")
        self.offers(f"ill act {day}{file} G1 T1 -", EXPLAIN, "--help", "--today", "--by", "--seen", "--dry-run", "--long")
        self.offers(f"ill act {day}{file} -- G1 T1 --")

    def compare(self, shell, printed):
        """Compares what a shell has offered with what it has to. `printed` has the lines in their order, each with
        its words."""
        wanted, others = lines_of_offers(self.rows), lines_of_offers(printed)
        report_only("the help", wanted - others)
        report_only(shell, others - wanted)
        REPORT.case(f"what {shell} offers", None if wanted == others else "they differ")


def beginning(prefix, words):
    """Returns those of the words that begin with `prefix`."""
    return [word for word in words if word.startswith(prefix)]


def lines_of_offers(rows):
    """Returns a text for each line of `rows`, and one for each word that is offered at its end. Options of one letter
    are left out."""
    lines = set()
    for number, (line, words) in enumerate(rows, 1):
        prefix = f"{number}: {plain(line)}| "
        lines.add(prefix)
        lines |= {prefix + plain(word) for word in words if word and not re.fullmatch(ONE_LETTER, plain(word))}
    return lines


def plain(word):
    """Returns a word as every shell offers it: without backslashes, and without the slash after a folder."""
    return re.sub("(.)/$", r"\1", word.replace("\\", ""))


def blocks(text):
    """Returns the lines of a text that begin with `> `. Each has with it the lines up to the next of them."""
    rows = []
    for line in text.splitlines():
        if line.startswith("> "):
            rows.append((line[2:], []))
        elif rows:
            rows[-1][1].append(line)
    return rows


# ---- The shells

KEYS = r"""bind "\"\C-g\": insert-completions"; bind -x "\"\C-o\": tell"
tell() { printf "%s\n" "$READLINE_LINE" >> ../inserted; READLINE_LINE=; }
"""

INNER_ZSH = r"""setopt extended_glob
fpath=($1 $fpath)
autoload -Uz compinit && compinit -D -u
compadd() {
  local -a found
  if [[ " ${argv[1,(i)(-|--)]} " != *' -'[a-zA-Z12]#[OAD][[:space:]]* ]]; then
    builtin compadd -O found "$@"
    print -rl -- $found >> ../told
  fi
  builtin compadd "$@"
}
each() {
  local line
  while IFS= read -r line; do
    print -r -- "> $line" >> ../told
    BUFFER=$line CURSOR=$#line
    zle complete-word
  done < ../lines
  exit
}
zle -N zle-line-init each
"""

OUTER_ZSH = """zmodload zsh/zpty
zpty shell zsh -f -i
zpty -w shell "set -- ${(q)1}; source ../inner.zsh"
while zpty -r shell; do :; done
"""

EACH_FISH = """source $argv[1]
while read -l line
    echo "> $line"
    complete -C "$line"
end < ../lines
"""


def run_shell(words, given=None, output="terminal", **known):
    """Runs a shell in the folder of the desks, and returns what it has left. `output` is the file of its output there,
    or None to return the output. `known` are further variables."""
    return harness.run(words, given, cwd="shelf", limit=SECONDS, output=output, errors="terminal-errors",
                       env={**os.environ, **known}, start_new_session=True)


def version_of(words, **known):
    """Returns the version that a shell reports."""
    return harness.run(words, env={**os.environ, **known}).output.decode().strip()


def offered_by_bash(rows):
    """Returns each line of `rows` with the words that bash offers: those in the line when all completions are
    inserted."""
    keys = f"source {shlex.quote(COMPLETIONS)}/ill.bash\n" + KEYS + "".join(f"{line}\a\x0f" for line, _ in rows)
    write("inserted", "")
    run_shell(["bash", "--norc", "-i"], keys.encode(), INPUTRC="/dev/null", HISTFILE="")
    inserted = text_of("inserted").splitlines()
    inserted += [""] * (len(rows) - len(inserted))
    return [(line, words_inserted(line, text)) for (line, _), text in zip(rows, inserted)]


def words_inserted(line, inserted):
    """Returns the words that were inserted in place of the last word of a line."""
    if inserted == line:
        return []
    before = line.replace(r"\ ", "__").rpartition(" ")[0]
    return re.sub(r"([^\\]) ", r"\1\n", inserted[len(before) + 1:]).split("\n")


def offered_by_zsh():
    """Returns each line with the words that `compadd` of zsh would add, in a shell on a terminal of its own."""
    write("inner.zsh", INNER_ZSH)
    write("outer.zsh", OUTER_ZSH)
    write("told", "")
    run_shell(["zsh", "-f", "../outer.zsh", COMPLETIONS])
    return blocks(text_of("told"))


def offered_by_fish():
    """Returns each line with the words to which fish says that it would complete. If nothing begins with the word at
    the cursor, fish offers words that have it within, as `simulate-desks` for `-`. These are left out."""
    write("each.fish", EACH_FISH)
    done = run_shell(["fish", "--no-config", "../each.fish", f"{COMPLETIONS}/ill.fish"], output=None, HOME=os.getcwd())
    rows = blocks("".join(line.split("\t")[0] + "\n" for line in done.output.decode().splitlines()))
    return [(line, [word for word in words if word.replace("\\", "").startswith(word_at_cursor(line))])
            for line, words in rows]


def word_at_cursor(line):
    """Returns the last word of a line, in which a space may stand after a backslash."""
    return line.replace(r"\ ", "\1").rpartition(" ")[2].replace("\1", " ")


def ask_shells(offers):
    """Asks the shells that are there what they offer."""
    write("lines", "".join(f"{line}\n" for line, _ in offers.rows))
    asked = ["bash " + version_of(["bash", "-c", "echo $BASH_VERSION"])]
    offers.compare("bash", offered_by_bash(offers.rows))
    if shutil.which("zsh"):
        asked.append("zsh " + version_of(["zsh", "-f", "-c", "print -r -- $ZSH_VERSION"]))
        offers.compare("zsh", offered_by_zsh())
    else:
        REPORT.skip("what zsh offers", "there is no zsh")
    if shutil.which("fish"):
        asked.append("fish " + version_of(["fish", "--no-config", "-c", "echo $version"], HOME=os.getcwd()))
        offers.compare("fish", offered_by_fish())
    else:
        REPORT.skip("what fish offers", "there is no fish")
    print(f"the shells that were asked: {', '.join(asked)}", flush=True)


# ---- Examples

def check_width(name, text):
    """Refuses a help with a line that is too wide. The line of the usage may be."""
    wide = [line for line in text.splitlines() if not line.startswith("Usage") and len(line.encode()) > WIDTH]
    REPORT.same(f"no line of the help of {name} is wider than {WIDTH} columns", wide, [])


def examples_of(text):
    """Returns the examples of a help, as a document that tools/run-document performs."""
    lines, is_within, is_empty = ["```"], False, False
    for line in text.splitlines():
        if not line:
            is_empty = is_within
            continue
        if line.startswith("  $ "):
            is_within = True
        elif not line.startswith(" "):
            is_within = False
        if is_within:
            lines += [""] * is_empty + [line[2:]]
        is_empty = False
    return lines + ["```"]


def perform(name, lines, program):
    """Performs a document of examples by tools/run-document."""
    write("example.md", "".join(f"{line}\n" for line in lines))
    done = harness.run([os.path.join(harness.TOOLS, "run-document"), program, "example.md"], errors=subprocess.STDOUT,
                       limit=None)
    if not REPORT.case(name, f"status {done.status}" if done.status else None):
        print(done.output.decode(errors="replace"), end="", flush=True)


def main(program):
    """Compares all, in the folder that it is in. Returns the exit status."""
    os.mkdir("bin")
    os.symlink(program, "bin/ill")
    os.environ.update(PATH=f"{os.getcwd()}/bin:{os.environ['PATH']}", LC_ALL="C")
    ill = harness.Program(program)
    ill.path = os.path.abspath("bin/ill")
    compare_printed(ill)
    known, page = Help(ill), Page()
    compare_page(known, page)
    render_page()
    prepare_desks(ill)
    ask_shells(Offers(known))
    for command in known.on_shelf:
        check_width(f"shelf {command}", known.texts[f"shelf {command}"])
    for command in ["ill", *known.commands]:
        if command != "help":
            perform(f"examples of the help of {command}", examples_of(known.texts[command]), program)
            check_width(command, known.texts[command])
    perform("examples of the man page", page.examples(), program)
    return REPORT.status()
