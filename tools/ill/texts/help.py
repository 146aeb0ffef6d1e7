"""Compares help, man page and explanations with the numbers, exit statuses and words of the sources.

It reads the help as the module `command_line` has it, which is what the program prints. It compares

- each number, in figures or as a word from two on, with the constants of the sources. Phrases with numbers stand below;
  a number in no such phrase is a fault, and so is a phrase that no text has. Of the man page it reads what is written
  by hand;
- the status of each fault of the list of `ill --help`, and those of each command, with what the program answers. Ends
  that all commands have, or all on a desk, stand in `ill --help` alone;
- lists of words: roles, actions, results, outcomes, marks, lines of a script and lines of a status;
- each word in backquotes, in capitals or with the name of a message, with the words that there are;
- the numbers, verbs, results and reserved names in the sentences of `--explain`.
"""
import os
import re

from ill import command_line, repository
from ill.repository import Unread, read
from ill.texts import words as of_page
from ill.texts.words import HELP, MAN, body, find, named

EXPLAIN = "crates/ill_explain/src"
(SCRIPT, WORLD, WORDS, TEXT, BESIDE, SHOW, ROWS, LIST, NEWS, REPORT, SLIP, COUNTED, DESK, NIGHT, INBOX, FILES, KEY,
 COMMANDS, VISITS, EXCHANGE, FOLDERS, SHELF, ROOM) = (
    f"crates/ill_{room}/src"
    for room in ("script", "world", "words", "text", "beside", "show", "rows", "list", "news", "report", "slip", "figures",
                 "desk", "night", "inbox", "files", "key", "commands", "visits", "exchange", "folders", "shelf", "room"))
# The arguments that name a desk, or files of it, and those that name the file of a key.
OF_DESKS = {"FILE", "PATH"}
OF_KEYS = {"KEYFILE", "key"}
# The sources of the commands on a file: what locks it is found in their bodies.
FILED = (f"{COMMANDS}/commands.rt", f"{VISITS}/visits.rt", f"{COMMANDS}/note.rt",
         f"{EXCHANGE}/exchange.rt", f"{EXCHANGE}/rooms.rt")
# The source of what a command does after it has opened what it works on.
ENGINES = {"exchange": (f"{EXCHANGE}/rooms.rt",)}
FIGURES = ("one two three four five six seven eight nine ten eleven twelve thirteen fourteen fifteen sixteen "
           "seventeen eighteen nineteen twenty").split()
NUMBER = r"(?<![\w.])(?:\d+(?:,\d{3})*|" + "|".join(FIGURES) + r")(?![\w])"

# What the texts say with numbers: each word in braces is a number of the sources, as `numbers_of` has them.
PHRASES = """
room for {loans} loans; the desk has {loans} loans; the desk has {loans}
begin one more than {loans}; From {many} loans on; loans of a desk {loans}; would begin a loan, and the desk has {loans}
{mails} at most in one run; beyond the first {mails}; its first {longer} bytes; longer than {longest} bytes
more than {messages} messages; messages of one input {messages}
at most {messages} of them, each of {longest} bytes at most
{shortest} to {longest} of them; {shortest} to {longest} bytes
{lines} lines, of at most {line} bytes each; {lines} lines of at most {line} bytes
{first} to {qualifier} characters of ASCII each, from space to tilde
the words that remain, of {item} bytes at most; {first} to {item} bytes of UTF-8, without control characters of ASCII
more than {record} bytes; at most {record} bytes; FILE {record} bytes
wait for each other: {wait} seconds; held FILE for {wait} seconds
{day_digits} digits, as {day}, of the years {first_year} to {last_year}; A day is {day_digits} digits, as {day}
The day of the action, as {day}; The day of the report, as {day}; The day of the run, as {day}
The first day of the span, as {day}
want the day: `--today {day}`; DAY is {day_digits} digits, as {day}; The day of the work, as {day}; came on this day or later, as {day}
at most DAYS days away: {first} to {last}, or {ahead} without this option; a due date is soon, or {ahead}
N days after that day, {first} to {last}; the last N messages, {first} to {last}
only the last N messages are shown, {first} to {last}; no count of messages: it is {first} to {last}
no number of days: it is {first} to {last}; after `+` stands a number from {first} to {last}
days {first_day} to {last_day}
N one to {days_digits} digits
one to {number_digits} digits, with a value from {first} to {last}; The number of the message, {first} to {last}
numbered {first}, {second}, {third}, up to {last}; numbered {first}, {second}, {third}, in the order
numbers its messages of a loan {first}, {second}, {third}.
all {last} numbers are used; messages of a loan {last}
If at most {few} numbers are left after an action; that has at most {few} numbers left
{status_lines} lines for each loan; The first {status_lines} lines on standard output
lines of {side_fields} fields
has {roles} desks, one as requester and one as responder, in {roles} files; script of {roles} desks
{desk_words} words are seen at desks alone; Bytes of a message or a record are counted from {zero}
ISSUED has risen by one then, as from {first}/{first} to {second}/{second}
ill send FILE G1 T1 {first} > message; `ill send FILE G1 T1 {second}`
A loan that the desk does not have is IDLE - {zero}/{zero}
it has {first} to {qualifier} characters; has bytes: it has {qualifier} at most
The item has bytes: it has {item} at most; The note has bytes: it has {item} at most
a day has {day_digits} digits, as {day}; the years are {first_year} to {last_year}; last day of the calendar, {last_day}
no number of a message: it is {first} to {last}; stand one to {days_digits} digits; counted from {zero}
makes {made} desks at most
which {roles} libraries hold; {key_groups} groups of four digits; has {key_groups} groups of four
It has {key} bytes, and nobody but its owner; a key, which has {key} bytes; no file of a key: that has {key} bytes
It has {sealed} bytes more; as many as fit into {letter} bytes; at most the first {letter_first} bytes of the letter
`letter-` and {letter_digits} digits of its SHA
so no loan can come to {roles} of them; as `%` and {escaped} digits; with % and {escaped} digits
is {well} after `done`, and {refused} after `not-now`; is {well} if the shelf is saved, and {refused} with `exists`
If none fails, it is {failed} if files are deferred, {refused} if one was quarantined or in conflict, else {well}.
If none fails, it is {failed} if files are deferred, or with; Else it is {refused} if a file wants a person, or {well}.
If DIR is no shelf, it is {refused} with `no-record`
A due date is soon if it is at most {soon} days away
"""
# Numbers in names, and what they are no numbers of: standards, letters, versions of this program, a day with hyphens.
NAMES = r"`\+14` is the day 14|UTF-8|Code 128|`[0-9a-f]{32}-\d{3}`|SHA-256|ISO \d+(?:-\d)?|RFC 4180|X\.690|U\+00\d\d" \
        r"|ill 0\.1\b|\b0\.1 does|simple two-party profile|hyphens, as \d{4}-\d\d-\d\d\b"

# The faults of a key.
KEY_FAULTS = ["key missing", "key unreadable", "key open", "key size", "key digits", "key check"]

# What the sentences on the exit status of a command name, by the keys of STATUS below.
CAUSES = {
    "the desk is saved": "ok", "all files are done": "ok", "one was quarantined or in conflict": "refused",
    "the action is done": "ok", "each was taken, a repeat or stale": "ok", "the message is written": "ok",
    "the loan is shown": "ok", "the slip is written": "ok", "all messages are there": "ok",
    "the note is kept": "ok", "nothing wants a person": "ok",
    "the key is made, shown or read": "ok",
    "all of them are shown": "ok", "they are counted": "ok", "the whole script was performed": "ok",
    "it is refused": "refused", "one was anything else": "refused", "something does": "refused",
    "a bad record": "record",
    "the input has a faulty message or too many": "der, too-many",
    "one has a fault or there are too many": "der, too-many", "a line that is no event and no use": "script",
    "a line that is no event": "script"}
# The lines of faults that stand for causes of another name.
LINE_OF = {"ok": "well", "der": "tag at N", "script": "script at line N", "record": "record short"}
# The causes of faults whose lines have other names, by their variants.
CAUSE_OF = {"ToolFault::Der": "der", "ToolFault::Script": "script", "DeskFault::Saved": "record"}
# Faults of a desk that no command prints as a fault: refusals are outcomes, and no command gives a desk bytes.
UNPRINTED = {"DeskFault::Core", "DeskFault::DeskFull", "DeskFault::Bytes", "DeskFault::Trailing"}

# The variants whose words `act` and `take` may write, beside `done` and what all desks answer.
ACTED = ["NotNow", "DateEarlier", "DateNotLater", "NotDue", "NotExpired", "NumbersUsed"]
TAKEN = ["Taken", "Repeat", "Stale", "Conflict", "WrongRole", "NumbersUsed"]
AT_DESKS = ["NoSuchTransaction", "DeskFull"]
# The forms of an argument of an action or an event, by the call that reads it.
FORMS = {"yes": ["yes", "no"], "committed": ["old", "new"], "optional_day": ["WISHED"], "read": ["RESULT"],
         "due": ["DUE"], "number": ["NUMBER"], "bytes": ["HEX"], "request": ["EXPIRY ITEM"], "bare": [""]}
# Words in capitals that stand for others.
CAPITALS = set("ACL APDU APDUs ASCII COMMAND CSV DAY DAYS DER DESK DIGEST DIR DUE EXPIRY FILE FOLDER GROUP HEX HTML ILL IN "
               "ISO ISSUED ITEM ITU JSON KEYFILE LOCK N NAME NUMBER OUT OUTCOME PATH REASON RELEASED RESULT RFC ROLE SIDE STATE "
               "TODAY SHA TRANSACTION TYPE U UTF VERB WISHED WORDS X".split())

COMPARED = repository.Comparison()
expect = COMPARED.expect


def expect_same(kind, found, wanted, place):
    """Counts what was compared, and keeps the fault if the text has not what the sources have."""
    expect(kind, found == wanted, f"{place}: it says {found}, and the sources say {wanted}")


def constant(name, path):
    """Returns the number that a source gives to a constant."""
    return int(find(rf"const {name}: \w+ = ([\d_]+);", path)[1].replace("_", ""))


# What the sources say.

def numbers_of():
    """Returns the numbers that the phrases name."""
    saved, record, der, values = (f"crates/{it}/src" for it in ("ill_saved", "ill_record", "ill_der", "ill_values"))
    years = find(r"year < (\d+) \|\| year > (\d+)", f"{values}/day.rt")
    pause = int(find(r"Duration::from_millis\((\d+)\)", f"{saved}/file_lock.rt")[1])
    number = find(r"pub struct Number \{\s*value: u(\d+),", f"{values}/number.rt")[1]
    least = 1 if "if value == 0 {" in body("new", f"{values}/number.rt") else 0
    roles = variants("Role", f"{record}/role.rt")
    # A line of a loan has an outcome, and the fields of Shown, of which the last two are one of it.
    shown = find(r"struct Shown \{.*?\}", f"{saved}/shown.rt")[0]
    # A Cancel of qualifiers of one byte: two octets of a head, the version, the id with its parts, and the number.
    shortest = 2 + constant("VERSION_SIZE", f"{der}/sizing.rt") + 2 + 2 * 3 + 3
    return {
        "zero": 0, "first": least, "second": least + 1, "third": least + 2, "last": 2 ** int(number) - 1,
        "loans": constant("SIDES_LIMIT", f"{record}/sides.rt"), "messages": constant("MAX_APDUS", f"{TEXT}/input.rt"),
        "many": constant("MANY", f"{VISITS}/listing.rt"), "few": constant("FEW", f"{SHOW}/numbers.rt"),
        "soon": constant("SOON", f"{ROWS}/soon.rt"),
        "mails": constant("MESSAGE_FILES", f"{FOLDERS}/message_file.rt"),
        "longer": constant("APDU_LIMIT", f"{der}/header.rt") + constant("LINE_END", f"{FOLDERS}/message_file.rt") + 1,
        "longest": constant("APDU_LIMIT", f"{der}/header.rt"), "shortest": shortest,
        "lines": constant("MAX_LINES", f"{SCRIPT}/simulation.rt"), "line": constant("MAX_LINE", f"{SCRIPT}/lines.rt"),
        "qualifier": constant("QUALIFIER_LIMIT", f"{values}/text.rt"),
        "item": constant("ITEM_LIMIT", f"{values}/text.rt"),
        "record": constant("RECORD_LIMIT", f"{record}/sides.rt"),
        "wait": constant("TRIES", f"{saved}/file_lock.rt") * pause // 1000,
        "day_digits": int(find(r"text\.len\(\) == (\d+) && is_digits", f"{values}/day.rt")[1]),
        "first_year": int(years[1]), "last_year": int(years[2]),
        "first_day": int(years[1] + "0101"), "last_day": int(years[2] + "1231"),
        "days_digits": constant("DAYS_DIGITS", f"{WORDS}/words.rt"),
        "ahead": constant("SOON", f"{ROWS}/soon.rt"),
        "number_digits": constant("NUMBER_DIGITS", f"{WORDS}/words.rt"),
        "status_lines": len(status_labels()), "side_fields": len(re.findall(r"\n    pub \w+:", shown)),
        "roles": len(roles), "desk_words": len(variants("DeskOutcome", f"{WORDS}/outcome.rt")) - 1,
        "letter": constant("TEXT", f"{ROOM}/sealed.rt"), "letter_digits": constant("DIGITS", f"{ROOM}/sealed.rt"),
        "letter_first": constant("LETTER_LIMIT", f"{KEY}/letter.rt") + 1,
        "sealed": constant("TEXT", "crates/ill_seal/src/letter.rt") + constant("SEAL", "crates/ill_seal/src/letter.rt"),
        "key": constant("SIZE", f"{KEY}/key_file.rt"), "key_groups": constant("DIGITS", "crates/ill_seal/src/key.rt") // 4,
        "made": constant("NEW_DESKS", f"crates/ill_sorting/src/sorting.rt"), "escaped": 2,
        **{name: status_of(cause) for name, cause in (("well", "ok"), ("refused", "refused"), ("failed", "left"))}}


def variants(name, path):
    """Returns the variants of an enum."""
    return re.findall(r"^    (\w+)", find(rf"pub enum {name} \{{\n(.*?)\n\}}", path)[1], re.M)


def arguments_of():
    """Returns the commands for one desk, or for none, in their order, each with its arguments by their names."""
    return {command.word: {part.name: part for part in command.parts} for command in command_line.commands()[0]}


def status_labels():
    """Returns the labels of the lines of a status."""
    path, labels = f"{SHOW}/status.rt", []
    for line in body("push_status", path).partition("{\n")[2].splitlines():
        called = re.search(r"\b(push_\w+)\(", line)
        if called and called[1] != "push_line":
            line = body(called[1], f"{TEXT}/lines.rt" if called[1] == "push_id" else path)
        labels += labels_in(line)
    return list(dict.fromkeys(labels))


def loan_labels():
    """Returns the labels of the lines of a loan that a status has not."""
    sources = read(f"{SHOW}/loan_lines.rt")
    return labels_in(sources + body("push_item", f"{TEXT}/lines.rt"))


def results_of():
    """Returns the names of the results, in their order."""
    return list(named("AnswerResult", read("crates/ill_values/src/apdu.rt")).values())


def labels_in(text):
    """Returns the labels of the lines that a source adds."""
    return re.findall(r'push_\w+\(lines, "([\w-]+)"', text)


def texts_of(kind, path):
    """Returns the text of each fault of a type by its variant, with the type that stands in it, or an empty text."""
    said = re.findall(r'#\[error\("([^"]+)"\)\]\s*(\w+)(?:\((\w+)\))?', find(rf"enum {kind} \{{.*?\n\}}", path)[0])
    return {name: (text, inner) for text, name, inner in said}


SOURCES = {"ToolFault": f"{TEXT}/fault.rt", "DeskFault": "crates/ill_saved/src/fault.rt",
           "BadKey": f"{TEXT}/fault.rt", "RecordFault": "crates/ill_record/src/fault.rt", "StoreFault": "crates/ill_store/src/store.rt",
           "DerFault": "crates/ill_der/src/fault.rt"}


def told_faults(kind="ToolFault"):
    """Yields the text of each fault that a command prints, with the variant that has its status."""
    for name, (text, inner) in texts_of(kind, SOURCES[kind]).items():
        variant = f"{kind}::{name}"
        if variant in UNPRINTED or name == "OutOfMemory" and kind != "ToolFault":
            continue
        if inner in SOURCES:
            yield from ((text.replace("{0}", below), of if variant == "ToolFault::Desk" else variant)
                        for below, of in told_faults(inner))
        else:
            yield text.replace("{0}", "N"), variant


def status_of(cause):
    """Returns the exit status of a cause, or None if no command ends with it."""
    return command_line.ends().get(LINE_OF.get(cause, cause))


def source_of(command):
    """Returns the path of the source of a command: it stands in one of the crates of the program."""
    crates = (TEXT, SHOW, ROWS, LIST, NEWS, REPORT, SLIP, COUNTED, DESK, NIGHT, INBOX, FILES, KEY, COMMANDS,
              EXCHANGE, SHELF, "crates/ill_tool/src")
    found = [path for path in (f"{crate}/{command}.rt" for crate in crates) if os.path.exists(repository.full(path))]
    if len(found) != 1:
        raise Unread(f"{command}.rt: it stands {len(found)} times in {', '.join(crates)}")
    return found[0]


def causes_of(command, arguments):
    """Returns the causes of the ends that a command may have, by its arguments and by what its source calls."""
    name = command.replace("-", "_")
    source = "".join(read(path) for path in (source_of(command.partition("-")[0]), *ENGINES.get(command, ())))
    call = find(rf"=>[\s{{]*(?:all_succeed\()?(?:run_)?{name}(?:_as|_with)?\(((?:[^()]|\([^()]*\))*)\)",
                "crates/ill_tool/src/words.rt")[1]
    found = {"ok", "write", "memory"} | ({"read"} if "reader" in call else set())
    if OF_DESKS & set(arguments):
        found |= {"store failed", "store too-large"}
        found |= {"exists"} if command == "new" else {"no-record", "record"}
    if OF_KEYS & set(arguments):
        found |= set(KEY_FAULTS[:4])
    if "KEYFILE" in arguments:
        found |= {"exists", "store failed", *KEY_FAULTS}
    if any(part.label for name, part in arguments.items() if name not in OF_DESKS):
        found.add("arguments")
    if "key" in arguments and "read" in found:
        found.add("not-sealed")
    called = {"handle_input(": {"der", "too-many"}, "refused(": {"refused"}, "wants_person(": {"refused"},
              "print_tally(": {"left"}, "Err(ToolFault::Deferred)": {"left"}, f" {name}(alloc": {"script"},
              "DeskFault::NoSuchTransaction)": {"no-such-transaction"},
              "desk.message_of(": {"no-such-transaction", "no-such-message", "not-saved"}}
    return found.union(*(more for word, more in called.items() if word in source))


def verbs(names, path):
    """Yields the forms of what the functions with these names read: the verb, and what follows it."""
    for name in names:
        said = body(name, path)
        arms = [*re.finditer(r'is\(verb, "([\w-]+)"\)(?: && is\(word, "(\w+)"\))?', said)]
        for arm, after in zip(arms, [*arms[1:], None]):
            rest = said[arm.end():after.start() if after else None]
            call = re.search(r"(\w+)\((?:alloc, )?(?:word|day|expiry)\b", rest)
            for form in FORMS[call[1] if call else "bare"]:
                yield " ".join(part for part in (arm[1], arm[2], form) if part)


def actions():
    """Returns the forms of the actions of each role."""
    path = f"{WORDS}/words/actions.rt"
    return {"requester": [*verbs(["bare_wish", "wish_with_word", "wish"], path)],
            "responder": [*verbs(["bare_deed", "deed_with_word", "grant"], path)]}


def events():
    """Returns the forms of the lines of a script."""
    own = verbs(["bare_event", "event_with_word"], f"{WORLD}/script/events.rt")
    sided = [f"{verb} SIDE {rest}".strip() for verb, _, rest in (form.partition(" ") for form in own)]
    found = actions()
    return ([f"requester {form}" for form in found["requester"]] +
            [f"responder TODAY {form}" for form in found["responder"]] + sided)


# The texts.

def texts():
    """Returns the texts of the help by their names, without the examples, and those of the command line."""
    found = command_line.texts()
    found["ILL"] = re.sub(r"(?m)^(  \$ .*\n|  (?!\d)\S.*\n)+", "", found["ILL"])
    found["EXCHANGE"] = without_numbers_of_steps(found["EXCHANGE"])
    found["command_line"] = ". ".join(command_line.lines()) + "."
    return found


def without_numbers_of_steps(text):
    """Returns a text without the numbers of its steps, which begin with 1."""
    steps = re.findall(r"(?m)^  (\d)\. ", text)
    expect_same("lists", steps, [str(step) for step in range(1, len(steps) + 1)], "EXCHANGE: the numbers of the steps")
    return re.sub(r"(?m)^  \d\. ", "  ", text)


def manual():
    """Returns what is written by hand in the man page, without its macros, its fonts and its examples."""
    text = of_page.by_hand(read(MAN)).partition(".SH DESCRIPTION")[2]
    text = re.sub(r"(?ms)^\.EX$.*?^\.EE$|^\.TP \d+$", "", text)
    text = re.sub(r"\\f[A-Z]", "", text).replace("\\-", "-").replace("\\ ", " ")
    return re.sub(r"(?m)^\.(?:[A-Z]{1,2})\b ?", "", text)


def explanations():
    """Returns the sentences of `--explain`, without what they are about."""
    sources = (read(f"{EXPLAIN}/{name}") for name in sorted(os.listdir(repository.full(EXPLAIN))))
    found = (said for source in sources for said in re.findall(r'"  ([^"]*)"', source))
    return re.sub(r"\{\w+\}`? ?", "", " ".join(found))


def joined(text):
    """Returns a text in one line."""
    return " ".join(text.split())


def table(text, after):
    """Returns the lines of a table of a text, below the line that has the words `after`."""
    lines = text.partition(after)[2].split("\n\n")[0].splitlines()[1:]
    return [line.strip() for line in lines if re.match(r"  \S", line)]


def heads(lines):
    """Returns what stands before two spaces in each line."""
    return [re.split(r"  +", line)[0] for line in lines]


def listed(text, pattern, place):
    """Returns the words of a list that a pattern finds in a text."""
    found = re.search(pattern, joined(text))
    if found is None:
        raise Unread(f"{place}: it has no list like {pattern}")
    return re.findall(r"[\w.-]+", re.sub(r"\([^)]*\)|\b(?:and|or)\b", "", found[1]))


def expanded(line, known):
    """Returns the forms that a line with alternatives stands for. If they are not all `known`, returns the line
    alone."""
    first, *others = line.split(" | ")
    words = first.split()
    for place in range(len(words), -1, -1):
        forms = [first] + [" ".join(words[:place] + [other]) for other in others]
        if all(form in known for form in forms):
            return forms
    return [line]


# The comparison.

def compare_numbers(named_texts, numbers):
    """Expects that each number of a text stands in a phrase, and is that of the sources. Each phrase has to stand in a
    text."""
    phrases = [phrase.strip() for line in PHRASES.strip().splitlines() for phrase in line.split("; ")]
    seen = set()
    for name, text in named_texts.items():
        text = joined(text)
        read_spans = [found.span() for found in re.finditer(NAMES, text)]
        for phrase in sorted(phrases, key=len, reverse=True):
            for found in re.finditer(pattern_of(phrase), text, re.I):
                seen.add(phrase)
                if any(begin <= found.start() and found.end() <= end for begin, end in read_spans):
                    continue
                read_spans.append(found.span())
                for key, said in zip(re.findall(r"\{(\w+)\}", phrase), found.groups()):
                    compare_number(key, said, numbers, f"{name}: \"{found[0]}\"")
        for found in re.finditer(NUMBER, text, re.I):
            known = any(begin <= found.start() and found.end() <= end for begin, end in read_spans)
            if not known and found[0].lower() != "one":
                around = text[max(0, found.start() - 40):found.end() + 30]
                COMPARED.faults.append(f"{name}: {found[0]} stands in no phrase that is known: \"{around}\"")
    COMPARED.faults.extend(f"no text says: {phrase}" for phrase in phrases if phrase not in seen)


def pattern_of(phrase):
    """Returns the pattern of a phrase, whose numbers are groups."""
    parts = re.split(r"\{\w+\}", phrase)
    return rf"({NUMBER})".join(re.escape(part) for part in parts) + r"(?!\w)"


def compare_number(key, said, numbers, place):
    """Expects that a number of a phrase is that of the sources, or a day of the calendar."""
    value = FIGURES.index(said.lower()) + 1 if said.lower() in FIGURES else int(said.replace(",", ""))
    if key == "day":
        year, month, day = value // 10000, value // 100 % 100, value % 100
        good = numbers["first_year"] <= year <= numbers["last_year"] and 1 <= month <= 12 and 1 <= day <= 31
        expect("numbers", good and len(said) == numbers["day_digits"], f"{place}: {said} is no day")
    else:
        expect_same("numbers", value, numbers[key], f"{place}, {key}")


def compare_faults(text):
    """Expects in the list of `ill --help` each fault that a command prints, with its status. The program has to know
    each fault of the sources."""
    expect_same("lists", sorted(command_line.faults()), sorted(printed for printed, _ in told_faults()),
                "ill help --json: the faults")
    wanted = {(status_of(printed), printed) for printed in command_line.faults()}
    wanted |= {(status_of(cause), "-") for cause in ("ok", "refused", "arguments")}
    lines = table(text, "The exit status, and the line of a fault")
    found = {(int(line[0]), re.split(r"  +", line)[1]) for line in lines}
    for status, printed in sorted(wanted | found, key=str):
        expect("statuses", (status, printed) in found, f"ILL: the list of faults lacks {status}  {printed}")
        expect("statuses", (status, printed) in wanted, f"ILL: no command ends with {status}  {printed}")


def compare_status(name, text, wanted):
    """Expects that the sentences on the exit status of a command name each thing of `wanted`, with its status. Returns
    the text without them."""
    said = re.search(r"The exit status is (.*?\.)(?= (?!It is)|$)", joined(text))
    found = set()
    parts = re.split(r"(?:^|,? (?:and )?|\. It is )([0-9]) (?=if |after |with |for )", said[1] if said else "")
    for status, part in zip(parts[1::2], parts[2::2]):
        for key in causes_in(part, name):
            found.add(key)
            expect_same("statuses", int(status), status_of(key), f"{name}: the status of {key}")
    expect_same("statuses", sorted(found - {"ok"}), sorted(wanted - {"ok"}), f"{name}: what it may end with")
    return joined(text).replace(said[0], "") if said else joined(text)


def listed_for_all(text):
    """Returns what `ill --help` says that any command may end with, any command on a desk, any of these but `new`, and
    any command with a key."""
    said = re.search(r"Any command may end with (.*?)\. One on a FILE, PATH or DIR may also end with (.*?), and each of "
                     r"these but `new` with (.*?)\. One with a KEYFILE may also end with (.*?)\.", joined(text))
    if said is None:
        raise Unread("ILL: it does not say what any command may end with")
    return [set(causes_in(part, "ILL")) for part in said.groups()]


def ends_of_all(text, command, own):
    """Returns what `ill --help` says that a command may end with, by its arguments."""
    of_any, of_desks, of_old_desks, of_keys = listed_for_all(text)
    return of_any | (of_desks if OF_DESKS & set(own) else set()) \
        | (of_old_desks if OF_DESKS & set(own) and command != "new" else set()) \
        | (of_keys if OF_KEYS & set(own) else set())


def causes_in(part, name):
    """Yields the causes that a part of a sentence on the exit status names. `name` is that of the text."""
    rest = part.partition(": ")[0]
    for cause in sorted(CAUSES, key=len, reverse=True):
        if re.search(rf"\b{cause}\b", rest):
            rest = rest.replace(cause, "")
            yield from CAUSES[cause].split(", ")
    for word in re.findall(r"`([^`]+)`", rest):
        if status_of(word) is None:
            raise Unread(f"{name}: no fault `{word}`")
        yield word
    rest = re.sub(r"`[^`]+`|\b(?:if|after|with|for|and|or)\b|[(),.\s]", "", rest)
    if rest:
        raise Unread(f"{name}: the exit status has words that are not known: {part}")


def compare_lists(text, arguments):
    """Expects that the lists of words are those of the sources. Returns the words that they have."""
    lists, words = lists_of(arguments)
    for name, pattern, wanted in lists:
        expect_same("lists", listed(text[name], pattern, name), wanted, f"{name}: \"{pattern}\"")
    for name, after, printed in (("ACT", "OUTCOME says why:", ACTED), ("TAKE", "as that of\n`ill act`:", TAKEN)):
        wanted = sorted(words[it] for it in printed + AT_DESKS)
        expect_same("lists", sorted(heads(table(text[name], after))), wanted, f"{name}: the outcomes")
    lines = heads(table(text["STATUS"], "if the desk has no loan:"))
    expect_same("lists", lines, status_labels(), "STATUS: the lines")
    parts = ("come these:", "each a number or\n`-`:", "in their place:", "and one more:", "after it this:")
    lines = [line for after in parts for line in heads(table(text["LOAN"], after))]
    expect_same("lists", sorted(lines), sorted(loan_labels()), "LOAN: the lines")
    lines = heads(table(text["VERIFY"], "These lines are printed:"))
    expect_same("lists", lines, labels_in(read(f"{SHOW}/verify.rt")), "VERIFY: the lines")
    for role, forms in actions().items():
        compare_forms(f"ACT: the words of a {role}", heads(table(text["ACT"], f"The words of a {role}")), forms)
    compare_forms("SIMULATE: the lines of a script", table(text["SIMULATE"], "The lines of a script:"), events())
    compare_forms("SIMULATE_DESKS: one more line", table(text["SIMULATE_DESKS"], "and one more:"), [use_line()])
    printable = find(r"\*byte >= (0x\w+) && \*byte <= (0x\w+)", "crates/ill_values/src/text.rt")
    expect_same("lists", " ~", "".join(chr(int(end, 16)) for end in printable.groups()), "from space to tilde")
    turns = named("Turn", read("crates/ill_core/src/turn.rt"))
    said = ["yes", "no", *loan_labels(), *turns.values()]
    return set(words.values()) | set(said) | {word for _, _, wanted in lists for word in wanted}


def lists_of(arguments):
    """Returns the lists in sentences: the text, the sentence and the words; and the words of all outcomes, by
    variant."""
    core, record = "crates/ill_core/src", "crates/ill_record/src"
    roles = [name.lower() for name in variants("Role", f"{record}/role.rt")]
    results = results_of()
    filed = [command for command, own in arguments.items() if OF_DESKS & set(own)]
    locking = [name for name in filed if re.search(r"\block\(|open_locked\(", body(name, *FILED))]
    reading = [it for it, own in arguments.items() if "read" in causes_of(it, own)]
    marks = dict.fromkeys(re.findall(r'push_mark\(&mut marks, .*?"([\w-]+)"', read(f"{SHOW}/marks.rt")))
    refusals = named("Refusal", read(f"{core}/refusal.rt"))
    at_desks = named("DeskOutcome", read(f"{WORDS}/outcome.rt"))
    unprinted = sorted(set(refusals) - set(ACTED + TAKEN))
    expect_same("lists", ["OtherTransaction", "OutOfMemory"], unprinted, "the refusals that no desk prints")
    words = refusals | named("Taking", read(f"{core}/taking.rt")) | at_desks
    return [("ILL", r"on one file\. (.*?) wait for each other", locking),
            ("ILL", r"until its input ends\. (.*?) wait for nobody", [it for it in filed if it not in locking]),
            ("ILL", r"change it\. (.*?) read and write no file",
             [it for it, own in arguments.items() if it not in filed and "KEYFILE" not in own]),
            ("ILL", r"Only ([^.]*?) read standard input", reading),
            ("NEW", r"name may not end in (.*?): what lies", beside()),
            ("NEW", r"two desks, one as (\w+) and one", roles[:1]), ("NEW", r"and one as (\w+), in", roles[1:]),
            ("SIMULATE", r"SIDE is (\w+ or \w+)\.", roles), ("STATUS", r"role (\w+ or \w+) group", roles),
            ("STATUS", "those that are set of (.*?), or `-`", list(marks)),
            ("ACT", r"RESULT is (.*?)\.", results),
            ("SIMULATE_DESKS", "at desks alone: `(.*?)` of what names", [at_desks[AT_DESKS[0]]]),
            ("SIMULATE_DESKS", "and `([^`]*)` of what would", [at_desks[AT_DESKS[1]]])], words


def compare_explanations():
    """Expects that the verbs, the results and the reserved names of `--explain` are those of the sources."""
    names = named("Verb", read("crates/ill_core/src/verb.rt"))
    rows = re.findall(r"\(Verb::(\w+), Role::(\w+), Parts::\w+\)", read(f"{EXPLAIN}/verbs.rt"))
    for role, forms in actions().items():
        found = sorted(names[verb] for verb, of in rows if of.lower() == role)
        expect_same("lists", found, sorted({form.split()[0] for form in forms}), f"explain: the verbs of a {role}")
    results = results_of()
    expect_same("lists", listed(explanations(), r"The results: (.*?)\.", EXPLAIN), results, "explain: the results")
    ends = re.findall(r'pub const \w+: &str = "([^"]+)"', read("crates/ill_disk/src/regular_file.rt"))
    expect_same("lists", [end for end in ends if end not in beside()], [], "explain: the reserved names")


def compare_options():
    """Expects that the options which no word of an action may be are those of all commands."""
    parts = [*of_page.options(), *of_page.general()]
    wanted = {word for part in parts for word in (part.option, part.letter) if word}
    expect_same("lists", sorted(command_line.program()["options"]), sorted(wanted), "ill help --json: all options")


def beside():
    """Returns the endings of the names of what lies beside the file of a desk."""
    said = find(r"const BESIDE: [^=]*= \[(.*?)\];", f"{FILES}/paths.rt")[1].split(", ")
    sources = read(f"{FILES}/paths.rt")
    return [end.strip('"') if end.startswith('"') else re.search(rf'const {end}: &str = "([^"]+)"', sources)[1]
            for end in said]


def use_line():
    """Returns the line that a script of two desks has beside the others."""
    return find(r'is\(first, "(\w+)"\)', f"{WORLD}/desk_script.rt")[1] + " GROUP TRANSACTION"


def compare_forms(place, lines, forms):
    """Expects that the lines of a list stand for these forms, each once."""
    found = [form for line in lines for form in expanded(line, forms)]
    expect_same("lists", sorted(found), sorted(forms), place)


def compare_words(named_texts, words, arguments):
    """Expects that each word in backquotes, in capitals or with the name of a message is one that there is."""
    states = set(command_line.words_of("state"))
    messages = set(named("ApduType", read("crates/ill_values/src/apdu_type.rt")).values())
    verbs_known = {form.split()[0] for forms in actions().values() for form in forms}
    examples = "\n".join([*command_line.texts().values(), *command_line.examples()])
    files = re.findall(r"^  \$ ill new (\w+)", examples, re.M)
    objects = "".join(map(read, (f"{TEXT}/apdu_object.rt", f"{SHOW}/objects.rt", f"{LIST}/list_objects.rt",
                                 f"{BESIDE}/diary.rt", f"{BESIDE}/since.rt", f"{NEWS}/news.rt", f"{LIST}/listed_news.rt",
                                 f"{ROWS}/listed.rt", f"{SHOW}/verify.rt", f"{INBOX}/objects.rt")))
    labels = set(re.findall(r'(?:\(|\(text, )"([\w-]+)"(?:, |\)\?;)', objects))
    counted = set(re.findall(r"(\w+) \{\1\}", read(f"{INBOX}/tally.rt")))
    staying = {f"NAME {word} REASON" for word in re.findall(r'b" (\w+) "', read(f"{NIGHT}/verdict.rt"))}
    sent = {f"{word} N" for word in re.findall(r'"(\w+) \{\w+\}\\n"', read(f"{INBOX}/objects.rt"))}
    printed = {text for text, _ in told_faults()}
    printed |= set(re.findall(r'b"(changed) "', read("crates/ill_desk/src/act_as.rt")))
    printed |= set(re.findall(r'b"(news:)"', read(f"{LIST}/morning.rt")))
    known = words | labels | counted | staying | sent | verbs_known | set(arguments) | printed | set(files) | {
        "done", "none", "-", "--", "--today", "--explain", "--help", "ill --help", "#", "+N", "ill: ",
        "ill COMMAND --help", "act --new-group", "_", "%", "PATH:", "letter-"}
    for name, text in named_texts.items():
        text = joined(text)
        for word in re.findall(r"`([^`]+)`", text):
            first, _, rest = word.partition(" ")
            rest = rest.removeprefix("shelf ")
            is_line = first == "ill" and rest.split()[0] in arguments or first in verbs_known
            is_mail = re.fullmatch(r"[0-9a-f]{32}-\d{3}", word)
            expect("words", word in known or is_line or is_mail, f"{name}: `{word}` is no word of the program")
        for word in re.findall(r"(?<![\w+-])[A-Z]{3,}(?:[/-][A-Z]{3,})*(?![\w-])", text):
            stands_for = set(word.split("/")) <= CAPITALS
            expect("words", word in states or stands_for, f"{name}: {word} is no state, and stands for nothing")
        for word in re.findall(r"\b(?:ILL|[A-Z][a-z]+)-[A-Z][a-z]+\b|(?<=\ba )[A-Z][a-z]+(?![\w-])", text):
            expect("words", word in messages, f"{name}: {word} is no message")


def compare():
    """Returns the faults of the help, and what was compared."""
    text, arguments = texts(), arguments_of()
    compare_faults(text["ILL"])
    words = compare_lists(text, arguments)
    for command, own in arguments.items():
        name = command.replace("-", "_").upper()
        wanted, listed = causes_of(command, own), ends_of_all(text["ILL"], command, own)
        expect_same("statuses", sorted(listed - wanted - {"arguments"}), [], f"ILL: {command} does not end with")
        text[name] = compare_status(name, text[name], wanted - listed)
    text["ILL"] = re.sub(r"(?m)^  \d  (\S+ )*", "", text["ILL"])
    compare_words(text, words, arguments)
    compare_explanations()
    compare_options()
    compare_numbers(text | {MAN: manual(), "explain": explanations()}, numbers_of())
    return COMPARED.faults, f"the help and the sources have the same {COMPARED.summary()}"
