"""Compares what `--json` writes with docs/ill.schema.json, and with what the commands write without it.

It takes the messages of examples/messages, and two desks whose loans have all states and awkward titles. It
looks that

- each line is one object of the schema, in UTF-8, and holds no character on which a terminal acts;
- its values are those of the lines that the same command writes without `--json`, in their order;
- the words of the schema are those of the sources.

The validator below knows the keywords that the schema uses, and refuses a schema with others. It prints how much was
compared, or what is wrong; exit 1 if anything is.
"""
import json
import os
import re
import shutil

from ill import harness
from ill.harness import TOP, read
from ill.screen import ACTING, shown

SCHEMA = json.loads(read(f"{TOP}/docs/ill.schema.json"))

# Titles with what JSON or a terminal might take for something else.
TITLES = {
    "quotes": '"War" and \'Peace\'', "backslashes": r"C:\maps\u0041 \" \n", "braces": '","reply":true},{"',
    "controls": "Maps\x80\x85\x9fRome", "turned": "\u202egpj.spam \u200e\u200f\u2066x\u2069\u061c",
    "wide": "地図 \U0001f4d6\U0001f469\u200d\U0001f52c \U0001f1eb\U0001f1ee", "combining": "e\u0301 \u0928\u093f \ufeff \u2028",
    "unseen": "\u00ad\u200b\u2060\u2064 \u200c\u200d \U000e0001\U000e007f\U000e0080",
    "script": "<script>alert(1)</script>", "longest": "é" * 100}

# The loans: the actions of both desks, one after another. After an action with '>' its message is carried.
COURSES = {
    "asked": "here request none Maps",
    "begun": "here request 20250310 Maps>",
    "conditional": "here request none Maps> there answer conditional>",
    "accepted": "here request none Maps> there answer conditional> here reply yes>",
    "declined": "here request none Maps> there answer conditional> here reply no>",
    "unfilled": "here request none Maps> there answer unfilled>",
    "cancelling": "here request none Maps> here cancel>",
    "cancelled": "here request none Maps> here cancel> there cancel-reply yes>",
    "not cancelled": "here request none Maps> here cancel> there cancel-reply no>",
    "expired": "here request 20250201 Maps> there expire>",
    "shipped": "here request none Maps> there ship +14>",
    "received": "here request none Maps> there ship +14> here receive>",
    "renewing": "here request none Maps> there ship +14> here receive> here renew 20250501>",
    "renewed": "here request none Maps> there ship +14> here receive> here renew none> there renew-answer yes +30>",
    "not renewed": "here request none Maps> there ship +14> here receive> here renew none> there renew-answer no>",
    "overdue": "here request none Maps> there ship 20250302> here receive> late overdue>",
    "renewing late": "here request none Maps> there ship 20250302> here receive> late overdue> here renew none>",
    "not received": "here request none Maps> there ship 20250302> late overdue>",
    "recalled": "here request none Maps> there ship +14> here receive> there recall>",
    "returned": "here request none Maps> there ship +14> here receive> here return>",
    "checked in": "here request none Maps> there ship +14> here receive> here return> there check-in>"}
DAYS = {"here": [], "there": ["--today", "20250301", "--by", "J.\u202eP."], "late": ["--today", "20250310"]}

PROGRAM = None  # as main has it
faults = []  # all that is wrong so far
compared = 0  # objects so far


# ---- the schema

def fails(schema, value, path="$"):
    """Returns why a value does not fit a schema, with the path of what does not; or None if it fits."""
    if isinstance(schema, bool):
        return None if schema else f"{path}: may not be there"
    for keyword, wanted in schema.items():
        fault = KEYWORDS[keyword](wanted, value, path, schema)
        if fault:
            return fault
    return None


def first(faults_of):
    """Returns the first fault of some, or None."""
    return next((fault for fault in faults_of if fault), None)


def says(is_so, path, what):
    """Returns None if it is so, or else the fault `what` at this path."""
    return None if is_so else f"{path}: {what}"


def referred(name):
    """Returns the definition of the schema that a reference names."""
    return SCHEMA["$defs"][name.removeprefix("#/$defs/")]


def is_type(name, value):
    """Returns true if a value is of this type of JSON."""
    kinds = {"object": dict, "array": list, "string": str, "null": type(None), "boolean": bool, "integer": int}
    return isinstance(value, kinds[name]) and (name == "boolean" or not isinstance(value, bool))


def fitting(schemas, value, path):
    """Returns how many of these schemas a value fits. `path` is that of the value."""
    return sum(fails(schema, value, path) is None for schema in schemas)


def extra(schema, value):
    """Returns the fields of an object that its schema does not name."""
    return [name for name in value if name not in schema["properties"]]


# What each keyword asks: a function of its words, a value, the path of the value, and the schema. It returns a fault,
# or None.
KEYWORDS = {
    "$schema": lambda *_: None, "$defs": lambda *_: None, "title": lambda *_: None, "description": lambda *_: None,
    "$ref": lambda name, value, path, _: fails(referred(name), value, path),
    "type": lambda name, value, path, _: says(is_type(name, value), path, f"is no {name}"),
    "const": lambda wanted, value, path, _: says(value == wanted and type(value) is type(wanted), path, f"is not {wanted}"),
    "enum": lambda wanted, value, path, _: says(value in wanted, path, f"is none of {wanted}"),
    "pattern": lambda pattern, value, path, _: says(re.search(pattern, value), path, f"is not like {pattern}"),
    "minLength": lambda least, value, path, _: says(len(value) >= least, path, "is too short"),
    "maxLength": lambda most, value, path, _: says(len(value) <= most, path, "is too long"),
    "minimum": lambda least, value, path, _: says(value >= least, path, "is too small"),
    "maximum": lambda most, value, path, _: says(value <= most, path, "is too large"),
    "maxItems": lambda most, value, path, _: says(len(value) <= most, path, "has too many items"),
    "uniqueItems": lambda _, value, path, schema: says(len(set(value)) == len(value), path, "has an item twice"),
    "items": lambda item, value, path, _: first(fails(item, each, f"{path}[{place}]") for place, each in enumerate(value)),
    "required": lambda names, value, path, _: says(set(names) <= set(value), path, f"lacks one of {names}"),
    "properties": lambda fields, value, path, _:
        first(fails(fields[name], value[name], f"{path}.{name}") for name in value if name in fields),
    "additionalProperties": lambda _, value, path, schema: says(not extra(schema, value), path, f"has {extra(schema, value)}"),
    "anyOf": lambda schemas, value, path, _: says(fitting(schemas, value, path), path, "is of no kind"),
    "oneOf": lambda schemas, value, path, _: says(fitting(schemas, value, path) == 1, path, "is not of one kind")}


# ---- an object as lines

def day(text):
    """Returns a day as the lines have it, or a dash for None."""
    return "-" if text is None else text.replace("-", "")


def or_dash(value):
    """Returns a value as text, or a dash for None."""
    return "-" if value is None else str(value)


def message_lines(apdu, item=str):
    """Returns the lines of a message, one for each field. `item` makes its title fit a screen."""
    values = {"reply": lambda yes: "yes" if yes else "no", "leaves": lambda yes: "yes" if yes else "no", "date": day,
              "item": item}
    return [f"{label} {values.get(label, str)(value)}" for label, value in apdu.items()]


def shown_lines(value):
    """Returns the lines of `show` for its object."""
    return message_lines({label: value[label] for label in value if label != "kind"})


def status_lines(loan):
    """Returns the seven lines of a loan for its object."""
    values = {**loan, "due": day(loan["due"]), "messages": f"{loan['released']}/{loan['issued']}",
              "marks": " ".join(loan["marks"]) or "-"}
    return [f"{label} {values[label]}" for label in "role group transaction state due messages marks".split()]


def loan_lines(loan):
    """Returns all lines of `loan` for its object."""
    lines = status_lines(loan) + [f"next {loan['next']}", f"now {' '.join(loan['now']) or '-'}"]
    if loan["item"] is not None:
        lines += [f"item {shown(loan['item'])}", f"expiry {day(loan['expiry'])}"]
    for label in "held", "accepted", "last_cancel", "last_renew":
        if label in loan:
            lines.append(f"{label.replace('_', '-')} {or_dash(loan[label])}")
    lines += note_lines("note", loan)
    for apdu in loan["messages"]:
        lines += ["", *message_lines(apdu, shown)]
    for apdu in loan["came"]:
        lines += ["", *message_lines(apdu, shown), "came yes"]
    return lines + [""] * bool(loan["history"]) + [history_line(entry) for entry in loan["history"]]


def history_line(entry):
    """Returns the line of what the diary says of a message."""
    return f"history {day(entry['day'])} {shown(or_dash(entry['by']))} {entry['what']} {entry['number']}"


def note_lines(label, loan):
    """Returns the line of a loan's note after this label, or no line."""
    return [] if loan["note"] is None else [f"{label} {shown(loan['note'])}"]


def list_lines(has_actions, has_notes=False, has_since=False):
    """Returns a function: the objects of `list` -> its lines, with the verbs, notes and days that these options show.
    Objects of several desks have the paths of the desks."""
    def lines_of(objects):
        """Returns the lines of these objects. The counts of a desk come after its loans."""
        lines, rows = [], []
        for value in objects:
            if value["kind"] == "loan":
                rows.append(value)
                continue
            if "file" in value:
                lines += [""] * bool(lines) + [f"{shown(value['file'])}:"]
            if any(row.get("file") != value.get("file") for row in rows):
                faults.append(f"the path of a loan is not that of its counts, {value}")
            lines += row_lines(rows, has_actions, has_notes, has_since)
            counts = (value[label] for label in ("loans", "open", "todo", "room"))
            lines.append("loans {}, open {}, to do {}, room for {}".format(*counts))
            rows = []
        return lines + [f"{len(rows)} loans without counts"] * bool(rows)
    return lines_of


def row_lines(rows, has_actions, has_notes, has_since):
    """Returns the lines of the loans of a desk, with a heading for each kind of work."""
    cells = [[row["state"], day(row["due"]).ljust(8), row["group"], row["transaction"], *[",".join(row["now"])] * has_actions]
             for row in rows]
    widths = [max(map(len, texts)) for texts in zip(*cells)]
    works, lines = [row["work"] for row in rows], []
    for place, (row, texts) in enumerate(zip(rows, cells)):
        if works[place - 1:place] != [row["work"]]:
            lines.append(f"{row['work']} ({works.count(row['work'])}):")
        columns = "".join(f"{text:<{width}}  " for text, width in zip(texts, widths))
        lines.append(f"  {columns}{shown(or_dash(row['item']))}")
        lines += note_lines("    note", row) if has_notes else []
        lines += [f"    since {day(row['since'])}"] if has_since and row["since"] else []
    return lines


def news_lines(rows):
    """Returns the lines of `news` for its objects."""
    cells = [[row["group"], row["transaction"], str(row["number"]).ljust(3), row["words"]] for row in rows]
    widths = [max(map(len, texts)) for texts in zip(*cells)]
    return [*("  " + "".join(f"{text:<{width}}  " for text, width in zip(texts, widths)) + shown(or_dash(row["item"]))
              for row, texts in zip(rows, cells)), f"messages {len(rows)}, shown {len(rows)}"]


def standing(value):
    """Returns how a loan stands after a message or an action: its state, its due date and its numbers."""
    return f"{value['state']} {day(value['due'])} {value['released']}/{value['issued']}"


def night_lines(value):
    """Returns the lines of a night for one of its objects."""
    if value["kind"] == "message":
        named = [value[label] for label in ("group", "transaction", "apdu")]
        rest = {label: value[label] for label in ("answers", "result", "reply", "date", "item") if label in value}
        heading = f"{shown(named[0])} {shown(named[1])} {named[2]} {value['number']} {value['outcome']} {standing(value)}"
        return [heading, *(f"  {line}" for line in message_lines(rest, shown))]
    if value["kind"] == "mail":
        return [f"{shown(value['name'])} {value['verdict']} {value['reason']}"]
    if value["kind"] == "mails":
        return [", ".join(f"{label} {value[label]}" for label in value if label != "kind")]
    if value["kind"] == "deed":
        return [f"{shown(value['group'])} {shown(value['transaction'])} {value['verb']} done {standing(value)}"]
    return [f"sent {value['messages']}"]


def record_lines(record):
    """Returns the lines of `verify` for its object."""
    return [f"{label} {record[label]}" for label in "version role loans messages room".split()]


def each(lines_of):
    """Returns a function: objects -> their lines, one after another, by `lines_of`."""
    return lambda objects: [line for value in objects for line in lines_of(value)]


# ---- the program

# What `list --mine` prints on standard error if no day is given.
LEFT_OUT = re.compile(rb"(?:ill: [^\n]* may want a hand by (?:its date|their dates): give --today DAY\n)?")


def run(words, given=None):
    """Runs a command, and returns its output. Ends the script unless the status is 0 and standard error has at most the
    line of `LEFT_OUT`."""
    done = PROGRAM.run(words, given)
    if done.status or not LEFT_OUT.fullmatch(done.errors):
        raise SystemExit(f"objects: ill {' '.join(words)}: {done.status} {done.errors.decode()}")
    return done.output


def unique(pairs):
    """Returns an object of these pairs, in which each label must stand once."""
    if len(dict(pairs)) != len(pairs):
        raise ValueError("a label stands twice")
    return dict(pairs)


def compare(kind, words, lines_of, given=None):
    """Compares the output of a command with `--json` with its output without it. `kind` names the definition of the
    schema for its objects, and `lines_of` makes lines of these."""
    printed = run([*words, "--json"], given).decode("utf-8")
    compare_texts(kind, " ".join(words), lines_of, printed, run(words, given).decode("utf-8"))


def compare_texts(kind, place, lines_of, text, lines):
    """Compares the objects in `text` with the definition `kind` of the schema. Then compares the lines that `lines_of`
    makes of them with `lines`, which the command writes without `--json`."""
    global compared
    objects = []
    for line in text.split("\n")[:-1]:
        if ACTING.search(line):
            faults.append(f"{place}: a terminal may act on {ascii(line)}")
        objects.append(json.loads(line, object_pairs_hook=unique))
        fault = fails(referred(kind), objects[-1])
        if fault:
            faults.append(f"{place}: {fault}")
    wanted = lines.split("\n")
    if [*lines_of(objects), ""] != wanted or text.split("\n")[-1]:
        faults.append(f"{place}: {objects} is not what stands in {wanted}")
    compared += len(objects)


def carry(source, target, txn, number):
    """Carries a message of the desk `source` to the desk `target`."""
    run(["take", target], run(["send", source, *txn, number]))


def perform(txn, course):
    """Performs the course of a loan at both desks."""
    for step in re.findall(r"(here|there|late) ([^>]*?)(>|(?= (?:here|there|late) )|$)", course):
        who, words, carried = step
        desk, other = ("here", "there") if who == "here" else ("there", "here")
        line = run(["act", desk, *txn, *DAYS[who], *words.split(" ")]).decode()
        if carried:
            carry(desk, other, txn, line.split("/")[-1].strip())


def titled(name, title):
    """Performs a request with this title, in a loan whose group has characters of JSON. Returns the loan."""
    txn = ['"\\{}[],:', name]
    run(["act", "here", *txn, "request", "20250310", *title.split(" ")])
    carry("here", "there", txn, "1")
    return txn


def keep(desk, txns):
    """Appends to what came to `desk` all that the desk `there` has to send in these loans, as `take --keep` does."""
    for txn in txns:
        for number in map(str, range(1, 256)):
            sent = PROGRAM.run(["send", "there", *txn, number])
            if sent.status:
                break
            with open(f"{desk}.came", "ab") as file:
                file.write(sent.output)


def compare_desks():
    """Makes two desks, and compares what the commands write of them."""
    run(["new", "here", "requester"])
    run(["new", "there", "responder"])
    compare("status", ["status", "here"], each(status_lines))
    txns = [titled(name, title) for name, title in TITLES.items()]
    for name, course in COURSES.items():
        txns.append(["Group of this", name])
        perform(txns[-1], course)
    for txn, title in zip(txns, TITLES.values()):
        run(["note", "here", *txn, title])
    compare("list", ["list", "here"], list_lines(False))
    compare("list", ["list", "here", "--notes"], list_lines(False, True))
    compare("list", ["list", "there", "--since-when", "--notes"], list_lines(False, True, True))
    compare("list", ["list", "here", "--mine", "--actions"], list_lines(True))
    compare("list", ["list", "here", "--open", "--state", "PENDING"], list_lines(False))
    os.mkdir("folder")
    run(["new", "folder/a\n\x1b\u202e:", "responder"])
    compare("list", ["list", "there", "folder", "here", "--actions", "--today", "20250310"], list_lines(True))
    keep("here", txns)
    compare("news", ["news", "here"], news_lines)
    compare("news", ["news", "there"], news_lines)
    for desk in "here", "there":
        compare("status", ["status", desk], each(status_lines))
        compare("verify", ["verify", desk], each(record_lines))
        for txn in txns if desk == "here" else txns[:len(TITLES)] + txns[len(TITLES) + 1:]:
            compare("loan", ["loan", desk, *txn], each(loan_lines))


def compare_nights():
    """Performs a night at two copies of each desk, at one of them with `--json`, and compares both."""
    txns = [["Group of this", name] for name in COURSES] + [['"\\{}[],:', name] for name in TITLES]
    for desk, other in ("here", "there"), ("there", "here"):
        texts = []
        for form in [], ["--json"]:
            folder = f"night of {desk}{len(form)}"
            os.makedirs(f"{folder}/in")
            os.mkdir(f"{folder}/out")
            shutil.copy(desk, f"{folder}/desk")
            for place, txn in enumerate(txns):
                sent = PROGRAM.run(["send", other, *txn, "1"])
                if not sent.status:
                    harness.write(f"{folder}/in/{place:03}", sent.output)
            harness.write(f"{folder}/in/\u202ejunk\x1b", b"\x01\x02")
            words = ["exchange", "desk", "in", "out", "--today", "20250401", *["--overdue", "--expire"] * (desk == "there")]
            done = PROGRAM.run([*words, *form], cwd=folder)
            texts.append(done.output.decode("utf-8"))
        compare_texts("exchange", f"exchange at {desk}", each(night_lines), texts[1], texts[0])


def compare_messages():
    """Compares what `show` writes of the examples, and of requests with the titles."""
    folder = f"{TOP}/examples/messages"
    given = b"".join(read(f"{folder}/{name}") for name in sorted(os.listdir(folder)) if name.endswith(".apdu"))
    requests = b"".join(run(["send", "here", '"\\{}[],:', name, "1"]) for name in TITLES)
    compare("show", ["show"], each(shown_lines), given + requests)


def compare_words():
    """Compares the words of the schema with those of the sources."""
    for name, words in {"state": SCHEMA["$defs"]["state"]["enum"] + ["IDLE"],
                        "verb": SCHEMA["$defs"]["verb"]["enum"]}.items():
        sources = re.findall(r'=> "([\w/-]+)"', read(f"{TOP}/crates/ill_core/src/{name}.rt").decode())
        if sorted(sources) != sorted(words):
            faults.append(f"docs/ill.schema.json: the words of {name} are {words}, and those of the sources {sources}")
    news = re.findall(r'"([^"]+)"', read(f"{TOP}/crates/ill_beside/src/news_words.rt").decode().partition("#[cfg")[0])
    fixed, dated = SCHEMA["$defs"]["words"]["anyOf"]
    undated = [word for word in news if not word.endswith(" ") and word != "renewal refused"]
    if sorted(undated) != sorted(fixed["enum"]):
        faults.append(f"docs/ill.schema.json: the words of news are not those of the sources, {undated}")
    if sorted(word[:-1] for word in news if word.endswith(" ")) != sorted(dated["pattern"][2:].partition(")")[0].split("|")):
        faults.append(f"docs/ill.schema.json: the words of news with a day are not those of the sources, {news}")
    works = re.findall(r'=> "([^"]+)"', read(f"{TOP}/crates/ill_work/src/work.rt").decode())
    if works != SCHEMA["$defs"]["work"]["enum"]:
        faults.append(f"docs/ill.schema.json: the words of work are not those of the sources, {works}")


def main(program):
    """Compares all, in the folder that it is in. Returns the exit status."""
    global PROGRAM
    PROGRAM = harness.Program(program)
    compare_desks()
    compare_nights()
    compare_messages()
    compare_words()
    print("\n".join(faults) or f"ok: {compared} objects")
    return 1 if faults else 0
