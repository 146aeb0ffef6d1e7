"""Runs every command that reads a desk over ten desks, and compares the verbs that are listed with what `act` answers.

The desks are, of each role, one without a loan, one with a loan of each kind, one of 1,000 loans, one with titles in
many scripts and with characters on which a terminal acts, and one whose record is as long as loans make it. Their files
are written here, as docs/FORMATS.md has them, from a model of docs/PROTOCOL.md. A desk that the commands make by the
same courses must have the same bytes. Of each desk the program writes

- `list` and its objects with each combination of its options, in the order, with the columns and counts of the model;
- `loan`, its picture and its object, and `slip`, of each loan or, on the large desks, of some;
- what shows the notes that are written beside the desk, and what is found in them, and the notes that `note` keeps,
- `figures` and its records of CSV, by a diary with lines that count and lines that do not;
- `news` and its objects of what came, which is written beside the desk once, twice and torn, with `--last` too;
- `news`, `list` and `report` since a day, by a diary that lacks some messages and has older lines of others. Some
  messages came again, dates have made some due, and some answers stay news until a note says `done`;
- `status`, its objects, `report` and `verify`;

and all but the slowest once more to a full device, to a closed output and to a pipe that is read byte by byte.

Then each kind of loan that actions and deliveries between two desks lead to, as far as the model finds any, is made by
commands. A verb that `loan` and `list --actions` show must never be answered `not-now` there, and any other always.

The model is written from the documents and shares nothing with the program.
"""
import concurrent.futures
import csv
import html
import io
import itertools
import json
import os
import re
import shutil
import subprocess
import tempfile

from ill import harness
from ill.counting import FIELDS, Figures, diary_line, messages
from ill.der import ASKED, shipped, encoded
from ill.harness import CLOSED, FULL, read, write
from ill.model import REQUESTER, RESPONDER, ROLES, FORMS, Fault, Side
from ill.morning import AHEAD, Loan, Morning, work_with, works
from ill.notes import is_found, kept, key, note_line, notes_of
from ill.records import desk_record
from ill.screen import ACTING, shown
from ill.slips import Slip
from ill.tidings import ASKING, DUE, Since, came_bytes, column, heard, is_own, iso, news_lines, news_objects

REPORT = harness.Report()

TODAY, SHIPS, LATE = "20250320", "20250301", "20250401"
# How many loans are looked at one by one: of a large desk, and of a desk with the longest record.
SAMPLE, FEW = 12, 2
# The greatest count of numbers left that `act` and `list` print.
FEW_NUMBERS = 10

# Titles in many scripts: wide, combining, bidirectional and invisible characters, and some on which a terminal acts.
TITLES = [
    "War and Peace", "地図の歴史", "한국의 지도", "Ιστορία των χαρτών", "История карт", "تاريخ الخرائط", "תולדות המפות",
    "भारत के मानचित्र", "แผนที่โบราณ", "ქართული რუკები", "Հայաստանի քարտեզներ", "አማርኛ ካርታ", "ᚠᚢᚦᚨᚱᚲ", "𐎀𐎁𐎂 𒀀𒀁",
    "e\u0301\u0323\u0308 a\u20dd", "\u202egpj.spam", "\u200e\u200f\u061c", "\u202a\u202b\u202c\u202d\u202e",
    "\u2066left\u2067right\u2068first\u2069", "👩\u200d👩\u200d👧\u200d👦 🇫🇮", "ﷺ ﷽", "\u3000ｗｉｄｅ\u3000",
    "\ufeffx\u00ad\u2028\u2029",
    "".join(map(chr, range(0x80, 0xA0))), "\x9b31m\x90\x9c\x85", "é" * 100, "地" * 66, "𝔐" * 50, "M" * 200, "-",
    "<b>&amp;\"'</b>", "#35; %%{init}%% ;end", "\\u{202e} \\", "{\"a\":[null]}",
    "\u0600\u06dd\U000110bd", "\U0010ffff\uffff\ue000"]


# The line that reports a file whose name is no UTF-8.
NO_NAME = "ill: shelf/no\\xffdesk\\x1b: no UTF-8"


# ---- what the commands write

def yes_no(is_yes):
    """Returns `yes` or `no`."""
    return "yes" if is_yes else "no"


def field_lines(apdu):
    """Returns the lines of a message's further fields, those after its number."""
    values = {"reply": yes_no, "item": shown}
    return [f"{label} {values.get(label, str)(apdu[label])}" for label in ("answers", "result", "reply", "date", "item")
            if label in apdu]


def message_lines(txn, apdu):
    """Returns the lines of a message of a loan that its record has issued."""
    return ["", f"apdu {apdu['apdu']}", f"group {txn[0]}", f"transaction {txn[1]}", f"number {apdu['number']}",
            *field_lines(apdu), "leaves yes"]


def status_lines(side):
    """Returns the seven lines of `ill status` for a loan."""
    count = len(side.issued)
    return [f"role {ROLES[side.role]}", f"group {side.txn[0]}", f"transaction {side.txn[1]}", f"state {side.state}",
            f"due {side.due or '-'}", f"messages {count}/{count}", f"marks {' '.join(side.marks()) or '-'}"]


def taken(side):
    """Returns the numbers of messages taken that the record of a side has, by their names in an object. A number may be
    None."""
    return {"held": side.held} if side.role == REQUESTER else {
        "accepted": side.accepted, "last_cancel": side.cancelled, "last_renew": side.renewed}


def loan_lines(side, note=None):
    """Returns all lines of `ill loan` for a loan, with its note if there is one."""
    return [*status_lines(side), f"next {side.turn()}", f"now {' '.join(side.possible()) or '-'}",
            f"item {shown(side.asked()['item'])}", f"expiry {side.expiry() or '-'}",
            *(f"{label.replace('_', '-')} {number or '-'}" for label, number in taken(side).items()), *([f"note {note}"] if note else []),
            *(line for apdu in side.issued for line in message_lines(side.txn, apdu))]


def status_object(side):
    """Returns the object of `ill status --json` for a loan."""
    count = len(side.issued)
    return {"kind": "loan", "role": ROLES[side.role], "group": side.txn[0], "transaction": side.txn[1],
            "state": side.state, "due": iso(side.due), "released": count, "issued": count, "marks": side.marks()}


def message_object(side, apdu):
    """Returns the object of a message that a loan has issued."""
    fields = {label: iso(value) if label == "date" else value for label, value in apdu.items()}
    return {"apdu": fields.pop("apdu"), "group": side.txn[0], "transaction": side.txn[1], **fields, "leaves": True}


def loan_object(side, note=None):
    """Returns the object of `ill loan --json` for a loan to which nothing came. It has the note if there is one."""
    return {**status_object(side), "next": side.turn(), "now": side.possible(), "item": side.asked()["item"],
            "expiry": iso(side.expiry()), **taken(side), "messages": [message_object(side, it) for it in side.issued],
            "came": [], "note": note, "history": []}


def slip_parts(side):
    """Returns the title, the role and the fields of a slip."""
    fields = {"Group": side.txn[0], "Transaction": side.txn[1], **({"Due": iso(side.due)} if side.due else {})}
    return [[shown(side.asked()["item"])], ["Asked by us" if side.role == REQUESTER else "Lent by us"], fields]


def drawn(text):
    """Returns a text as a chart has it. A letter that is not plain becomes its number, and a line feed `<br/>`."""
    return re.sub("[^\\w \n,.\\-\x80-\U0010ffff]|_", lambda found: f"#{ord(found[0])};", text).replace("\n", "<br/>")


def picture_lines(side):
    """Returns the lines of `ill loan --picture`. Those of a responder begin with the request that it has taken."""
    apdus = side.issued if side.role == REQUESTER else [side.request, *side.issued]
    lines = ["sequenceDiagram", "  participant requester", "  participant responder"]
    for apdu in apdus:
        way = "requester->>responder" if apdu["apdu"] in ASKED else "responder->>requester"
        lines.append(f"  {way}: " + drawn("\n".join([f"{apdu['number']} {apdu['apdu']}", *field_lines(apdu)])))
    return lines


def padded(text, width):
    """Returns a text as a column of this width, with two spaces behind."""
    return text + " " * max(width - len(text), 0) + "  "


def by_deadline(sides):
    """Returns the sides with the earliest deadline first, and those without a deadline last. Sides of equal deadlines
    stay in the order in which they were begun."""
    return sorted(sides, key=lambda side: side.deadline() or "99999999")


# WORKS maps the words of each kind of work to true if it wants a hand. HANDS are the words of the kinds that do, and
# OVER are those of loans that are over.
WORKS = works()
HANDS = [words for words, wants in WORKS.items() if wants]
OVER = [*WORKS][-1]
# The works of the loans that are listed, of each flag. If both are set, `--mine` decides.
LISTED = {"": WORKS, "--open": [name for name in WORKS if name != OVER], "--mine": HANDS}


def listed(sides, flag, today=None, due_before=None, state=None, ahead=AHEAD, find=None, notes=None, news=None):
    """Yields each loan that `list` lists as the words of its work and its side, in the order of the list. `flag` is a
    key of `LISTED`. The next five parameters are the values of options, and None stands for one that is not given.
    `notes` has the notes of loans, and `news` what is printed about each. With `--mine` a loan that has news is listed,
    whatever its work."""
    for name in WORKS:
        for side in by_deadline(sides):
            is_due = due_before is None or side.due is not None and side.due < due_before
            is_wanted = is_due and state in (None, side.state) and is_found(find, side, notes or {})
            is_of_list = name in LISTED[flag] or flag == "--mine" and bool(news and news[tuple(side.txn)])
            if work_with(side, today, ahead) == name and is_of_list and is_wanted:
                yield name, side


def left_out(sides, due_before=None, state=None):
    """Returns how many loans `list --mine` leaves out without a day, though they have a deadline and a verb."""
    return sum(name not in HANDS and bool(side.deadline() and side.verbs())
               for name, side in listed(sides, "", None, due_before, state))


def left_out_line(path, count):
    """Returns the line on standard error that says how many loans were left out, or an empty text if none was."""
    words = "loan may want a hand by its date" if count == 1 else "loans may want a hand by their dates"
    return f"ill: {path}: {count} more {words}: give --today DAY\n" if count else ""


def counts(sides, today=None, ahead=AHEAD):
    """Returns the counts of a desk: all loans, the open ones, those to do, and the room for more."""
    works = [work_with(side, today, ahead) for side in sides]
    return {"loans": len(sides), "open": len(sides) - works.count(OVER), "todo": sum(name in HANDS for name in works),
            "room": 1000 - len(sides)}


def list_lines(sides, flag, today=None, due_before=None, state=None, ahead=AHEAD, has_actions=False, find=None,
               notes=None, has_notes=False, news=None, days=None):
    """Returns the lines of `list`. `has_actions` and `has_notes` say if verbs and notes are shown. `days` has the day
    since which a loan stands as it does. The other parameters are those of `listed`."""
    rows = list(listed(sides, flag, today, due_before, state, ahead, find, notes))
    cells = [[side.state, side.due or "-", column(side.txn[0]), column(side.txn[1]),
              *([",".join(side.possible(today))] if has_actions else [])] for _, side in rows]
    widths = [max(map(len, texts)) for texts in zip(*cells)]
    widths[1:2] = [8] if widths else []
    lines, headed = [], None
    for (name, side), texts in zip(rows, cells):
        if name != headed:
            lines.append(f"{name} ({sum(other == name for other, _ in rows)}):")
            headed = name
        lines.append("  " + "".join(map(padded, texts, widths)) + shown(side.asked()["item"]))
        if has_notes and tuple(side.txn) in notes:
            lines.append(f"    note {notes[tuple(side.txn)]}")
        if days and tuple(side.txn) in days:
            lines.append(f"    since {days[tuple(side.txn)]}")
        lines += [f"    news {words}" for _, words in (news or {}).get(tuple(side.txn), [])]
    counted = counts(sides, today, ahead)
    return [*lines, "loans {loans}, open {open}, to do {todo}, room for {room}".format(**counted)]


def morning_lines(sides, today, news, notes=None, days=None):
    """Returns the lines of `list --mine --since DAY`. `news` has what is printed about each loan, and `notes` the notes
    that are shown. `days` has the day since which a loan stands as it does."""
    rows = list(listed(sides, "--mine", today, news=news))
    cells = [["  " + (side.due or "-") if name in HANDS else "news:", column(side.txn[0]), column(side.txn[1]),
              "; ".join(words for _, words in news[tuple(side.txn)]) or "-"] for name, side in rows]
    widths = [max(map(len, texts)) for texts in zip(*cells)]
    widths[:1] = [10] if widths else []
    lines, headed = [], None
    for (name, side), texts in zip(rows, cells):
        if name != headed and name in HANDS:
            lines.append(f"{name} ({sum(other == name for other, _ in rows)}):")
            headed = name
        lines.append("".join(map(padded, texts, widths)) + shown(side.asked()["item"]))
        lines += [f"    note {notes[tuple(side.txn)]}"] if tuple(side.txn) in (notes or {}) else []
        lines += [f"    since {days[tuple(side.txn)]}"] if tuple(side.txn) in (days or {}) else []
    return [*lines, "loans {loans}, open {open}, to do {todo}, room for {room}".format(**counts(sides, today))]


def list_objects(sides, flag, today=None, due_before=None, state=None, ahead=AHEAD, find=None, notes=None, news=None,
                 days=None):
    """Returns the objects of `list --json`: one for each loan that is listed, and one with the counts. The parameters
    are those of `list_lines`."""
    return [{"kind": "loan", "work": name, "state": side.state, "due": iso(side.due), "group": side.txn[0],
             "transaction": side.txn[1], "now": side.possible(today), "item": side.asked()["item"],
             "note": (notes or {}).get(tuple(side.txn)), "since": iso((days or {}).get(tuple(side.txn))),
             "news": heard_objects(side, news)}
            for name, side in listed(sides, flag, today, due_before, state, ahead, find, notes, news)
            ] + [{"kind": "counts", **counts(sides, today, ahead)}]


def heard_objects(side, news):
    """Returns the news of a loan as objects. Returns None if `news` is None: no day is given since which news are
    printed."""
    return news and [{"number": number, "words": words} for number, words in news[tuple(side.txn)]]


def numbers_lines(path, sides):
    """Returns the lines on standard error in which `list` reports each open loan with at most ten numbers left."""
    left = [(side, 255 - len(side.issued)) for side in sides if side.turn() != "over"]
    return [f"ill: {path}: {side.txn[0]} {side.txn[1]}: {count} number{'' if count == 1 else 's'} left\n"
            for side, count in left if count <= FEW_NUMBERS]


def page_loan(side, morning):
    """Returns the loan of a side, and the row that the page of `ill report` has of it, as `read_page` reads it."""
    loan = Loan.of(side)
    date = f"due {iso(side.due)}" if side.due else f"expires {iso(side.expiry())}" if side.expiry() else ""
    return loan, ([shown(side.asked()["item"]), *side.txn, morning.state(loan), date], side.possible(TODAY), False)


def read_page(text):
    """Returns the counts of a page of one desk, and its tables. A table has its words, whether it wants a hand, its
    count and its rows. A row has its texts, its verbs, and true if its title may be taken for markup."""
    found = []
    head = r'<h3( class="task")?>([^<]*): (\d+)</h3>\n<table>\n<thead>.*?</thead>\n<tbody>\n(.*?)</tbody>\n</table>\n'
    for task, words, count, body in re.findall(head, text, re.S):
        rows = []
        for title, *cells, verbs in re.findall(
                r'<tr><th scope="row" dir="auto">(.*?)</th><td><bdi>(.*?)</bdi> <bdi>(.*?)</bdi></td><td>(.*?)</td><td>(.*?)</td>'
                r'<td>(.*?)</td></tr>\n', body, re.S):
            texts = [html.unescape(re.sub("</?time>", "", cell)) for cell in (title, *cells)]
            rows.append((texts, re.findall("<code>(.*?)</code> ", verbs), "<" in title or "&&" in title))
        found.append((words, bool(task), int(count), rows))
    return re.search(r"<p>([^<]*)</p>", text)[1], found


# ---- the desks

# Kinds of loans. A step is who acts, the words of the action, and `>` if its message is carried. `r` is the requester,
# `s` the responder on the day SHIPS, and `l` the responder on LATE. `s2>` carries the message with which the responder
# answers.
ASK = "r request {expiry} {item}>"
SHIP = ASK + " s ship 20250315>"
COME = SHIP + " r receive>"
LONG = ASK + " s ship 20250415> r receive>"
RENEW = LONG + " r renew 20250501>"
COURSES = [
    "r request {expiry} {item}", ASK, ASK + " s answer conditional>", ASK + " s answer conditional> r reply yes>",
    ASK + " s answer conditional> r reply no", ASK + " s answer conditional> r reply no>", ASK + " s answer unfilled>",
    ASK + " s answer retry>", ASK + " s answer estimate>", ASK + " s answer locations-provided>",
    ASK + " s answer conditional> r reply no> s2>", ASK + " s answer will-supply>", ASK + " s answer hold-placed>",
    ASK + " r cancel>", ASK + " r cancel> s cancel-reply yes>", ASK + " r cancel> s cancel-reply no>",
    SHIP, COME, SHIP + " s recall>", SHIP + " s recall> r receive>", LONG, RENEW,
    RENEW + " s renew-answer yes 20250601>",
    RENEW + " s renew-answer no>", COME + " l overdue>", COME + " l overdue> r renew none>", SHIP + " l overdue>",
    COME + " l overdue> r renew none> s renew-answer no>", COME + " r renew none> l overdue>", COME + " s recall>",
    COME + " r return>", COME + " r return> s check-in>", SHIP + " l overdue> r receive> r return> s check-in>",
    "r request 20250201 {item}> s expire>", SHIP + " r receive r return>"]
EXPIRIES = ["none", "20250310", "20250320", "20250401"]
DAYS = {"r": None, "s": SHIPS, "l": LATE}


def steps(course, place, item):
    """Yields each step of a course but `s2>`: who acts, the words, and whether the message is carried. `item` is the
    title, and `place`, the index of the loan, decides the expiry date."""
    for who, words, carried in re.findall(r"([rsl]) ([^>]*?)(>|(?= [rsl] )|$)|s2>", course) or []:
        if who:
            yield who, words.replace("{expiry}", EXPIRIES[place % 4]).replace("{item}", item), bool(carried)


def modelled(course, txn, place, item):
    """Returns both sides of the loan `txn` after a course, the requester's first, by the model. `place` and `item` are
    those of `steps`."""
    sides = {"r": Side(REQUESTER, txn), "s": Side(RESPONDER, txn)}
    sides["l"] = sides["s"]
    for who, words, carried in steps(course, place, item):
        own, other = sides[who], sides["r" if who != "r" else "s"]
        own.act(words, DAYS[who])
        if carried:
            other.take(own.issued[-1])
            carry_answer(own, other, course)
    return sides["r"], sides["s"]


def carry_answer(own, other, course):
    """Lets `own` take the last message of the responder `other`, if the course has `s2>` and the loan has ended
    there."""
    if "s2>" in course and other.role == RESPONDER and other.state == "NOT-SUPPLIED":
        own.take(other.issued[-1])


def both(loans):
    """Returns the sides of two desks in these loans, by role. A loan is a course, its group and transaction, and a
    title. A responder's side that is IDLE is left out."""
    pairs = [modelled(course, txn, place, item) for place, (course, txn, item) in enumerate(loans)]
    return {REQUESTER: [here for here, _ in pairs], RESPONDER: [there for _, there in pairs if there.state != "IDLE"]}


def kinds():
    """Returns a loan of each kind, in groups of several lengths."""
    return [(course, (f"Group {'x' * (place % 5)}", f"T{place}"), "A History of Maps")
            for place, course in enumerate(COURSES)]


def titled():
    """Returns a loan of each title."""
    return [(COURSES[1 + place % 30], ('"\\{}[],:<&>', f"~{place}!"), title) for place, title in enumerate(TITLES)]


def thousand():
    """Returns a thousand loans, whose courses take turns."""
    return [(COURSES[1 + place * 7 % (len(COURSES) - 1)], (f"G{place % 37}", f"{place:04}"), f"Volume {place}")
            for place in range(1000)]


def longest(role):
    """Returns the sides of this role in a thousand loans. Their messages are as long, and as many, as loans make
    them."""
    sides = []
    for place in range(1000):
        txn = ("G" * 64, f"{place:04}" + "T" * 60)
        here, there = modelled("r request 20250310 {item}> s ship 20250315> r receive>", txn, 1, "M" * 200)
        here.issued[0]["date"] = "20250310"
        fill(here, there, role)
        sides.append((here, there)[role])
    return sides


def fill(here, there, role):
    """Uses up all numbers of the side of this role. A requester issues Renews, of which the last is open. A responder
    grants Renews, each with a later date."""
    if role == REQUESTER:
        while len(here.issued) < 255:
            number = len(here.issued) + 1
            here.issued.append({"apdu": "Renew", "number": number, "date": "99991231"})
        here.state = "RENEW/PENDING"
    else:
        for number in range(2, 256):
            day = f"{2025 + number}0101"
            there.issued.append({"apdu": "Renew-Answer", "number": number, "answers": 255, "reply": True, "date": day})
        there.renewed, there.due = 255, there.issued[-1]["date"]


# ---- the program

class Judge:
    """Runs the program, compares what it writes, and counts the comparisons."""

    def __init__(self, program):
        """Keeps the program, the faults of the part, and the count of comparisons."""
        self.program, self.faults, self.compared = harness.Program(program, limit=None), [], 0

    def run(self, words, given=None, **how):
        """Runs a command, and returns what it leaves."""
        return self.program.run(words, given, **how)

    def text(self, words, given=None):
        """Runs a command, which has to end with status 0, and returns its output as text."""
        return self.program.well(words, given).decode()

    def same(self, place, found, wanted):
        """Compares two values. Keeps a fault, with this place, if they differ."""
        self.compared += 1
        if found != wanted:
            self.faults.append(f"{place}: {first_difference(found, wanted)}")

    def lines(self, words, wanted):
        """Compares the lines that a command writes."""
        self.same(" ".join(words), self.text(words).split("\n"), [*wanted, ""])

    def objects(self, words, wanted):
        """Compares the objects that a command writes, with the order of their fields. None may have a character on
        which a terminal acts."""
        text = self.text(words)
        if any(map(ACTING.search, text.split("\n"))):
            self.faults.append(f"{' '.join(words)}: a terminal may act on it")
        self.same(" ".join(words), [json.loads(line, object_pairs_hook=list) for line in text.split("\n")[:-1]],
                  [json.loads(json.dumps(value), object_pairs_hook=list) for value in wanted])

    def part(self, name):
        """Reports a part by the first five of its faults, and forgets all."""
        REPORT.case(name, *self.faults[:5])
        self.faults = []


def first_difference(found, wanted):
    """Returns a text with the first place at which two values differ."""
    if isinstance(found, list) and isinstance(wanted, list):
        for place, (one, other) in enumerate(itertools.zip_longest(found, wanted)):
            if one != other:
                return f"at {place}: {ascii(one)[:160]} in place of {ascii(other)[:160]}"
    return f"{ascii(found)[:160]} in place of {ascii(wanted)[:160]}"


def is_longest(sides):
    """Returns true if these are the sides of a longest record, whose every reading takes seconds."""
    return len(sides) > 900 and len(sides[0].issued) == 255


def check_list(judge, path, sides):
    """Compares `list` with combinations of its options, and what it says on standard error."""
    whiches = [([], "", False), (["--open"], "--open", False), (["--mine", "--actions"], "--mine", True),
               (["--open", "--mine"], "--mine", False)]
    states = [None, *sorted({side.state for side in sides})[:4], "CHECKED-IN"][:2 if len(sides) > 900 else None]
    days, dues = [(None, AHEAD), ("20250315", AHEAD), ("20250310", 5), (LATE, 14)], [None, "20250315", "20250316"]
    if is_longest(sides):
        days, dues, states = days[-1:], dues[:1], states[:1]
    for (flags, flag, has_actions), (today, ahead), due, state in itertools.product(whiches, days, dues, states):
        words = [*flags, *(["--today", today] if today else []), *(["--due-before", due] if due else []),
                 *(["--state", state] if state else []), *(["--ahead", str(ahead)] if ahead != AHEAD else [])]
        judge.lines(["list", path, *words], list_lines(sides, flag, today, due, state, ahead, has_actions))
        judge.objects(["list", path, "--json", *words], list_objects(sides, flag, today, due, state, ahead))
        if flag == "--mine":
            printed = judge.run(["list", path, *words]).errors.decode().rpartition(" more loans\n")[2]
            line = "" if today else left_out_line(path, left_out(sides, due, state))
            judge.same(f"what {' '.join(words)} leaves out of {path}", printed, line)
    warned = judge.run(["list", path]).errors.decode()
    room = [f"ill: {path} has room for {1000 - len(sides)} more loans\n"] if len(sides) >= 900 else []
    judge.same(f"the warnings of {path}", warned, "".join([*numbers_lines(path, sides), *room]))


def check_loans(judge, path, sides):
    """Compares `loan` and `slip` of each loan, or of some on a desk of 100 or more."""
    many = FEW if is_longest(sides) else SAMPLE
    for side in sides if len(sides) < 100 else sides[::len(sides) // many]:
        words = ["loan", path, *side.txn]
        judge.lines(words, loan_lines(side))
        judge.lines([*words, "--picture"], picture_lines(side))
        judge.objects([*words, "--json"], [loan_object(side)])
        slip = Slip(judge.text(["slip", path, *side.txn]))
        judge.same(f"the slip of {' '.join(side.txn)} at {path}", [slip.texts["h1"], slip.texts["p"], slip.fields],
                   slip_parts(side))


def check_news(judge, path, sides):
    """Compares `news` of what came to a desk. Its file has each message once, then twice, then with what no record shows:
    messages of other loans, some of its own role, and a part of one. Without the file there is no news."""
    came = came_bytes(sides)
    none = shipped(b"no loan") + b"".join(encoded(side.txn, side.issued[0]) for side in sides[:9] if side.issued)
    for kept in [came] if is_longest(sides) else [came, came * 2, none + came + none + shipped(b"torn")[:-1]]:
        write(f"{path}.came", kept)
        for last in (None, 1, 7, 255):
            words = ["news", path, *(["--last", str(last)] if last else [])]
            judge.lines(words, news_lines(sides, last))
            judge.objects([*words, "--json"], news_objects(sides, last))
    os.remove(f"{path}.came")
    judge.lines(["news", path], ["messages 0, shown 0"])
    judge.objects(["news", path, "--json"], [])


# Lines of a diary that name no message of any loan, or are none.
NO_LINES = [b"20250301 - no loan ship 1\n", b"2025-03-01 - G1 T1 ship 1\n", b"20250230 - G1 T1 ship 1\n", b"\xff\n", b"\n",
            b"20250301 -\n", b"20250301 - G1 T1 request\n"]
MOST_BYTES = 67108864  # of a diary that is read
SPANS = [("19000101", "99991231"), ("20250301", "20250331"), ("20250310", "20250310"), ("20260101", "20261231")]


def check_figures(judge, path, sides):
    """Compares `figures` by a diary that names most messages of the record, some twice, and by what came. Other lines name
    what no record has, or nothing. The last line has no end. A diary that is too long is as none. Then the file of what came
    is away, and at last the diary."""
    days, lines = {}, list(NO_LINES)
    for place, (side, number, what) in enumerate((side, apdu["number"], what) for side in sides
                                                 for apdu, what in messages(side, True)):
        if place % 7 == 3:
            continue
        for day in range(1 + (place % 5 == 0)):
            days[(tuple(side.txn), what, number)] = f"2025{place % 3 + 2:02}{(place * 5 + day * 9) % 28 + 1:02}"
            lines.append(diary_line(days[(tuple(side.txn), what, number)], "-" if place % 2 else "anna", side.txn, what, number))
        lines.append(diary_line("20250101", "-", side.txn, what, number + 100))
    diary = b"".join(lines) + diary_line("20250101", "-", ("G1", "T1"), "request", 1)[:-1]
    days = days if len(diary) <= MOST_BYTES else {}
    write(f"{path}.diary", diary)
    write(f"{path}.came", came_bytes(sides))
    for is_kept in (True, False):
        for span in SPANS[:1 if is_longest(sides) else None]:
            compare_figures(judge, path, Figures(sides, days, span, is_kept))
        if is_kept:
            os.remove(f"{path}.came")
    os.remove(f"{path}.diary")
    compare_figures(judge, path, Figures(sides, {}, SPANS[0]))


def compare_figures(judge, path, figures):
    """Compares the lines and the records of CSV of figures."""
    words = ["figures", path, "--from", figures.span[0], "--to", figures.span[1]]
    judge.lines(words, figures.lines())
    text = judge.text([*words, "--csv"])
    judge.same(f"the records of {path}", list(csv.reader(io.StringIO(text, newline=""), strict=True)),
               [FIELDS, figures.fields(path)])
    judge.same(f"the ends of the records of {path}", (text.count("\r\n"), text.count("\n")), (2, 2))


def days_of(sides):
    """Returns the days of the lines of a diary, and what came once more after all else: every fifth message. The days
    stand by the loan, the word and the number of a message. No line names a third of what came. A fourth of the other
    messages have an older line too. What came once more has a line of 10 March 2025. Of what dates have made due, the
    diary lacks a third, and has an older line of another third."""
    came = [(side, apdu) for side in sides for apdu in side.came]
    days = {(tuple(side.txn), apdu["apdu"], apdu["number"]):
            ["20250101"] * (place % 4 == 0) + [f"202503{1 + 9 * place // len(came):02}"]
            for place, (side, apdu) in enumerate(came) if place % 3}
    own = [(side, apdu) for side in sides for apdu in side.issued if is_own(side, apdu)]
    days |= {(tuple(side.txn), DUE[apdu["apdu"]], apdu["number"]): ["20250102"] * (place % 3 == 1) + [f"202503{1 + place % 9:02}"]
             for place, (side, apdu) in enumerate(own) if place % 3}
    again = came[::5]
    for side, apdu in again:
        days.setdefault((tuple(side.txn), apdu["apdu"], apdu["number"]), []).append("20250310")
    return days, again


# Words of notes on loans that an open answer has ended. Some begin with the word `done`.
DEALT = ["done: asked again as 20", "for Prof. Noether", "Done", "donee asks again", "DONE, too dear", "not done", "done", "undone"]


def check_since(judge, path, sides):
    """Compares `news` and `list` since a day. The diary has the days of most messages, and some came once more. Loans that an open
    answer has ended have notes, but for some."""
    days, again = days_of(sides)
    asking = [tuple(side.txn) for side in sides if any(apdu.get("result") in ASKING for apdu in side.came)]
    notes = {txn: DEALT[place % len(DEALT)] for place, txn in enumerate(asking) if place % 9 != 8}
    write(f"{path}.notes", notes_of(notes.items()))
    lines = [(day, txn, what, number) for (txn, what, number), of in days.items() for day in of]
    last_days = {txn: day for day, txn, _, _ in lines}
    write(f"{path}.came", came_bytes(sides) + b"".join(encoded(side.txn, apdu) for side, apdu in again))
    write(f"{path}.diary", b"".join(diary_line(day, "-", txn, what, number) for day, txn, what, number in lines))
    for day in ("20250228", "20250304", "20250309", "20250401"):
        since = Since(day, days, again, notes)
        for last in (None, 3):
            words = ["news", path, "--since", day, *(["--last", str(last)] if last else [])]
            judge.lines(words, news_lines(sides, last, since))
            judge.objects([*words, "--json"], news_objects(sides, last, since=since))
        news = heard(sides, since)
        judge.lines(["list", path, "--since", day], list_lines(sides, "", news=news))
        judge.lines(["list", path, "--since", day, "--since-when"], list_lines(sides, "", news=news, days=last_days))
        judge.objects(["list", path, "--json", "--since", day], list_objects(sides, "", notes=notes, news=news, days=last_days))
        morning = ["list", path, "--mine", "--since", day, "--today", TODAY]
        judge.lines(morning, morning_lines(sides, TODAY, news))
        judge.lines([*morning, "--since-when"], morning_lines(sides, TODAY, news, days=last_days))
        judge.objects([*morning, "--json"], list_objects(sides, "--mine", TODAY, notes=notes, news=news, days=last_days))
        check_page_news(judge, path, sides, day, news)
    for end in ("came", "diary", "notes"):
        os.remove(f"{path}.{end}")


def check_page_news(judge, path, sides, day, news):
    """Compares the news on the page of a desk since a day. But for them it is the page without a day."""
    plain = judge.text(["report", path, "--today", TODAY])
    text = judge.text(["report", path, "--today", TODAY, "--since", day])
    rows = re.findall(r"<bdi>(.*?)</bdi> <bdi>(.*?)</bdi></td><td>(.*?)</td>", text)
    found = {(html.unescape(group), html.unescape(txn)): re.findall(MARK, state) for group, txn, state in rows}
    judge.same(f"the news on the page of {path}", found,
               {tuple(map(shown, side.txn)): [words for _, words in news[tuple(side.txn)]] for side in sides})
    judge.same(f"the page of {path} but for its news", re.sub(MARK, "", text), plain)


# The words of a message in the news on a page.
MARK = "<small>news: <b>(.*?)</b></small>"

# Words of notes, some of which a terminal would act on, and words that are sought.
NOTES = ["for Prof. Noether, by Friday", "STRASSE 12 \u202e", "shelf 7\\3", "\\u{20}", "G1 T1 nobody", "ﬃ", "-"]
SOUGHT = ["strasse", "Straße", "NOETHER", "FFI", "maps", "g1 t", "u{202e}", " ", "nobody has this"]


def check_notes(judge, path, sides):
    """Compares what shows notes, and what is found by words. The file has notes that others replace and remove, one of no
    loan, and a part of a line at its end. `note` appends to it, and cuts that part off."""
    notes = [(tuple(side.txn), NOTES[place % len(NOTES)]) for place, side in enumerate(sides) if place % 3]
    notes += [(txn, "") for txn, _ in notes[::4]] + [(txn, NOTES[0]) for txn, _ in notes[::5]]
    write(f"{path}.notes", notes_of(notes) + note_line(("no", "loan"), "x") + b"G1 T1 torn")
    has = {txn: shown(words) for txn, words in kept(notes).items()}
    judge.lines(["list", path, "--notes"], list_lines(sides, "", notes=has, has_notes=True))
    for find in SOUGHT:
        words = ["list", path, "--find", find]
        judge.lines(words, list_lines(sides, "", find=find, notes=has))
        judge.objects([*words, "--json"], list_objects(sides, "", find=find, notes=has))
    for side in sides[:9]:
        note = has.get(tuple(side.txn))
        judge.lines(["loan", path, *side.txn], loan_lines(side, note))
        judge.objects(["loan", path, *side.txn, "--json"], [loan_object(side, note)])
    for side, words in zip(sides, [*NOTES, ""]):
        judge.lines(["note", path, *side.txn, "--", words], ["done"])
    added = [(tuple(side.txn), words) for side, words in zip(sides, [*NOTES, ""])]
    judge.same(f"the notes of {path}", read(f"{path}.notes").endswith(notes_of(added)), True)
    judge.same(f"the part of a line at the end of those of {path}", b"torn" in read(f"{path}.notes"), not sides)
    os.remove(f"{path}.notes")


def check_rest(judge, path, role, sides):
    """Compares `status`, `report` and `verify`."""
    judge.lines(["status", path], [line for side in sides for line in status_lines(side)])
    judge.objects(["status", path, "--json"], map(status_object, sides))
    issued = sum(len(side.issued) for side in sides)
    record = {"version": 2, "role": ROLES[role], "loans": len(sides), "messages": issued, "room": 1000 - len(sides)}
    judge.lines(["verify", path], [f"{label} {value}" for label, value in record.items()])
    judge.objects(["verify", path, "--json"], [{"kind": "record", **record}])
    morning = Morning(TODAY)
    loans = [page_loan(side, morning) for side in sides]
    counts, tables = read_page(judge.text(["report", path, "--today", TODAY]))
    judge.same(f"counts of {path}", counts, morning.counts([loan for loan, _ in loans]))
    judge.same(f"tables of {path}", tables, [(*table, len(rows), rows) for *table, rows in morning.tables(loans)])


def reading(path, sides):
    """Returns commands that read a desk, each as its words. Those of a loan are of the first loan, if there is one."""
    commands = [["list", path], ["news", path], ["list", path, "--mine", "--today", TODAY], ["list", path, "--json"], ["status", path],
                ["status", path, "--json"], ["report", path, "--today", TODAY], ["verify", path], ["verify", path, "--json"],
                ["figures", path, "--from", "20250301", "--to", TODAY]]
    for side in sides[:1]:
        commands += [["slip", path, *side.txn]]
        commands += [["loan", path, *side.txn, *option] for option in ([], ["--picture"], ["--json"])]
    return commands


def slowly(judge, words):
    """Returns the exit status of a command, and the text that it writes into a pipe that is read byte by byte."""
    os.mkfifo("pipe")
    with open(os.open("pipe", os.O_RDONLY | os.O_NONBLOCK), "rb", buffering=0) as end, open("pipe", "wb") as start:
        os.set_blocking(end.fileno(), True)
        ill = subprocess.Popen(judge.program.command(words), stdout=start, stderr=subprocess.DEVNULL)
        start.close()
        found = b"".join(iter(lambda: end.read(1), b""))
    os.remove("pipe")
    return ill.wait(), found.decode()


def last_line(errors):
    """Returns the last line of standard error, or an empty text if there is none."""
    return errors.decode().rpartition("\n")[0].rpartition("\n")[2]


def check_streams(judge, path, sides):
    """A full, a closed and a slow output: on the first two a command that writes fails with `ill: write`. The slow one
    is read byte by byte, and gets all."""
    for words in reading(path, sides)[:1 if is_longest(sides) else None]:
        text = judge.text(words)
        wanted = (3, "ill: write") if text else (0, "")
        for stream in (FULL, CLOSED):
            done = judge.run(words, output=stream)
            judge.same(f"{' '.join(words)}, {stream}", (done.status, last_line(done.errors)), wanted)
        if len(text) < 300000:
            judge.same(f"{' '.join(words)}, slow", slowly(judge, words), (0, text))


# ---- the verbs and `act`

def kind_of(side):
    """Returns what `act` may tell apart of a loan: its role, its state, its marks, and true if conditions are held.
    Then come texts for its due date and its expiry date: `True` if it is before LATE, `False`, or `None` without it."""
    days = [side.due and (side.due < LATE), side.expiry() and (side.expiry() < LATE)]
    return (side.role, side.state, *side.marks(), bool(side.held), *map(str, days))


def paths():
    """Returns for each kind of loan the role, the shortest course that leads to it, and the side. A step of a course is
    `r` or `s` with what this side does: the words of an action, or the number of a message that comes. A course has 13
    steps at most, and kinds that want more are left out."""
    events = {"r": [f for f in FORMS[REQUESTER] if f[:7] != "request"], "s": [
        *(f"answer {result}" for result in ("conditional", "will-supply", "unfilled")), "cancel-reply yes",
        "cancel-reply no", "ship 20250315", "ship 20250501", "renew-answer yes 20250520", "renew-answer no", "overdue",
        "recall", "check-in", "expire"]}
    begins, found, seen = [], {}, set()
    for expiry in ("none", "20250310", "20250501"):
        here, there = Side(REQUESTER, ("G1", "T1")), Side(RESPONDER, ("G1", "T1"))
        here.act(f"request {expiry} Maps", None)
        begins.append((here, there, [("r", f"request {expiry} Maps")]))
    while begins:
        here, there, course = begins.pop(0)
        for side in (here, there):
            if side.state != "IDLE":
                found.setdefault(kind_of(side), (side.role, course, side))
        for nexts in followers(here, there, course, events):
            last = [(apdu["apdu"], apdu.get("result"), apdu.get("reply"))
                    for side in nexts[:2] for apdu in side.issued[-1:]]
            key = (kind_of(nexts[0]), kind_of(nexts[1]), str(last))
            if key not in seen and len(nexts[2]) < 14:
                seen.add(key)
                begins.append(nexts)
    return found


def day_of(words):
    """Returns the day on which a responder acts with these words, in a course of `paths`."""
    return SHIPS if words.startswith("ship") else LATE


def followers(here, there, course, events):
    """Yields both sides and the course after each next step. That is an action of `events` that is done, or a message
    of the other side that is taken. `here` is the requester's side, and `there` the responder's."""
    for who, words in [(who, words) for who in "rs" for words in events[who]]:
        pair = {"r": here.twin(), "s": there.twin()}
        try:
            pair[who].act(words, day_of(words))
        except Fault:
            continue
        yield pair["r"], pair["s"], [*course, (who, words)]
    for who, other in (("r", there), ("s", here)):
        for apdu in other.issued:
            pair = {"r": here.twin(), "s": there.twin()}
            if pair[who].take(apdu) == "taken":
                yield pair["r"], pair["s"], [*course, (who, apdu["number"])]


def perform(judge, course, folder):
    """Performs a course by commands, at two desks in a folder. Returns the paths of the desks by `r` and `s`."""
    desks = {"r": f"{folder}/r", "s": f"{folder}/s"}
    for who, role in (("r", "requester"), ("s", "responder")):
        judge.text(["new", desks[who], role])
    for who, step in course:
        if isinstance(step, int):
            message = judge.run(["send", desks["s" if who == "r" else "r"], "G1", "T1", str(step)]).output
            judge.text(["take", "--keep", desks[who]], message)
        else:
            day = ["--today", day_of(step)] if who == "s" else []
            judge.text(["act", desks[who], "G1", "T1", *day, *step.split(" ")])
    return desks


def check_kind(judge, role, course, side):
    """Compares the verbs that are listed for one kind of loan with what `act` answers. Each form of each verb of both
    roles is tried. The parameters are what `paths` returns of the kind."""
    folder = tempfile.mkdtemp(dir=".")
    try:
        desk = perform(judge, course, folder)["rs"[role]]
        printed = judge.text(["loan", desk, *side.txn]).split("\n")
        verbs = [line[4:].split(" ") for line in printed if line.startswith("now ")][0]
        verbs = [] if verbs == ["-"] else verbs
        judge.same(f"the verbs of {kind_of(side)}", verbs, side.possible())
        judge.same(f"the record of {kind_of(side)}", read(desk), desk_record(role, [side]))
        judge.lines(["news", desk], news_lines([side]))
        for today in ([], ["--today", "20250301"], ["--today", LATE]):
            mine = judge.text(["list", desk, "--mine", "--actions", *today]).split("\n")[:-2]
            wanted = work_with(side, *today[1:])
            judge.same(f"--mine of {kind_of(side)} {today}", mine[:1], [f"{wanted} (1):"] if wanted in HANDS else [])
            judge.same(f"--mine of {kind_of(side)}", [line.split()[4].split(",") for line in mine[1:]],
                       [side.possible(*today[1:])] if wanted in HANDS else [])
        for words in FORMS[role]:
            for day in ([None] if role == REQUESTER else ["20250301", LATE]):
                check_words(judge, desk, side, words, day)
        for words in FORMS[1 - role]:
            done = judge.run(["act", desk, *side.txn, "--today", LATE, *words.split(" ")])
            judge.same(f"{words} of {kind_of(side)}", (done.status, done.errors), (2, b"ill: arguments\n"))
    finally:
        shutil.rmtree(folder)


def check_words(judge, desk, side, words, day):
    """Tries words on a copy of a desk. The answer is `not-now` exactly if the state forbids their verb. It is
    `not-due` or `not-expired` exactly if the day alone forbids it."""
    shutil.copy(desk, f"{desk}.copy")
    done = judge.run(["act", f"{desk}.copy", *side.txn, *(["--today", day] if day else []), *words.split(" ")])
    outcome = done.output.decode().split(" ")[0]
    place = f"{words} on {day} of {kind_of(side)}"
    verb = words.split(" ")[0]
    judge.same(place, outcome != "not-now" and outcome != "", verb in side.verbs())
    judge.same(f"the date of {place}", outcome in ("not-due", "not-expired"),
               verb in side.verbs() and verb not in side.possible(day))
    trial = side.twin()
    try:
        trial.act(words.replace("+14", LATE if day == LATE else "20250315") if day else words, day)
        wanted = "done"
    except Fault as fault:
        wanted = str(fault)
    judge.same(place, (outcome, done.status), (wanted, int(wanted != "done")))


def check_performed(judge):
    """Makes the desks of each kind of loan by commands. Their files must have the bytes of the model."""
    for name, loans in (("kinds", kinds()), ("titles", titled())):
        wanted = both(loans)
        for role in ROLES:
            judge.text(["new", f"played-{role}", role])
        for place, (course, txn, item) in enumerate(loans):
            perform_course(judge, course, txn, place, item)
        for role, sides in wanted.items():
            path = f"played-{ROLES[role]}"
            judge.same(f"{name} of a {ROLES[role]}, by the commands", read(path), desk_record(role, sides))
            os.remove(path)


def perform_course(judge, course, txn, place, item):
    """Performs the course of a loan at both desks."""
    here, there = "played-requester", "played-responder"
    for who, words, carried in steps(course, place, item):
        own, other = (here, there) if who == "r" else (there, here)
        day = ["--today", DAYS[who]] if DAYS[who] else []
        number = judge.text(["act", own, *txn, *day, *words.split(" ")]).split("/")[-1].strip()
        if carried:
            said = judge.text(["take", other], judge.run(["send", own, *txn, number]).output)
            if "s2>" in course and said.startswith("taken NOT-SUPPLIED") and other == there:
                judge.text(["take", own], judge.run(["send", other, *txn, said.split("/")[-1].strip()]).output)


def check_folder(judge, desks):
    """Compares `list` of a folder of desks and other files. Then the folder has a damaged desk, a name that is no
    UTF-8, and a shelf."""
    os.mkdir("shelf")
    for name, (_, sides) in desks.items():
        if len(sides) < 100:
            os.link(name, f"shelf/{name}")
    for stray in (".hidden", "kinds.new", "kinds.lck", "kinds.came", "kinds.notes"):
        write(f"shelf/{stray}", b"no desk")
    blocks = []
    for name in sorted(name for name in os.listdir("shelf") if name in desks):
        sides = desks[name][1]
        blocks.append([f"shelf/{name}:", *list_lines(sides, "--mine", TODAY)])
    wanted = [line for place, block in enumerate(blocks) for line in ([""] if place else []) + block]
    judge.lines(["list", "shelf", "--mine", "--today", TODAY], wanted)
    check_news_of_folder(judge, [name for name in sorted(os.listdir("shelf")) if name in desks], desks)
    words = ["list", "shelf", "--mine", "--today", TODAY]
    write("shelf/no desk", b"no desk")
    write(b"shelf/no\xffdesk\x1b", b"no desk")
    done = judge.run(words)
    judge.same("a damaged desk, and a name that is no UTF-8", (done.status, done.output.decode().split("\n")[:-1],
               done.errors.decode().split("\n")[:-1]),
               (2, wanted, ["ill: shelf/no desk: record short", NO_NAME, "ill: record short"]))
    os.remove("shelf/no desk")
    done = judge.run(words)
    judge.same("a name that is no UTF-8", (done.status, done.output.decode().split("\n")[:-1], done.errors.decode()),
               (3, wanted, f"{NO_NAME}\nill: store failed\n"))
    page = judge.run(["report", "shelf", "--today", TODAY])
    judge.same("a page beside a name that is no UTF-8", (page.status, page.output.count(b"<section>"), page.errors),
               (3, len(blocks), done.errors))
    os.link("empty-requester", "shelf/.shelf")
    os.link("kinds-requester", "shelf/G%2F1.requester")
    os.link("kinds-responder", "shelf/G2.responder")
    wanted = [*list_lines(desks["kinds-requester"][1], "--mine", TODAY), "",
              *list_lines(desks["kinds-responder"][1], "--mine", TODAY)]
    printed = [line for line in judge.text(words).split("\n")[:-1] if not line.startswith("shelf/")]
    judge.same("a shelf", printed, wanted)


def check_news_of_folder(judge, names, desks):
    """Compares `news` of a folder of desks, to the first of which nothing came."""
    sides = {name: desks[name][1] if place else [] for place, name in enumerate(names)}
    for name in names[1:]:
        write(f"shelf/{name}.came", came_bytes(sides[name]))
    lines = [line for name in names for line in ["", f"shelf/{name}:", *news_lines(sides[name], 7)]]
    judge.lines(["news", "shelf", "--last", "7"], lines[1:])
    judge.objects(["news", "shelf", "--last", "7", "--json"],
                  [it for name in names for it in news_objects(sides[name], 7, f"shelf/{name}")])
    for name in names[1:]:
        os.remove(f"shelf/{name}.came")


def check_desks(judge):
    """Performs all commands over the ten desks, and over a folder of them."""
    sets = {"empty": {REQUESTER: [], RESPONDER: []}, "kinds": both(kinds()), "titles": both(titled()),
            "thousand": both(thousand()), "longest": {role: longest(role) for role in (REQUESTER, RESPONDER)}}
    desks = {f"{name}-{ROLES[role]}": (role, sides) for name, of in sets.items() for role, sides in of.items()}
    for name, (role, sides) in desks.items():
        write(name, desk_record(role, sides))
        check_list(judge, name, sides)
        check_loans(judge, name, sides)
        check_news(judge, name, sides)
        check_figures(judge, name, sides)
        if not is_longest(sides):
            check_since(judge, name, sides)
            check_notes(judge, name, sides)
        check_rest(judge, name, role, sides)
        if len(sides) < 900 or is_longest(sides):
            check_streams(judge, name, sides)
        judge.part(f"{name}, {len(sides)} loans, {os.path.getsize(name)} bytes, {judge.compared} comparisons so far")
    check_folder(judge, desks)
    judge.part("a folder of desks")


def main(program):
    """Performs all comparisons, in the folder in which it is called. Returns the exit status."""
    judge = Judge(program)
    check_performed(judge)
    judge.part("the commands make the records of the model")
    check_desks(judge)
    found = paths()
    with concurrent.futures.ThreadPoolExecutor(os.cpu_count()) as lanes:
        for done in [lanes.submit(check_kind, judge, *kind) for kind in found.values()]:
            done.result()
    states = {(role, side.state) for role, _, side in found.values()}
    judge.same("how many states were met", len(states), 25)
    judge.part(f"the verbs that are listed and what act answers, in {len(found)} kinds of loans")
    print(f"{'FAILED' if REPORT.failed else 'ok'}: {judge.compared} comparisons")
    return REPORT.status()
