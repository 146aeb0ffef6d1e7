"""Compares docs/PROTOCOL.md with the definitions of ill_work: both have the same work.

It compares

- the work of each state of a role, for all marks and dates, with its line in `specs/Table.antt`;
- the kinds of work, their words and their verbs with those in `specs/Work.antt`, in the order of their urgency.

The words of the tables stand below, with the names that the definitions have for them. A cell with any other word is a
fault.
"""
import itertools
import re

from ill.repository import Unread, read
from ill.texts.tables import CORE, PAGE, SECTION, need, read_states, section, table_lines

SPECS = "crates/ill_work/specs"
HEADING = "7. What staff do next"
# The marks of a state, and what holds on a day: the fact, and its value.
MARKS = {"not declined": ("declined", False), "declined": ("declined", True), "not received": ("received", False),
         "received": ("received", True), "without the checked-in mark": ("checked_in", False),
         "with the checked-in mark": ("checked_in", True), "without the received mark": ("received", False),
         "with the received mark": ("received", True)}
DAYS = {"the expiry date is past": "on.has_expired", "the due date is past": "on.is_overdue",
        "the due date is soon": "on.is_due_soon"}
FACTS = sorted({fact for fact, _ in MARKS.values()}) + list(DAYS.values())


def tables(heading=HEADING):
    """Yields the tables of a section: the first cell of the head, and the cells of each line, with its place."""
    rows = []
    for number, line in itertools.chain(section(heading), [(0, "")]):
        if line.startswith("|"):
            rows.append((f"{PAGE}:{number}", [cell.strip() for cell in line[1:].rstrip().removesuffix("|").split("|")]))
        elif rows:
            yield rows[0][1][0], rows[2:]
            rows = []


def documented(rows, names):
    """Returns what a table says of each state: for each of its lines the mark, what holds on the day, and the work."""
    lines, states, mark = {}, [], None
    for place, (first, day, work) in rows:
        if first:
            words = first.split(", ")
            mark = MARKS[words.pop()] if words[-1] in MARKS else None
            states = [need(names.get(word), place, f"no state {word}") for word in words]
        asked = None if day in ("", "else") else need(DAYS.get(day), place, f"no day: {day}")
        for state in states:
            lines.setdefault(state, []).append((mark, asked, work))
    return lines


def documented_work(lines, facts):
    """Returns the work of the first of these lines whose mark and day fit the facts, or None if none does. A line is
    one that `documented` returns."""
    return next((work for mark, asked, work in lines
                 if (mark is None or facts[mark[0]] == mark[1]) and (asked is None or facts[asked])), None)


def definitions(role):
    """Returns the definition of each state of a role, and that of any other state (`other`)."""
    text = " ".join(read(f"{SPECS}/Table.antt").split())
    parts = {name: need(re.search(rf" {name} [\w ]*= (.*?) (?:--|abbrev)", text), SPECS, f"no {name}")[1]
             for name in ("received_work", "shipped_work")}
    found = re.findall(rf" {role}_work_in (?:states\.)?(\w+) [a-z_ ]+ = (.*?)(?= {role}_work_in| --)", text)
    return {state: parts.get(said.split()[0], said) for state, said in found}


def work_defined(said, facts):
    """Returns the work that a definition says, if these facts hold."""
    choice = re.fullmatch(r"if (\S+) then (\w+) else (.*)", said.removeprefix("(").removesuffix(")"))
    if not choice:
        return said
    if choice[1] not in facts:
        raise Unread(f"{SPECS}/Table.antt: no fact {choice[1]}")
    return choice[2] if facts[choice[1]] else work_defined(choice[3], facts)


def compare_role(role, rows, names):
    """Yields a fault for each state of a role that has no line, or whose line and definition differ."""
    said, defined = documented(rows, names), definitions(role)
    listed = [names[cells[0].split(", ")[0]] for _, cells in table_lines(f"{SECTION[role]}.2 Its states")]
    for state in sorted(set(listed) ^ set(said)):
        yield f"{PAGE}: the work of a {role} has " + ("no line of " if state in listed else "a line of ") + state
    for state, lines in said.items():
        for values in itertools.product([False, True], repeat=len(FACTS)):
            facts = dict(zip(FACTS, values))
            work, other = documented_work(lines, facts), work_defined(defined.get(state, defined["other"]), facts)
            if work != other:
                yield f"{PAGE}: the work of a {role} in {state} is {other}, and not {work}"
                break


def kinds_defined():
    """Returns the kinds of work in the order of their urgency, each with its words and its verbs."""
    text = read(f"{SPECS}/Work.antt")
    verbs = dict(re.findall(r'Verb::(\w+) => "([^"]+)"', read(f"{CORE}/verb.rt")))
    words = dict(re.findall(r'(?m)^work_words (\w+) = codes "([^"]+)"', text))
    lists = dict(re.findall(r"(?m)^work_verbs (\w+) = (.*)", text))
    order = sorted((int(place), kind) for kind, place in re.findall(r"(?m)^urgency_of (\w+) = (\d+)", text))
    return [[kind, words[kind], ", ".join(verbs[verb] for verb in re.findall(r"verbs\.(\w+)", lists[kind]))]
            for _, kind in order]


def compare():
    """Returns the faults that were found, and how much was compared."""
    names = {name: variant for variant, (_, name) in read_states().items()}
    found = dict(tables())
    kinds, faults = [cells for _, cells in found["Work"]], []
    for role in ("requester", "responder"):
        faults += compare_role(role, found[f"State of the {role}"], names)
    if kinds != kinds_defined():
        faults += [f"{PAGE}: it is no kind of work: {line}" for line in kinds if line not in kinds_defined()]
        faults += [f"{PAGE}: a kind of work is missing: {line}" for line in kinds_defined() if line not in kinds]
        faults = faults or [f"{PAGE}: the kinds of work are not in the order of their urgency"]
    return faults, f"{len(kinds)} kinds of work, and the work of each state of both roles"
