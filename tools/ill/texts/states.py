"""Compares docs/PROTOCOL.md with the definitions of ill_beside: both say the same of each state to staff.

It compares the second cell of each line in the tables of states (2.2 and 3.2) with the words in `specs/StateWords.antt`:
by role, by state and by the mark that either names.
"""
import re

from ill.repository import read
from ill.texts.tables import PAGE, SECTION, need, read_states, table_lines
from ill.texts.work import MARKS

SPEC = "crates/ill_beside/specs/StateWords.antt"
CHOICE = re.compile(r'if (\w+) then codes "([^"]*)" else codes "([^"]*)"')


def documented(role, names):
    """Returns the words of the document: by the state, its mark and whether the mark is set, or None without a mark."""
    found = {}
    for place, cells in table_lines(f"{SECTION[role]}.2 Its states"):
        *states, last = cells[0].split(", ")
        mark = MARKS.get(last)
        for state in states if mark else [*states, last]:
            found[need(names.get(state), place, f"no state {state}"), mark] = cells[1]
    return found


def defined(role):
    """Returns the words of the definitions by the state, and by its mark and true if that is set, or None without a
    mark."""
    text, found = " ".join(read(SPEC).split()), {}
    for state, said in re.findall(rf" {role}_words (\w+)[a-z_ ]* = (.*?)(?= {role}_words | -- )", text):
        choice, words = CHOICE.fullmatch(said), re.fullmatch(r'codes "([^"]*)"', said)
        if choice:
            found[state, (choice[1], True)], found[state, (choice[1], False)] = choice[2], choice[3]
        elif state != "other":
            found[state, None] = need(words, SPEC, f"no words of {state}")[1]
    return found


def compare():
    """Returns the faults that were found, and how much was compared."""
    names = {name: variant for variant, (_, name) in read_states().items()}
    faults, count = [], 0
    for role in SECTION:
        said, other = documented(role, names), defined(role)
        count += len(said)
        for key in sorted(set(said) | set(other), key=str):
            if said.get(key) != other.get(key):
                faults.append(f"{PAGE}: the words for a {role} in {key[0]} are {said.get(key)!r}, and {SPEC} has {other.get(key)!r}")
    return faults, f"the words of {count} states, which {PAGE} and {SPEC} have alike"
