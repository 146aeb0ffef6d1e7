"""Compares the help with the definitions of ill_beside: both have the same words of what came.

It compares the lists of `ill news --help` with `specs/NewsWords.antt`: the words of each type of APDU, with each of
its answers, and with and without its date, and those of what a date makes due. A record without a due date has no line
for a renewal that was refused: no requester's record that shows one is without it.
"""
import re

from ill.command_line import text_of
from ill.repository import Unread, read
from ill.texts.words import HELP, named

SPEC = "crates/ill_beside/specs/NewsWords.antt"
# What the help says after a type whose date may be missing, and of the day that is no message's.
DATED = {"IllRequest": " with an expiry day", "Renew": " with a wished day"}
OF_RECORD = "; DAY is that of the record"
# What the help says after a type that the responder itself issues.
OWN = " of its own"
ANSWERS = {"true": " yes", "false": " no"}


def said(text):
    """Returns the words that a definition says, with DAY for the day."""
    match = re.fullmatch(r'codes "([^"]*)"( \+\+ iso_text (?:day|due))?', text)
    if not match:
        raise Unread(f"{SPEC}: no words: {text}")
    return match[1] + ("DAY" if match[2] else "")


def lines_of(name):
    """Yields the lines of a definition: what stands before the equals sign, and the words."""
    yield from re.findall(rf"(?m)^{name} (.*?) = (.*)$", read(SPEC))


def what_came(kind, rest, types):
    """Returns what the help says of a message of the type `kind`. `rest` has the other words of the pattern, and
    `types` the names of the types."""
    if kind == "RenewAnswer":
        return f"{types[kind]} yes"
    answer = "".join(ANSWERS.get(word, "") for word in rest.split())
    return types[kind] + answer + (DATED.get(kind, "") if re.search(r"\bday\b", rest) else "")


def defined():
    """Yields what came, with its words, as the definitions have them."""
    types = named("ApduType", read("crates/ill_values/src/apdu_type.rt"))
    results = named("AnswerResult", read("crates/ill_values/src/apdu.rt"))
    yield from ((types[pattern.removeprefix("due ").strip("()").partition(" ")[0]] + OWN, said(words))
                for pattern, words in lines_of("lender_words") if words != "news_words due other")
    for pattern, words in lines_of("news_words"):
        kind, _, rest = pattern.removeprefix("due ").strip("()").partition(" ")
        if words == "answer_words result":
            yield from ((f"{types[kind]} {results[result.removeprefix('results.')]}", said(of))
                        for result, of in lines_of("answer_words"))
        elif words == "refused_words due":
            yield from ((f"{types[kind]} no{OF_RECORD}", said(of)) for due, of in lines_of("refused_words")
                        if due != "None")
        else:
            yield what_came(kind, rest, types), said(words)


def table():
    """Returns each line of the lists in the help of `news`: what came or was issued, and the words for it."""
    text = text_of("NEWS")
    lists = re.findall(r"(?m)^The words of what a \w+ (?:hears|has sent):\n((?:  .*\n)+)", text)
    return [(line[35:], line[2:35].rstrip()) for of in lists for line in of.splitlines()]


def compare():
    """Returns the faults that were found, and how much was compared."""
    wanted, found = list(defined()), table()
    faults = [f"{HELP}: ill news has {' | '.join(line)}, and {SPEC} has not" for line in found if line not in wanted]
    faults += [f"{HELP}: ill news has no {' | '.join(line)}, as {SPEC} has it" for line in wanted if line not in found]
    if not faults and len(found) != len(wanted):
        faults.append(f"{HELP}: ill news has a line twice")
    return faults, f"the words of {len(wanted)} messages in the news, which the help and {SPEC} have alike"
