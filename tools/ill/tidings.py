"""The news of a desk, as `ill news` writes them, in the words of its help. The sources have no part in it.

A side of the model says which messages it has taken. So nothing here asks a record whether it shows a message.
"""
import functools
import re

from ill.der import encoded
from ill.model import RESPONDER
from ill.screen import shown
from ill.texts import news

# What dates make due at a responder, with the verbs by which a diary names it.
DUE = {"Overdue": "overdue", "Expired": "expire"}
# What an answer says that ends a loan and asks staff for something, until its note begins with this word.
ASKING, DONE = ("retry", "estimate", "locations-provided"), re.compile("(?i:done)(?![A-Za-z0-9])")
# What the help says after a type whose date may be missing.
DATED = {"ILL-Request": " with an expiry day", "Renew": " with a wished day"}


@functools.cache
def table():
    """Returns the words of each message that the lists of the help name, by its name there."""
    return dict(news.table())


def iso(day):
    """Returns a day as ISO 8601 has it, or None for None."""
    return day and f"{day[:4]}-{day[4:6]}-{day[6:]}"


def column(text):
    """Returns a qualifier for a column. A space at an edge, or after another one, is written by its number."""
    return re.sub("^ |(?<= ) | $", r"\\u{20}", text)


def words_of(side, apdu):
    """Returns the words of a message in the news of the loan of a side."""
    if is_own(side, apdu):
        return table()[apdu["apdu"] + news.OWN]
    answer = {None: "", True: " yes", False: " no"}[apdu.get("reply")]
    name, date = apdu["apdu"] + (f" {apdu['result']}" if "result" in apdu else answer), apdu.get("date")
    if name == "Renew-Answer no":
        name, date = name + news.OF_RECORD, side.due
    elif date:
        name += DATED.get(name, "")
    return table()[name].replace("DAY", iso(date) or "")


def is_own(side, apdu):
    """Returns True if a date has made a message of the side itself due."""
    return side.role == RESPONDER and apdu["apdu"] in DUE


def is_open(apdu, note):
    """Returns True if a message ended a loan and asks staff for something, and the note does not say `done`."""
    return apdu.get("result") in ASKING and not DONE.match(note)


def came_bytes(sides):
    """Returns the bytes of all that came to these sides."""
    return b"".join(encoded(side.txn, apdu) for side in sides for apdu in side.came)


class Since:
    """A day since which news are printed. `days` has the days of the lines that name a message, by its transaction, the
    word for it and its number. `again` has what came once more after all else, and `notes` the notes of loans."""

    def __init__(self, day, days, again=(), notes=None):
        """Keeps the day, the days of lines, what came again, and the notes."""
        self.day, self.days, self.again, self.notes = day, days, list(again), notes or {}

    def days_of(self, side, apdu):
        """Returns the days of the lines of the diary that name a message."""
        what = DUE[apdu["apdu"]] if is_own(side, apdu) else apdu["apdu"]
        return self.days.get((tuple(side.txn), what, apdu["number"]), [])

    def is_older(self, message):
        """Returns true if lines of the diary name a message, and all of them are of earlier days."""
        return max(self.days_of(*message), default=self.day) < self.day

    def is_new(self, message):
        """Returns true if no line of an earlier day names a message. A message without a line is new, too."""
        return min(self.days_of(*message), default=self.day) >= self.day

    def of(self, sides, messages):
        """Returns the news of these messages, each with its side. First come open answers that are not new, then what
        is new after the last message that is older. Last comes what dates have made due since the day. Each message is
        there once."""
        came = messages + self.again
        older = [place for place, message in enumerate(came) if self.is_older(message)]
        news = by_name(filter(self.is_new, came[older[-1] + 1:] if older else came))
        left = by_name((side, apdu) for side, apdu in came if is_open(apdu, self.notes.get(tuple(side.txn), "")))
        own = [(side, apdu) for side in sides for apdu in side.issued if is_own(side, apdu)]
        return [*(message for name, message in left.items() if name not in news), *news.values(),
                *(message for message in own if self.days_of(*message) and self.is_new(message))]


def by_name(messages):
    """Returns these messages, each with its side, by their loan and number. Of those alike the last one stays."""
    return {(tuple(side.txn), apdu["number"]): (side, apdu) for side, apdu in messages}


def printed_messages(sides, last=None, since=None):
    """Returns the last messages that are printed, each with its side, and how many there are in all. `last` is the most
    that are printed, or None for all. `since` is a `Since`, or None."""
    all_of = [(side, apdu) for side in sides for apdu in side.came]
    all_of = since.of(sides, all_of) if since else all_of
    return all_of[-last:] if last else all_of, len(all_of)


def heard(sides, since):
    """Returns what is printed about each loan since a day: the loan -> a list of the number and the words of each
    message."""
    loans = {tuple(side.txn): [] for side in sides}
    for side, apdu in printed_messages(sides, since=since)[0]:
        loans[tuple(side.txn)].append((apdu["number"], words_of(side, apdu)))
    return loans


def news_lines(sides, last=None, since=None):
    """Returns the lines of `news`. The parameters are those of `printed_messages`."""
    rows, count = printed_messages(sides, last, since)
    cells = [[*map(column, side.txn), str(apdu["number"]), words_of(side, apdu)] for side, apdu in rows]
    widths = [max(map(len, texts)) for texts in zip(*cells)]
    widths[2:3] = [3] if widths else []
    lines = ["  " + "".join(text.ljust(width) + "  " for text, width in zip(texts, widths)) + shown(side.asked()["item"])
             for (side, _), texts in zip(rows, cells)]
    return [*lines, f"messages {count}, shown {len(rows)}"]


def news_objects(sides, last=None, file=None, since=None):
    """Returns the objects of `news`, with the path `file` of the desk if it is given. The others are the parameters of
    `printed_messages`."""
    return [{"kind": "news", "group": side.txn[0], "transaction": side.txn[1], "number": apdu["number"],
             "words": words_of(side, apdu), "item": side.asked()["item"], **({"file": file} if file else {})}
            for side, apdu in printed_messages(sides, last, since)[0]]
