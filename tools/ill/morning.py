"""The work that staff do next with a loan on a day, and the words for its state, as the tables of docs/PROTOCOL.md have them
(2.2, 3.2 and 7). The sources have no part in it."""
import datetime
import functools

from ill.model import ROLES
from ill.texts import work
from ill.texts.tables import SECTION, table_lines

AHEAD = 7  # a due date is soon if it is at most this number of days away, as `ill report --help` has it
LAST = datetime.date(9999, 12, 31)


class Loan:
    """A loan as the tables see it: its role, its state, its marks, its due date and its expiry date. A date may be
    None."""

    @classmethod
    def of(cls, side):
        """Returns the loan of a side of the model."""
        return cls(ROLES[side.role], side.state, side.marks(), side.due, side.expiry())

    def __init__(self, role, state, marks, due, expiry):
        """Keeps these parts. `facts` says by its name which mark is set, as the tables name them."""
        self.role, self.state, self.due, self.expiry = role, state, due, expiry
        self.facts = {fact: mark in marks for mark, fact in (("declined", "declined"), ("received", "received"),
                                                             ("checked-in", "checked_in"))}

    def deadline(self):
        """Returns the due date, or else the expiry date of the request, or None."""
        return self.due or self.expiry


class Morning:
    """The tables of docs/PROTOCOL.md on a day. Without a day no date is past, and none is soon."""

    def __init__(self, today=None, ahead=AHEAD):
        """Reads the tables for a day. A due date is soon if it is at most `ahead` days away."""
        self.today, self.ahead, found = today, ahead, dict(work.tables())
        self.kinds = {kind: (words, verbs.split(", ") if verbs else []) for _, (kind, words, verbs) in found["Work"]}
        self.lines = {role: documented(found[f"State of the {role}"]) for role in SECTION}
        self.words = {role: documented([(place, (cells[0], "", cells[1]))
                                        for place, cells in table_lines(f"{SECTION[role]}.2 Its states")])
                      for role in SECTION}

    def is_past(self, day):
        """Returns true if a day is before today. None is never past."""
        return None not in (day, self.today) and day < self.today

    def is_soon(self, due):
        """Returns true if a due date is at most `ahead` days away."""
        if None in (due, self.today):
            return False
        start = datetime.datetime.strptime(self.today, "%Y%m%d").date()
        last = start + min(datetime.timedelta(self.ahead), LAST - start)
        return due <= last.strftime("%Y%m%d")

    def kind(self, loan):
        """Returns the kind of work with a loan, by its name in the table."""
        facts = {**loan.facts, "on.has_expired": self.is_past(loan.expiry), "on.is_overdue": self.is_past(loan.due),
                 "on.is_due_soon": self.is_soon(loan.due)}
        return work.documented_work(self.lines[loan.role][loan.state], facts)

    def state(self, loan):
        """Returns the words for the state of a loan."""
        return work.documented_work(self.words[loan.role][loan.state], loan.facts)

    def allows(self, loan, verb):
        """Returns true if the day allows an action: an Overdue wants a due date that is past, and an Expire an expiry
        date that is past."""
        return self.is_past({"overdue": loan.due, "expire": loan.expiry}[verb]) if verb in ("overdue", "expire") else True

    def tables(self, loans):
        """Returns the tables of a page in their order: the words of each, whether it wants a hand, and its rows.
        `loans` are pairs of a loan and its row, in the order in which the loans were begun. Tables without a row are
        left out."""
        ordered = sorted(loans, key=lambda pair: pair[0].deadline() or "99999999")
        kinds = [(words, bool(verbs), [row for loan, row in ordered if self.kind(loan) == kind])
                 for kind, (words, verbs) in self.kinds.items()]
        return [table for table in kinds if table[2]]

    def counts(self, loans):
        """Returns the line of the counts of a desk on a page."""
        kinds = [self.kind(loan) for loan in loans]
        to_do, is_open = (sum(map(test, kinds)) for test in (lambda kind: bool(self.kinds[kind][1]),
                                                             lambda kind: kind != "Over"))
        return f"To do: {to_do}. Open: {is_open}. Loans: {len(loans)}. Room for {1000 - len(loans)} more."


@functools.cache
def morning_of(today, ahead):
    """Returns the morning of a day. It is read once."""
    return Morning(today, ahead)


def work_with(side, today=None, ahead=AHEAD):
    """Returns the words of the work with a side of the model on a day. If `today` is None, there is no day."""
    morning = morning_of(today, ahead)
    return morning.kinds[morning.kind(Loan.of(side))][0]


def works():
    """Returns the words of each kind of work, the most pressing first, each with whether it wants a hand."""
    return {words: bool(verbs) for words, verbs in morning_of(None, AHEAD).kinds.values()}


def documented(rows):
    """Returns what a table says of each state, by the name of the state, as `work.documented` does. `rows` are its
    lines."""
    return work.documented(rows, {word: word for _, cells in rows for word in cells[0].split(", ")})
