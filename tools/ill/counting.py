"""The figures of a desk, as the help of `ill figures` has them, and a diary for it. The sources have no part in it.

A side of the model says which messages it has taken. So nothing here asks a record whether it shows a message.
"""
import datetime
import statistics

from ill.model import LATER, RESPONDER
from ill.notes import key
from ill.tidings import iso

# The verbs of the actions that issue each type of message, as the diary names what was issued.
VERBS = {"ILL-Request": "request", "ILL-Answer": "answer", "Conditional-Reply": "reply", "Cancel": "cancel",
         "Cancel-Reply": "cancel-reply", "Shipped": "ship", "Received": "receive", "Recall": "recall",
         "Returned": "return", "Checked-In": "check-in", "Overdue": "overdue", "Renew": "renew",
         "Renew-Answer": "renew-answer", "Expired": "expire"}
# The reasons of a refusal; and of each wait, between which steps of a loan its days are.
REASONS = ("unfilled", "retry", "estimate", "locations-provided", "expired", "unknown")
WAITS = {"days to answer": ("asked", "answered"), "days to arrive": ("asked", "arrived"), "days out": ("shipped", "back")}
# The types of message that take a step of a loan.
STEPS = {"asked": ["ILL-Request"], "answered": ["ILL-Answer", "Shipped"], "shipped": ["Shipped"], "arrived": ["Received"],
         "back": ["Checked-In"]}
FIELDS = ["desk", "from", "to", "asked", "filled", "open", "cancelled", "refused",
          *(reason.replace("-", "_") for reason in REASONS), "answered", "days_to_answer", "arrived", "days_to_arrive",
          "returned", "days_out", "without_a_day"]


def messages(side, is_kept):
    """Returns the messages of a loan, each with the word by which a diary names it. First come those that it has
    issued, then the request that a responder has taken. All others that came follow if `is_kept`: there is a file of
    them."""
    request = [side.request] if side.role == RESPONDER and side.request else []
    came = [apdu for apdu in side.came if is_kept and apdu not in request]
    return ([(apdu, VERBS[apdu["apdu"]]) for apdu in side.issued] + [(apdu, apdu["apdu"]) for apdu in request + came])


def diary_line(day, name, txn, what, number):
    """Returns the bytes of the line in which a diary names a message of the loan `txn`. The message has the word `what`
    and this number, and `name` is the user who acted on this day, or `-`."""
    return f"{day} {name} {key(txn[0])} {key(txn[1])} {what} {number}\n".encode()


class Counted:
    """The figures of one loan: the day on which it was asked, how it ended, and the days of each wait."""

    def __init__(self, side, days, is_kept):
        """Counts a side. `days` has the day of each message that a diary names, by its loan, its word and its
        number. `is_kept` says if there is a file of what came."""
        dated = [(apdu, days.get((tuple(side.txn), what, apdu["number"]))) for apdu, what in messages(side, is_kept)]
        first = {step: next((day for apdu, day in dated if apdu["apdu"] in types), None) for step, types in STEPS.items()}
        self.asked = first["asked"]
        self.end = self.ended(side.state, [apdu for apdu, _ in dated])
        self.waits = {wait: passed(first[start], first[end]) for wait, (start, end) in WAITS.items()}

    @staticmethod
    def ended(state, apdus):
        """Returns how a loan in this state stands: `filled`, `open`, `cancelled` or the reason of a refusal. The reason
        is that of the first message of `apdus` that has one, or `unknown`."""
        if state == "NOT-SUPPLIED":
            reasons = [apdu.get("result", "expired" if apdu["apdu"] == "Expired" else None) for apdu in apdus]
            return next((reason for reason in reasons if reason in REASONS), "unknown")
        return "filled" if state in LATER else "cancelled" if state == "CANCELLED" else "open"


def passed(start, end):
    """Returns how many days `end` is after `start`. Returns None if one of them is None, or `end` is before `start`."""
    if start is None or end is None or end < start:
        return None
    day = datetime.date.fromisoformat
    return (day(iso(end)) - day(iso(start))).days


def mean(numbers):
    """Returns the mean of these numbers as a text with one digit after the point, a half rounded up. Returns None if
    there are no numbers."""
    tenths = statistics.fsum(numbers) * 10 / len(numbers) if numbers else None
    return None if tenths is None else "{}.{}".format(*divmod(int(tenths + 0.5), 10))


class Figures:
    """The figures of a desk over a span of days."""

    def __init__(self, sides, days, span, is_kept=True):
        """Counts the loans of `sides` that were asked in the span, which is its first and its last day. `undated` is
        the number of loans of which the day of the request is not known. `days` and `is_kept` are those of
        `Counted`."""
        loans = [Counted(side, days, is_kept) for side in sides]
        self.span = span
        self.undated = sum(loan.asked is None for loan in loans)
        self.loans = [loan for loan in loans if loan.asked and span[0] <= loan.asked <= span[1]]

    def count(self, *ends):
        """Returns how many of the loans ended in one of these ways."""
        return sum(loan.end in ends for loan in self.loans)

    def counts(self):
        """Returns each count by its label, in the order of the lines."""
        return {"asked": len(self.loans), **{end: self.count(end) for end in ("filled", "open", "cancelled")},
                "refused": self.count(*REASONS), **{f"  {reason}": self.count(reason) for reason in REASONS}}

    def means(self):
        """Returns for each wait the number of loans that have its days, and the mean of these days. The mean is None if
        no loan has them."""
        known = {wait: [loan.waits[wait] for loan in self.loans if loan.waits[wait] is not None] for wait in WAITS}
        return {wait: (len(days), mean(days)) for wait, days in known.items()}

    def lines(self):
        """Returns the lines of the figures."""
        rows = [*self.counts().items(), *((wait, f"{days} of {count}" if count else "-")
                                          for wait, (count, days) in self.means().items()), ("without a day", self.undated)]
        return ["  from {} to {}".format(*map(iso, self.span)), *(f"  {label:22}{value}" for label, value in rows)]

    def fields(self, path):
        """Returns the fields of the record of CSV of the desk at this path. A mean that is None is an empty text."""
        return [path, *map(iso, self.span), *map(str, self.counts().values()),
                *(str(it or "") if it != 0 else "0" for pair in self.means().values() for it in pair), str(self.undated)]
