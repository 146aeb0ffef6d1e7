"""The two sides of a loan, by the tables of docs/PROTOCOL.md: what each may do, issues and makes of a message."""
import copy

from ill.der import RESULTS

REQUESTER, RESPONDER = 0, 1
ROLES = ("requester", "responder")
# The results of an ILL-Answer that end a loan.
NO_SUPPLY = ("retry", "unfilled", "locations-provided", "estimate")

# LENT are the states from SHIPPED on in which the item is out. LATER has also those after its return.
LENT = ("SHIPPED", "RECEIVED", "RENEW/PENDING", "OVERDUE", "RENEW/OVERDUE", "NOT-RECEIVED/OVERDUE", "RECALL")
LATER = LENT + ("RETURNED", "CHECKED-IN")

# The verbs of each role in the order of PROTOCOL.md, 2.2 and 3.2.
VERBS = {
    REQUESTER: {"IDLE": "request", "PENDING": "cancel", "CONDITIONAL": "reply", "SHIPPED": "receive",
                "NOT-RECEIVED/OVERDUE": "receive", "RECEIVED": "renew return", "OVERDUE": "renew return",
                "RENEW/PENDING": "return", "RENEW/OVERDUE": "return"},
    RESPONDER: {"IN-PROCESS": "answer ship expire", "CONDITIONAL": "expire", "CANCEL-PENDING": "cancel-reply",
                "SHIPPED": "overdue recall", "RENEW/PENDING": "renew-answer overdue", "OVERDUE": "recall",
                "RENEW/OVERDUE": "renew-answer", "RETURNED": "check-in"}}
# The states in which a loan is over. A requester's is over, too, once it is checked in.
OVER = ("CANCELLED", "NOT-SUPPLIED", "CHECKED-IN")
# The states in which the other side acts next.
THEIRS = {REQUESTER: ("PENDING", "CANCEL-PENDING", "RENEW/PENDING", "RENEW/OVERDUE", "RETURNED"),
          RESPONDER: ("IDLE", "CONDITIONAL", "SHIPPED", "OVERDUE", "RECALL")}
# The words to try for each verb, as `ill act --help` has them.
FORMS = {
    REQUESTER: ["request none Maps", "request 20250310 Maps", "cancel", "reply yes", "reply no", "receive", "renew none",
                "renew 20250501", "return"],
    RESPONDER: [*(f"answer {result}" for result in RESULTS), "cancel-reply yes", "cancel-reply no", "ship +14",
                "ship 20000101", "renew-answer yes 20300101", "renew-answer yes 19990101", "renew-answer no", "overdue",
                "recall", "check-in", "expire"]}


class Fault(Exception):
    """A refusal of the model, by its word."""


class Side:
    """A side of a loan: its record, and the messages that it has taken."""

    def __init__(self, role, txn):
        """Begins an IDLE side of this role. `held`, `accepted`, `cancelled` and `renewed` are numbers of messages, or
        None."""
        self.role, self.txn, self.state, self.issued, self.due = role, txn, "IDLE", [], None
        self.held = self.accepted = self.cancelled = self.renewed = self.request = None
        self.checked_in = self.received = False
        self.came = []  # the messages that were taken, in their order

    def twin(self):
        """Returns a copy of the side. Both share their messages, which are never changed."""
        other = copy.copy(self)
        other.issued, other.came = list(self.issued), list(self.came)
        return other

    def asked(self):
        """Returns the request of the loan, or None."""
        return self.request if self.role == RESPONDER else self.issued[0] if self.issued else None

    def expiry(self):
        """Returns the expiry date of the request, or None."""
        return self.asked() and self.asked().get("date")

    def deadline(self):
        """Returns the due date, or else the expiry date of the request, or None."""
        return self.due or self.expiry()

    def has(self, kind, **fields):
        """Returns true if a message of this type with these fields was issued."""
        return any(apdu["apdu"] == kind and fields.items() <= apdu.items() for apdu in self.issued)

    def is_declined(self):
        """Returns true if a requester has declined the conditions, and no answer has come."""
        return self.role == REQUESTER and self.state == "CONDITIONAL" and self.has("Conditional-Reply", reply=False)

    def is_received(self):
        """Returns true if a Received was issued by a requester, or taken by a responder."""
        return self.received if self.role == RESPONDER else self.has("Received")

    def marks(self):
        """Returns the names of the marks that are set."""
        return [name for name, is_set in (("received", self.is_received()), ("checked-in", self.checked_in),
                                          ("declined", self.is_declined())) if is_set]

    def verbs(self):
        """Returns the verbs that the state and the marks allow now, whatever the day."""
        if self.role == REQUESTER and self.state == "RECALL":
            return ["return"] if self.is_received() else ["receive"]
        return [] if self.is_declined() else VERBS[self.role].get(self.state, "").split()

    def possible(self, today=None):
        """Returns the verbs that are allowed on a day, or on some day if none is given. An Overdue wants a due date
        that is past, and an Expire an expiry date that is past."""
        dates = {"overdue": self.due, "expire": self.expiry()}
        return [verb for verb in self.verbs() if verb not in dates or (dates[verb] or "99999999") < (today or "99991231")]

    def turn(self, today=None):
        """Returns who acts next: `mine`, `theirs`, or `over` if nobody does. It is `mine` if the deadline is past on
        the day and the side has a verb."""
        if today and self.deadline() and self.deadline() < today and self.verbs():
            return "mine"
        if self.state in OVER or self.role == REQUESTER and self.checked_in:
            return "over"
        return "theirs" if self.state in THEIRS[self.role] or self.is_declined() else "mine"

    def issue(self, kind, **fields):
        """Issues a message of this type with the next number and these fields."""
        if len(self.issued) == 255:
            raise Fault("numbers-used")
        self.issued.append({"apdu": kind, "number": len(self.issued) + 1, **fields})

    def last(self, kind):
        """Returns the number of the last message of this type that was issued, or None if there is none."""
        return next((apdu["number"] for apdu in reversed(self.issued) if apdu["apdu"] == kind), None)

    def act(self, words, today):
        """Performs an action by its words. Raises `Fault` if it is refused."""
        verb, *rest = words.split(" ")
        if verb not in self.verbs():
            raise Fault("not-now")
        (self.wish if self.role == REQUESTER else self.deed)(verb, rest, today)

    def wish(self, verb, rest, _):
        """Performs an action of a requester by its verb and the rest of its words."""
        if verb == "request":
            expiry = {} if rest[0] == "none" else {"date": rest[0]}
            self.issue("ILL-Request", **expiry, item=" ".join(rest[1:]))
            self.state = "PENDING"
        elif verb == "cancel":
            self.issue("Cancel")
            self.state = "CANCEL-PENDING"
        elif verb == "reply":
            self.issue("Conditional-Reply", answers=self.held, reply=rest == ["yes"])
            self.state, self.held = ("PENDING", None) if rest == ["yes"] else (self.state, self.held)
        elif verb == "receive":
            self.issue("Received")
            self.state = {"SHIPPED": "RECEIVED", "NOT-RECEIVED/OVERDUE": "OVERDUE", "RECALL": "RECALL"}[self.state]
        elif verb == "renew":
            self.issue("Renew", **({} if rest == ["none"] else {"date": rest[0]}))
            self.state = {"RECEIVED": "RENEW/PENDING", "OVERDUE": "RENEW/OVERDUE"}[self.state]
        else:
            self.issue("Returned")
            self.state = "RETURNED"

    def deed(self, verb, rest, today):
        """Performs an action of a responder by its verb and the rest of its words, on a day."""
        late = self.state == "RENEW/OVERDUE"
        if verb == "answer":
            self.issue("ILL-Answer", result=rest[0])
            self.state = "CONDITIONAL" if rest[0] == "conditional" else "NOT-SUPPLIED" if rest[0] in NO_SUPPLY else self.state
        elif verb == "cancel-reply":
            self.issue("Cancel-Reply", answers=self.cancelled, reply=rest == ["yes"])
            self.state = "CANCELLED" if rest == ["yes"] else "IN-PROCESS"
        elif verb == "ship":
            self.refuse(rest[0] < today, "date-earlier")
            self.issue("Shipped", date=rest[0])
            self.state, self.due = "SHIPPED", rest[0]
        elif verb == "renew-answer":
            self.refuse(rest[0] == "yes" and rest[-1] <= self.due, "date-not-later")
            granted = {"date": rest[1]} if rest[0] == "yes" else {}
            self.issue("Renew-Answer", answers=self.renewed, reply=bool(granted), **granted)
            self.state, self.due = "SHIPPED" if granted or not late else "OVERDUE", granted.get("date", self.due)
        elif verb == "overdue":
            self.refuse(today <= self.due, "not-due")
            self.issue("Overdue", date=self.due)
            self.state = "OVERDUE" if self.state == "SHIPPED" else "RENEW/OVERDUE"
        elif verb == "expire":
            self.refuse(not self.expiry() or today <= self.expiry(), "not-expired")
            self.issue("Expired")
            self.state = "NOT-SUPPLIED"
        else:
            self.issue({"recall": "Recall", "check-in": "Checked-In"}[verb])
            self.state = {"recall": "RECALL", "check-in": "CHECKED-IN"}[verb]

    @staticmethod
    def refuse(is_so, word):
        """Raises `Fault` with this word if it is so."""
        if is_so:
            raise Fault(word)

    def take(self, apdu):
        """Takes a message. Returns `taken`, `repeat`, `stale` or `conflict`."""
        outcome = (self.hear if self.role == REQUESTER else self.heed)(apdu)
        self.came += [apdu] if outcome == "taken" else []
        return outcome

    def to(self, state, **parts):
        """Sets the state and these parts of the record. Returns the word `taken`."""
        self.state = state
        vars(self).update(parts)
        return "taken"

    def yes(self):
        """Returns the number that the last Conditional-Reply yes answers, or 0."""
        return next((apdu["answers"] for apdu in reversed(self.issued)
                     if apdu["apdu"] == "Conditional-Reply" and apdu["reply"]), 0)

    def hear(self, apdu):
        """Takes a message at a requester (PROTOCOL.md, 2.5). Returns the word for what came of it, as `take` does."""
        kind, state, renews = apdu["apdu"], self.state, ("RENEW/PENDING", "RENEW/OVERDUE")
        before = ("PENDING", "CONDITIONAL", "CANCEL-PENDING")
        if kind == "ILL-Answer" and apdu["result"] == "conditional":
            if apdu["number"] <= self.yes() or state == "CONDITIONAL" and apdu["number"] == self.held:
                return "repeat"
            return self.to("CONDITIONAL", held=apdu["number"]) if state == "PENDING" else "conflict"
        if kind == "ILL-Answer" and apdu["result"] not in NO_SUPPLY:
            return "taken" if state == "PENDING" else "conflict"
        if kind in ("ILL-Answer", "Expired"):
            return "repeat" if state == "NOT-SUPPLIED" else self.to("NOT-SUPPLIED", held=None) if state in before else "conflict"
        if kind == "Cancel-Reply":
            is_last = apdu["answers"] == self.last("Cancel")
            if state == "CANCEL-PENDING" and is_last:
                return self.to("CANCELLED" if apdu["reply"] else "PENDING")
            if state == "CANCELLED" and apdu["reply"] and is_last:
                return "repeat"
            return "stale" if self.is_own(apdu["answers"], "Cancel") else "conflict"
        if kind == "Shipped":
            return self.to("SHIPPED", due=apdu["date"], held=None) if state in before else "repeat" if state in LATER else "conflict"
        if kind == "Overdue":
            if state in LATER and apdu["date"] != self.due:
                return "stale"
            states = {"SHIPPED": "NOT-RECEIVED/OVERDUE", "RECEIVED": "OVERDUE", "RENEW/PENDING": "RENEW/OVERDUE"}
            return self.to(states[state]) if state in states else "repeat" if state in states.values() else "conflict"
        if kind == "Renew-Answer":
            if state in renews and apdu["answers"] == self.last("Renew"):
                if apdu["reply"]:
                    return self.to("RECEIVED", due=apdu["date"]) if apdu["date"] > self.due else "conflict"
                return self.to("RECEIVED" if state == "RENEW/PENDING" else "OVERDUE")
            return "stale" if self.is_own(apdu["answers"], "Renew") else "conflict"
        if kind == "Recall":
            return "repeat" if state == "RECALL" else self.to("RECALL") if state in LENT else "conflict"
        if state != "RETURNED":
            return "conflict"
        return "repeat" if self.checked_in else self.to(state, checked_in=True)

    def is_own(self, number, kind):
        """Returns true if the issued message with this number is of this type."""
        return any(apdu["number"] == number and apdu["apdu"] == kind for apdu in self.issued)

    def heed(self, apdu):
        """Takes a message at a responder (PROTOCOL.md, 3.5). Returns the word for what came of it, as `take` does. A
        Conditional-Reply no lets the responder issue an answer."""
        kind, state = apdu["apdu"], self.state
        if kind == "ILL-Request":
            return self.to("IN-PROCESS", request=apdu) if state == "IDLE" else "repeat"
        if kind == "Conditional-Reply" and apdu["reply"]:
            if state == "CONDITIONAL" and apdu["answers"] == len(self.issued):
                return self.to("IN-PROCESS", accepted=apdu["answers"])
            named = any(one["number"] == apdu["answers"] and one.get("result") == "conditional" for one in self.issued)
            return "repeat" if apdu["answers"] == self.accepted else "stale" if named else "conflict"
        if kind == "Conditional-Reply":
            if state not in ("IN-PROCESS", "CONDITIONAL"):
                return "repeat" if state == "NOT-SUPPLIED" else "conflict"
            self.issue("ILL-Answer", result="unfilled")
            return self.to("NOT-SUPPLIED")
        if kind == "Cancel":
            if apdu["number"] <= (self.cancelled or 0):
                return "repeat"
            is_open = state in ("IN-PROCESS", "CONDITIONAL")
            return self.to("CANCEL-PENDING", cancelled=apdu["number"]) if is_open else "conflict"
        if kind == "Received":
            return "conflict" if state not in LATER else "repeat" if self.received else self.to(state, received=True)
        if kind == "Renew":
            if apdu["number"] <= (self.renewed or 0):
                return "repeat"
            states = {"SHIPPED": "RENEW/PENDING", "OVERDUE": "RENEW/OVERDUE"}
            return self.to(states[state], renewed=apdu["number"]) if state in states else "conflict"
        return self.to("RETURNED") if state in LENT else "repeat" if state in LATER else "conflict"
