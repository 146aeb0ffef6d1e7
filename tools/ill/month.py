"""A month of two libraries whose staff do all in a browser, for `tools/browser --month`.

Anna asks for items at one library, and Bert lends them at the other, by pages alone. Each library has a web server of its
own. At night `ill exchange` carries sealed letters, and the transport loses some, or brings them late, twice or cut. A
model of both sides says after each action and each night what the desk and its diary must have, and each morning what
the page must show. It says too which loans are over at the end.
"""
import datetime
import os
import random

from ill import harness
from ill.counting import Figures
from ill.desks.reads import slip_parts
from ill.driving import Driver, missing
from ill.libraries import DESKS, KNOWN, Library, Transport
from ill.model import REQUESTER, RESPONDER
from ill.notes import is_found
from ill.screen import shown
from ill.serving import free_port, is_there

REPORT = harness.Report()
FIRST, DAYS, GROUP = datetime.date(2026, 12, 1), 31, "North-2026"
BY_CRON = 15  # from this day on, dates are work of the night, and no more of the clerk
MOST_DAYS = 60  # until all loans are over
SLOW = 1000  # milliseconds that no page of a proved program may take
NOTES = ["for Prof. Noether, by Friday", "Lesesaal, Tisch 7", "للأستاذة نويتر", "call 555-0199 when it is here"]
TITLES = [
    "A History of Maps", "Atlas of Rivers", "Letters of a Botanist", "The Life of Bees", "Ulysses", "Ulysses",
    "Middlemarch: a study of provincial life", "三体 (The Three-Body Problem) 刘慈欣 重庆出版社 二〇〇八年 第一版 精装",
    "Пикник на обочине", "السيرة النبوية لابن هشام", "ספר השירים", "Ångström, A. J.: Recherches sur le spectre solaire",
    "Cafe\u0301 litte\u0301raire: e\u0301tudes re\u0301unies", "한국어 어문 규범", "東京の地理と歴史に関する総合的研究報告書",
    "Proceedings of the 17th International Conference on the Preservation of Manuscripts, Printed Books and Bindings in "
    "Tropical and Subtropical Climates, vol. 3, parts 1 and 2, ed. J. Smith, Oxford 1987",
    "Gödel, Escher, Bach", "Der Zauberberg", "Les Misérables, t. 2", "Principia Mathematica", "Walden", "Emma", "Persuasion",
    "Dune", "Hamlet", "Silent Spring", "The Waves", "Beloved", "Kim", "Utopia", "Faust II"]

# What Bert does with each kind of work, unless the loan is one of those below: a verb, its words, and the days from today.
LENDS = {"agree to cancel, or refuse": ("cancel-reply", ["yes"], None), "renew, or refuse": ("renew-answer", ["yes"], 21),
         "check in when it is here": ("check-in", [], None), "send an overdue notice": ("overdue", [], None),
         "let the request expire": ("expire", [], None)}
# By the number of a loan: the work in which he refuses, and the result that he answers at first.
REFUSES = {27: "agree to cancel, or refuse", 1: "renew, or refuse", 3: "renew, or refuse"}
ANSWERS = {8: "will-supply", 9: "conditional", 10: "conditional", 12: "unfilled", 17: "hold-placed", 18: "retry"}
NEVER, SHORT = [6], [1, 2, 3, 4, 7]  # the loans that he leaves, and those that he lends for ten days
WRONG_DATE = 5  # the loan for which he types a due date of the year before
RECALLED = 4  # the loan that he recalls, though it is not overdue, on a day
# By the words of the work: how likely Anna acts on a day, and the verb.
BORROWS = {"unpack when it is here": (1, "receive"), "look for it: it is wanted back": (1, "receive"),
           "send back at once": (0.6, "return"), "send back, or agree on more time": (0.4, "return"),
           "send back or renew": (0.5, "return"), "leave it with the reader": (0.12, "return")}
# The loans that she renews once: at which kind of work, and for how many days from today, or without a day.
RENEWS = {1: ("send back, or agree on more time", None), 2: ("send back or renew", 30), 3: ("send back or renew", None)}
KEEPS = {1, 2, 3, 4, 7}  # the loans that she keeps until they are due
CANCELS = {14: 14, 20: 21, 26: 27}  # by the day: of one loan the item was shipped on this day, and two were asked for
DECLINED = 10  # the loan whose conditions she declines


class Month:
    """The randomized simulation: its two libraries, the transport between them, and the loans by their numbers."""

    def __init__(self, programs, folder, browser):
        """Makes both libraries with one key. `place` is the number of the day, from 0 on, and `once` what was asked for
        already."""
        self.chance = random.Random(7)
        self.here = Library(programs, folder, "borrow", REQUESTER, browser, "anna")
        self.there = Library(programs, folder, "lend", RESPONDER, browser, "bert")
        self.here.ill.well(["key", self.here.key])
        self.transport, self.numbers, self.once, self.place = Transport(self.chance), {}, set(), 0
        self.exchange = harness.load("exchange")

    def libraries(self):
        """Returns both libraries."""
        return self.here, self.there

    def day(self, later=0):
        """Returns the day, or one so many days later, as a browser has it."""
        return (FIRST + datetime.timedelta(self.place + later)).isoformat()

    def is_first(self, what):
        """Returns true if this is asked for the first time."""
        is_new = what not in self.once
        self.once.add(what)
        return is_new

    # ---- What staff do

    def asks(self):
        """Anna begins a loan at the page of the desks, with the number that it proposes. Some loans get a note."""
        library, number, title = self.here, self.place + 1, TITLES[self.place]
        staff, form = library.staff, "details form"
        last_day = self.day(4) if number in NEVER else None
        staff.browser.press(staff.browser.one("summary"))
        staff.count["clicks"] += 1
        for field, text in (("group", GROUP), ("word", title), ("day", last_day)):
            if text:
                staff.fill(f"{form} input[name={field}]:not([type=hidden])", text)
        txn = GROUP, staff.value(f"{form} input[name=transaction]")
        library.draw("new-request", once="request")
        status = staff.click(staff.browser.one(f"{form} button"))
        harness.expect((status, staff.alert()) == (200, ""), f"a request: {status} {staff.alert()!r}")
        self.numbers[txn] = number
        library.done(txn, ["request", last_day.replace("-", "") if last_day else "none", title])
        if number % 4 == 2:
            self.notes(txn, NOTES[number // 4 % len(NOTES)])

    def notes(self, txn, words):
        """Anna keeps a note on the page of a loan, which is there."""
        staff = self.here.staff
        staff.fill("input[name=note]", words)
        staff.click(staff.browser.one("form:has(input[name=note]) button"))
        staff.count["actions"] += 1
        self.here.books.notes[txn] = shown(words)
        harness.expect(f"note {shown(words)}" in staff.browser.text("pre"), f"the note {words!r} is not there")

    def lends(self, work, number):
        """Returns what Bert does in a loan with this kind of work: a verb, its words, and the days from today; or
        None."""
        if work == "answer, or ship":
            if number in ANSWERS and self.is_first(("answer", number)):
                return "answer", [ANSWERS[number]], None
            return None if number in NEVER else ("ship", [], 10 if number in SHORT else 28)
        if work == REFUSES.get(number):
            return LENDS[work][0], ["no"], None
        if work == "recall, or ask where it is":
            return ("recall", [], None) if number == 1 or self.chance.random() < 0.1 else None
        if number == RECALLED and work == "wait for the other library" and self.place >= 9 and self.is_first("recall"):
            return "recall", [], None
        return LENDS.get(work)

    def borrows(self, work, number):
        """Returns what Anna does in a loan with this kind of work: a verb, its words, and the days from today; or
        None."""
        if work == "accept the conditions, or decline":
            return "reply", ["no" if number == DECLINED else "yes"], None
        wished, days = RENEWS.get(number, (None, None))
        if work == wished and self.is_first(("renew", number)):
            return "renew", [], days
        is_kept = number in KEEPS and work in ("leave it with the reader", "send back or renew")
        likely, verb = BORROWS.get(work, (0, None))
        is_done = verb and (self.place >= DAYS or not is_kept and self.chance.random() < likely)
        return (verb, [], None) if is_done else None

    def works(self, library, decide, rows):
        """Works down the rows of a morning, pairs of the work and the loan. Does in each loan what `decide` returns: a
        verb, its words and the days from today, or None for nothing."""
        for work, txn in rows:
            deed = decide(work, self.numbers[txn])
            if not deed:
                continue
            verb, words, days = deed
            library.open(txn)
            if verb == "ship" and self.numbers[txn] == WRONG_DATE:
                self.errs(library)
            library.act(txn, verb, *words, day=self.day(days) if days else None)
            if verb == "receive":
                self.slip(txn)

    def errs(self, library):
        """Types a due date of the year before. Expects that nothing is done, and that the page says so."""
        staff, before = library.staff, harness.read(library.desk)
        status = staff.click(library.filled("ship", [], f"{FIRST.year - 1}{self.day()[4:]}"))
        library.draw("wrong-date", once="wrong date")
        REPORT.case("a wrong due date", harness.differs("status", status, 409),
                    None if "Nothing was done" in staff.alert() else f"the notice is {staff.alert()!r}",
                    None if harness.read(library.desk) == before else "the desk has changed")

    def slip(self, txn):
        """Anna looks at the slip of a loan, which must have its title and its fields, and goes back."""
        staff = self.here.staff
        staff.click(staff.browser.one(".now p a"))
        self.here.draw("slip", once="slip")
        title, role, fields = slip_parts(self.here.books.sides[txn])
        text = staff.browser.run("return document.body.textContent")
        lacking = [it for it in (*title, *role, *fields.values()) if it not in text]
        harness.expect(not lacking, f"the slip of {txn} has no {lacking}")
        staff.browser.back()
        staff.count["clicks"] += 1
        staff.see()

    def cancels(self, number):
        """Anna looks for a loan by its title, and cancels it."""
        library, words = self.here, TITLES[number - 1].split(",")[0].lower()
        txn = next(txn for txn, it in self.numbers.items() if it == number)
        staff = library.staff
        staff.go(library.url())
        staff.fill("input[name=find]", words)
        staff.click(staff.browser.one("form[role=search] button"))
        library.draw("search", once="search")
        found = [tuple(row["loan"]) for table in staff.browser.run(DESKS)[0]["tables"] for row in table["rows"]]
        wanted = [it for it, side in library.books.sides.items() if is_found(words, side, library.books.notes)]
        harness.expect(sorted(found) == sorted(wanted), f"loans with {words!r}: {found} in place of {wanted}")
        staff.click(staff.browser.one(f"th a[href='{library.query(txn)}']"))
        library.act(txn, "cancel")

    # ---- Days and nights

    def night(self, is_good):
        """Performs a night: the run of the requester, that of the responder, and the requester's again. After a good
        night, which loses nothing, expects that both are converged."""
        if not is_good:
            self.transport.bring_late()
        for own, other in ((self.here, self.there), (self.there, self.here), (self.here, self.there)):
            own.run(other, own is self.there and self.place >= BY_CRON)
            self.transport.carry(own, other, is_good)
        if is_good:
            self.expect_converged()

    def expect_converged(self):
        """Expects that both sides of each loan are converged, or that it is over for both."""
        here, there = ({txn: {"state": side.state, "due": side.due or "-", "marks": " ".join(side.marks())}
                        for txn, side in library.books.sides.items()} for library in self.libraries())
        for txn in here.keys() | there.keys():
            self.exchange.expect_converged(txn, here.get(txn, self.exchange.NONE), there.get(txn, self.exchange.NONE))

    def is_over(self):
        """Returns true if all loans are over at both ends, and end alike."""
        here, there = (library.books.sides for library in self.libraries())
        return len(here) == len(TITLES) == len(there) and all(
            side.turn() == "over" and there[txn].state == self.exchange.ENDS.get(side.state) for txn, side in here.items())

    def begin_day(self):
        """Begins a day: its pages, and the night before it, unless it is the first. Every seventh night is good, and so
        is each after the month."""
        for library in self.libraries():
            library.begin_day(self.day().replace("-", ""))
            library.books.news.clear()
        if self.place:
            self.night(self.place >= DAYS or self.place % 7 == 6)

    def one_day(self):
        """Simulates a day: Anna asks for an item, Bert works down his list, and then Anna down hers."""
        rows = self.here.morning()
        if self.place < DAYS:
            self.asks()
        self.works(self.there, self.lends, self.there.morning())
        self.here.staff.go(self.here.url())
        self.works(self.here, self.borrows, rows)
        if self.place in CANCELS:
            self.cancels(CANCELS[self.place])

    def perform(self):
        """Simulates the month, and goes on until all loans are over."""
        for library in self.libraries():
            library.begin_day(self.day().replace("-", ""))
            library.log_in()
        while self.place < DAYS or not self.is_over():
            harness.expect(self.place < MOST_DAYS, "not all loans are over")
            self.begin_day()
            self.one_day()
            faults = self.complaints()
            harness.expect(not faults, f"{self.day()}: the console has {faults}")
            self.place += 1
        self.report()

    def complaints(self):
        """Returns the messages of the console that no status explains. With them stands a text for each status that was
        meant, and that no message says."""
        shown = self.here.staff.browser.messages()
        for status in self.here.staff.meant + self.there.staff.meant:
            found = next((it for it in shown if f"status of {status}" in it), None)
            shown.remove(found) if found else shown.append(f"nothing of the status {status}")
        self.here.staff.meant, self.there.staff.meant = [], []
        return shown

    # ---- What came of it

    def report(self):
        """Reports how many loans are over, what became of letters, what staff did, the figures and the pages of
        loans."""
        REPORT.case(f"a month in a browser: {len(TITLES)} loans over in {self.place} days, and both desks as the model has them")
        REPORT.case("letters: " + ", ".join(f"{count} {fate}" for fate, count in self.transport.count.items()),
                    *(f"none {fate}" for fate in Transport.FATES if not self.transport.count[fate]))
        for library in self.libraries():
            staff = library.staff
            counts = ", ".join(f"{staff.count[it]} {it}" for it in ("actions", "clicks", "fields", "pages"))
            is_slow = staff.slowest > SLOW and not harness.IS_SHORT
            REPORT.case(f"{staff.user}: {counts}, the slowest in {staff.slowest:.0f} ms", "it is slow" if is_slow else None)
            self.report_figures(library)
            self.report_loans(library)

    def report_figures(self, library):
        """Compares the figures of all days, as their page shows them, with the model."""
        staff, books, last = library.staff, library.books, self.day(-1)
        staff.go(library.url())
        staff.fill("input[name=from]", FIRST.isoformat())
        staff.fill("input[name=to]", last)
        staff.click(staff.browser.one("form:has([name=from]) button"))
        library.draw("figures", once="figures")
        found = staff.browser.run(KNOWN).splitlines()
        wanted = Figures(list(books.sides.values()), books.days, (FIRST.strftime("%Y%m%d"), last.replace("-", ""))).lines()
        REPORT.case(f"{staff.user}: the figures", None if found == wanted else f"{found} in place of {wanted}")

    @staticmethod
    def report_loans(library):
        """Compares the page of each loan, which has all that is known of it, with the model."""
        staff, books, faults = library.staff, library.books, []
        for txn in books.sides:
            staff.go(library.url() + library.query(txn))
            found, wanted = staff.browser.run(KNOWN).splitlines(), books.lines(txn)
            faults += [f"{txn}: {found} in place of {wanted}"] * (found != wanted)
        REPORT.case(f"{staff.user}: the pages of {len(books.sides)} loans", *faults[:1])

    def end(self):
        """Ends the web servers."""
        for library in self.libraries():
            library.servers.ended()


def perform(programs):
    """Simulates the month with two programs. Returns the exit status."""
    lacks = missing() + [name for name in ("lighttpd", "openssl") if not is_there(name)]
    if lacks:
        REPORT.skip("a month in a browser", f"{', '.join(lacks)} not installed")
        return 0
    with harness.own_folder() as folder:
        os.chmod(folder, 0o755)
        driver = Driver(folder, free_port())
        try:
            driver.wait()
            simulate(Month(programs, folder, driver.browser()))
        finally:
            driver.end()
    return REPORT.status()


def simulate(month):
    """Simulates a month. What stops it is a failure."""
    try:
        month.perform()
    except harness.Wrong as fault:
        REPORT.fail(f"{month.day()}: {fault}")
    finally:
        month.end()
