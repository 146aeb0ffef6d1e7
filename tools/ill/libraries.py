"""Libraries whose staff work in a browser, and the transport between them, for the month of tools/browser.

A `Library` has a desk, a web server of its own, and `Staff` who count what their work takes. Its `Books` have what the desk,
the diary and the pages must have, by the model: what is done by a form, and what a night brings, is done there too.
"""
import collections
import os
import urllib.parse

from ill import harness
from ill.counting import diary_line
from ill.der import parts_of, encoded
from ill.desks.reads import field_lines, loan_lines
from ill.model import ROLES, Side
from ill.morning import Loan, Morning
from ill.records import desk_record
from ill.screen import shown
from ill.serving import USERS, Servers
from ill.tidings import is_open, iso, words_of

# What the page of the desks shows: of each desk its counts, and its tables with their rows.
DESKS = """
const text = it => it === null ? '' : it.textContent;
const row = it => ({ title: text(it.querySelector('th a')), loan: [...it.querySelectorAll('bdi')].map(text),
  small: [...it.querySelectorAll('small')].map(text), state: text(it.cells[2].firstChild), date: text(it.cells[3]),
  verbs: [...it.querySelectorAll('code')].map(text) });
const table = head => ({ head: text(head), wants: head.className === 'task',
  rows: [...head.nextElementSibling.tBodies[0].rows].map(row) });
return [...document.querySelectorAll('section')].map(part => ({ counts: text(part.querySelector('p')),
  tables: [...part.querySelectorAll('h3')].map(table) }));
"""
# The verbs of the forms of a page.
VERBS = """
return [...new Set([...document.querySelectorAll("form:has(input[name=stamp])")].map(
  it => it.querySelector('input[type=hidden][name=word]').value))];
"""
# The status of a page, and the milliseconds that it took.
TIME = """
const it = performance.getEntriesByType('navigation')[0];
return [it.responseStatus, Math.max(it.duration, it.domComplete)];
"""
# All that is known of a loan, or the figures, as a page shows them; and the screens of pictures.
KNOWN = "return document.querySelector('pre').textContent"
SCREENS = {"wide": (1200, "light", "screen"), "narrow": (320, "light", "screen"), "dark": (1200, "dark", "screen"),
           "print": (720, "light", "print")}


class Books:
    """The books of a desk, by the model: its loans, its diary and its notes, as they must be."""

    def __init__(self, role):
        """Begins the books of a desk without loans. `days` has the day of each line of the diary, and `last` the day of
        each loan's last line. `news` has the words of what is new of each loan on this day."""
        self.role, self.sides, self.notes = role, {}, {}
        self.diary, self.days, self.last, self.news = b"", {}, {}, collections.defaultdict(list)

    def act(self, txn, words, day, user):
        """Performs an action of a user in the model, and enters its line in the diary."""
        side = self.sides.setdefault(txn, Side(self.role, txn))
        side.act(words, day)
        self.enter(txn, words.partition(" ")[0], len(side.issued), day, user)

    def enter(self, txn, what, number, day, name="-"):
        """Enters a line in the diary: the message with this word and number came, or was issued, on this day."""
        self.diary += diary_line(day, name, txn, what, number)
        self.days[txn, what, number], self.last[txn] = day, day

    def take(self, messages, day):
        """Takes the messages of a night: those of each loan, in the order of their numbers. `messages` are pairs of a
        loan and a message. A loan that stays IDLE is not in the books."""
        loans = collections.defaultdict(list)
        for txn, apdu in messages:
            loans[txn].append(apdu)
        for txn, apdus in loans.items():
            side = self.sides.get(txn) or Side(self.role, txn)
            for apdu in sorted(apdus, key=lambda apdu: apdu["number"]):
                self.hear(side, apdu, day)
            if side.state != "IDLE":
                self.sides[txn] = side

    def hear(self, side, apdu, day):
        """Gives a message to a side. If the side takes it, the diary gets a line. It is news unless an older line names
        it."""
        if side.take(apdu) == "taken":
            what = apdu["apdu"], apdu["number"]
            self.news[side.txn] += [words_of(side, apdu)] * ((side.txn, *what) not in self.days)
            self.enter(side.txn, *what, day)

    def news_of(self, side):
        """Returns the words of what is shown of a loan: an open answer of an earlier day, and what came on this day."""
        left = [words_of(side, apdu) for apdu in side.came if is_open(apdu, self.notes.get(side.txn, ""))]
        return [words for words in left if words not in self.news[side.txn]] + self.news[side.txn]

    def keep_dates(self, day):
        """Issues what the day makes due: each Overdue, and each Expired."""
        for verb in ("overdue", "expire"):
            for side in [side for side in self.sides.values() if verb in side.possible(day)]:
                side.act(verb, day)
                self.enter(side.txn, verb, len(side.issued), day)
                self.news[side.txn].append(words_of(side, side.issued[-1]))

    def record(self):
        """Returns the record that the desk must have."""
        return desk_record(self.role, list(self.sides.values()))

    def known(self):
        """Returns each message that was issued: its bytes -> the loan and the message."""
        return {encoded(side.txn, apdu): (side.txn, apdu) for side in self.sides.values() for apdu in side.issued}

    def lines(self, txn):
        """Returns the lines of a loan, as its page has them. A message that came again stands there once, and the last line
        of the diary that names it counts."""
        side = self.sides[txn]
        came = {it["number"]: ["", f"apdu {it['apdu']}", f"group {txn[0]}", f"transaction {txn[1]}",
                               f"number {it['number']}", *field_lines(it), "came yes"] for it in side.came}
        own = f" {txn[0]} {txn[1]} "
        lines = [line.split(own) for line in self.diary.decode().splitlines() if own in line]
        last = {what: at for at, (_, what) in enumerate(lines)}
        history = [" ".join(line) for at, line in enumerate(lines) if last[line[1]] == at]
        return [*loan_lines(side, self.notes.get(txn)), *(line for lines in came.values() for line in lines), "",
                *(f"history {line}" for line in history)]


class Staff:
    """One who works at a library by its pages alone. It counts what that takes."""

    def __init__(self, browser, user):
        """Begins to count for a user at a browser. `count` has clicks, pages, fields and actions, and `slowest` is the
        most milliseconds that a page took."""
        self.browser, self.user, self.count, self.slowest = browser, user, collections.Counter(), 0
        self.meant = []  # the statuses that the console may report

    def go(self, url):
        """Loads a page that has a bookmark, and returns its status."""
        self.browser.go(url)
        return self.see()

    def click(self, element):
        """Presses what leads to another page, and returns the status of that."""
        self.browser.leave(lambda: self.browser.press(element))
        self.count["clicks"] += 1
        return self.see()

    def see(self):
        """Looks at the page that has come, and returns its status."""
        status, milliseconds = self.browser.run(TIME)
        self.count["pages"] += 1
        self.slowest = max(self.slowest, milliseconds)
        self.meant += [str(status)] * (status >= 400)
        return status

    def fill(self, selector, text):
        """Types into a field, unless it has the text already."""
        if self.value(selector) != text:
            field = self.browser.one(selector)
            kind = self.browser.call("GET", f"/element/{field}/property/type")
            {"date": self.browser.type_day, "select-one": self.browser.type}.get(kind, self.browser.fill)(field, text)
            self.count["fields"] += 1

    def value(self, selector):
        """Returns the text of a field."""
        return self.browser.call("GET", f"/element/{self.browser.one(selector)}/property/value")

    def alert(self):
        """Returns the notice of the page."""
        return self.browser.text("[role=alert]")


class Library:
    """A library: its desk, its web server, who works there, and what the model says of its desk."""

    def __init__(self, programs, folder, name, role, browser, user):
        """Makes the desk and the folders of message files, and begins the web server. `browser` is that of `user`, who
        works there."""
        self.name, self.folder, self.ill = name, f"{folder}/{name}", harness.Program(programs[1])
        for part in ("in", "out"):
            os.makedirs(f"{self.folder}/{part}")
        self.desk, self.key, self.books = f"{self.folder}/desk", f"{folder}/key", Books(role)
        self.ill.well(["new", self.desk, ROLES[role]])
        self.servers = Servers(f"{self.folder}/site", programs[0])
        self.port = self.servers.lighttpd()
        self.staff, self.day = Staff(browser, user), None
        self.come = {}  # by its name, each letter that is in IN, or None for one that was cut
        self.drawn = set()  # the pictures that were taken

    def url(self, login=""):
        """Returns the address of the desks."""
        return f"http://{login}127.0.0.1:{self.port}/ill/{self.name}"

    def query(self, txn):
        """Returns the query of the page of a loan."""
        return "?" + urllib.parse.urlencode({"desk": self.desk, "group": txn[0], "transaction": txn[1]})

    def begin_day(self, day):
        """Lets the pages have a day, as the operator's script does."""
        self.day = day
        self.servers.script(self.name, "--origin", f"http://127.0.0.1:{self.port}", "--today", day, self.desk)

    def log_in(self):
        """Gives the browser the login."""
        self.staff.browser.go(self.url(f"{self.staff.user}:{USERS[self.staff.user]}@"))
        self.staff.browser.messages()

    def judge(self, what):
        """Expects that the desk and the diary are as the model has them. `what` says after which step."""
        path = f"{self.desk}.diary"
        diary = harness.read(path) if os.path.exists(path) else b""
        at = f"{self.name}, {self.day}, {what}"
        harness.expect(harness.read(self.desk) == self.books.record(), f"{at}: another record")
        harness.expect(diary == self.books.diary, f"{at}: another diary: {diary[-200:]!r}")

    def act(self, txn, verb, *words, day=None):
        """Performs an action by its form on the page of a loan, which is there. The page has a form for each action that may
        be done now, and for no other."""
        side, staff, at = self.books.sides[txn], self.staff, f"{self.name}, {self.day}, {verb} of {txn}"
        verbs = staff.browser.run(VERBS)
        harness.expect(verbs == side.possible(self.day), f"{at}: the forms are {verbs}, not {side.possible(self.day)}")
        self.draw(f"{self.day}-{verb}", once=verb)
        status = staff.click(self.filled(verb, words, day))
        harness.expect((status, staff.alert()) == (200, ""), f"{at}: {status} {staff.alert()!r}")
        self.done(txn, [verb, *words, *(["none"] if verb == "renew" and not day else [])], day)

    def done(self, txn, words, day=None):
        """Performs in the model what was done by a form, and expects the same desk and diary."""
        self.books.act(txn, " ".join([*words, *([day.replace("-", "")] if day else [])]), self.day, self.staff.user)
        self.staff.count["actions"] += 1
        self.judge(f"{words[0]} of {txn}")

    def filled(self, verb, words, day):
        """Fills in the form of an action, and returns its button."""
        form = f"form:has(input[type=hidden][name=word][value='{verb}'])"
        form += "".join(f":has(:is(input, button)[name=word][value='{word}'], option)" for word in words)
        if day:
            self.staff.fill(f"{form} input[type=date]", day)
        for word in words:
            if self.staff.browser.all(f"{form} select"):
                self.staff.fill(f"{form} select", word)
        named = [f"{form} button[value='{word}']" for word in words]
        return self.staff.browser.one(named[0] if named and self.staff.browser.all(named[0]) else f"{form} button")

    def row(self, txn, side, morning):
        """Returns the row that a loan must have on the page of the desks."""
        notes, news = [self.books.notes[txn]] if txn in self.books.notes else [], self.books.news_of(side)
        date = f"due {iso(side.due)}" if side.due else f"expires {iso(side.expiry())}" if side.expiry() else ""
        return {"title": shown(side.asked()["item"]), "loan": list(txn), "state": morning.state(Loan.of(side)), "date": date,
                "small": [*notes, f"since {iso(self.books.last[txn])}", *(f"news: {it}" for it in news)],
                "verbs": side.possible(self.day)}

    def desks(self):
        """Returns the counts and tables that the desk must have on the page of the desks."""
        morning = Morning(self.day)
        pairs = [(Loan.of(side), self.row(txn, side, morning)) for txn, side in self.books.sides.items()]
        tables = [{"head": f"{words}: {len(rows)}", "wants": wants, "rows": rows} for words, wants, rows in morning.tables(pairs)]
        return [{"counts": morning.counts([loan for loan, _ in pairs]), "tables": tables}]

    def morning(self):
        """Looks at the page of the desks, and expects what the model has. Returns the work and the loan of each row."""
        self.staff.go(self.url())
        found = self.staff.browser.run(DESKS)
        harness.expect(found == self.desks(), f"{self.name}, {self.day}: the page has {first_other(found[0], self.desks()[0])}")
        if int(self.day) % 5 == 0:
            self.draw(f"{self.day}-morning", once=self.day)
        return [(table["head"].rpartition(": ")[0], tuple(row["loan"])) for table in found[0]["tables"] for row in table["rows"]]

    def open(self, txn):
        """Opens the page of a loan by its link on the page of the desks."""
        if self.staff.browser.all("nav a"):
            self.staff.click(self.staff.browser.one("nav a"))
        self.staff.click(self.staff.browser.one(f"th a[href='{self.query(txn)}']"))

    def draw(self, name, once):
        """Takes pictures of the page for the folder SHOTS, if that is set: one for each screen, with `name` in their
        names. Nothing is taken if this library has drawn a page of the kind `once` before."""
        folder = os.environ.get("SHOTS")
        if not folder or once in self.drawn:
            return
        self.drawn.add(once)
        browser = self.staff.browser
        for screen, (width, scheme, medium) in SCREENS.items():
            browser.devtools("Emulation.setDeviceMetricsOverride", width=width, height=800, deviceScaleFactor=1, mobile=False)
            browser.devtools("Emulation.setEmulatedMedia", media=medium,
                             features=[{"name": "prefers-color-scheme", "value": scheme}])
            browser.picture(f"{folder}/{self.name}-{name}-{screen}.png")
        browser.devtools("Emulation.clearDeviceMetricsOverride")
        browser.devtools("Emulation.setEmulatedMedia", media="", features=[])

    def run(self, sender, has_dates):
        """Performs a run of the night: takes the letters of the library `sender`, and sends it one. If `has_dates`, the
        run issues before that what the day makes due. A letter that was cut wants a person, and nothing else does."""
        words = ["--key", self.key, "--today", self.day, *(["--overdue", "--expire"] if has_dates else [])]
        copy, heartbeat, come, go = (f"{self.folder}/{name}" for name in ("copy", "beat", "in", "out"))
        done = self.ill.run(["exchange", *words, "--copy", copy, "--beat", heartbeat, self.desk, come, go])
        is_cut = None in self.come.values()
        harness.expect((done.status, bool(done.errors), b"not-sealed" in done.output) == (int(is_cut), is_cut, is_cut),
                       f"{self.name}, the night to {self.day}: {done.status} {harness.short(done.output + done.errors, 600)}")
        known, letters = sender.books.known(), [letter for _, letter in sorted(self.come.items()) if letter]
        self.books.take([known[message] for letter in letters for message in parts_of(letter[5:-32])], self.day)
        if has_dates:
            self.books.keep_dates(self.day)
        self.come = {}
        self.judge("a night")


def first_other(found, wanted):
    """Returns a text with the first row of a desk that is another than wanted. If there is none, the text has the
    counts and heads of the tables, as found and as wanted."""
    for one, other in zip(found["tables"], wanted["tables"]):
        for row, right in zip(one["rows"], other["rows"]):
            if row != right:
                return f"{row} in place of {right}"
    heads = [[desk["counts"], *(table["head"] for table in desk["tables"])] for desk in (found, wanted)]
    return f"{heads[0]} in place of {heads[1]}"


class Transport:
    """The transport between the libraries. It loses letters, and brings some late, twice or cut."""

    # How likely each fate of a letter is, in percent.
    FATES = {"well": 60, "lost": 14, "late": 8, "twice": 10, "cut": 8}

    def __init__(self, chance):
        """Begins a transport whose letters have their fates by chance. `waiting` has the letters that come a night
        later."""
        self.chance, self.count, self.waiting = chance, collections.Counter(), []

    def carry(self, sender, receiver, is_good):
        """Takes all letters of `sender` from its OUT. Brings each to `receiver`, by its fate. If `is_good`, none goes
        wrong."""
        for name in sorted(os.listdir(f"{sender.folder}/out")):
            if name.startswith("."):
                continue
            letter = harness.read(f"{sender.folder}/out/{name}")
            os.remove(f"{sender.folder}/out/{name}")
            fate = "well" if is_good else self.chance.choices(list(self.FATES), list(self.FATES.values()))[0]
            self.count[fate] += 1
            if fate in ("well", "twice"):
                self.bring(receiver, name, letter)
            if fate in ("late", "twice"):
                self.waiting.append((receiver, name, letter))
            if fate == "cut":
                self.bring(receiver, name, letter[:len(letter) * 2 // 3], is_whole=False)

    def bring_late(self):
        """Brings the letters of the night before that are late, or come once more."""
        for receiver, name, letter in self.waiting:
            self.bring(receiver, f"late-{name}", letter)
        self.waiting = []

    @staticmethod
    def bring(receiver, name, octets, is_whole=True):
        """Brings a file into the IN of `receiver`: a letter, or what is left of one if `is_whole` is false."""
        harness.write(f"{receiver.folder}/in/{name}", octets)
        receiver.come[name] = octets if is_whole else None
