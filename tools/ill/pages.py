"""Looks at the pages of `ill report`, as a parser of HTML and a browser see them.

It begins two desks with a loan in each state, some with titles that are no good HTML, and has
the program write pages of them. A page must have only the elements and attributes that are named below, each closed; no
reference to elsewhere; each title, group, transaction and name of a file as text; of each desk the counts, and the tables
that docs/PROTOCOL.md (section 7) has for its loans on that day, with the rows that `loan` says, in their order. Of a desk
that cannot be read it has the fault. Each colour of a text must have a contrast of 4.5 at least to the page (WCAG 2.2,
1.4.3), and a page that is printed has no colours.

Where Chromium is installed, or CHROMIUM names it, it loads the page at widths of 320, 800 and 1,200 pixels: nothing may
stand beyond the right edge, and its own parser must find the same titles. SHOTS, if set, is a folder for pictures.
It prints a line for each case; exit 1 if one fails.
"""
import html
import html.parser
import os
import re
import shutil
import subprocess
import tempfile

from ill import harness
from ill.morning import Loan, Morning
from ill.screen import shown

PROGRAM = None  # as main has it
REPORT = harness.Report()
DAY = "20250320"

# What leads to each state of the two sides: who acts, the words, and whether the message is delivered.
ASK, SHIP = ("r", "request {expiry} {item}", True), ("s", "ship 20250315", True)
COME, OVERDUE = ("r", "receive", True), ("s", "overdue", True)
STORIES = {
    "PENDING IN-PROCESS": [ASK],
    "PENDING NOTHING": [("r", "request {expiry} {item}", False)],
    "CONDITIONAL CONDITIONAL": [ASK, ("s", "answer conditional", True)],
    "CANCEL-PENDING CANCEL-PENDING": [ASK, ("r", "cancel", True)],
    "CANCELLED CANCELLED": [ASK, ("r", "cancel", True), ("s", "cancel-reply yes", True)],
    "NOT-SUPPLIED NOT-SUPPLIED": [ASK, ("s", "answer unfilled", True)],
    "SHIPPED SHIPPED": [ASK, SHIP],
    "RECEIVED SHIPPED": [ASK, ("s", "ship 20250415", True), COME],
    "RENEW/PENDING RENEW/PENDING": [ASK, SHIP, COME, ("r", "renew 20250501", True)],
    "OVERDUE OVERDUE": [ASK, SHIP, COME, OVERDUE],
    "RENEW/OVERDUE RENEW/OVERDUE": [ASK, SHIP, COME, OVERDUE, ("r", "renew none", True)],
    "NOT-RECEIVED/OVERDUE OVERDUE": [ASK, SHIP, OVERDUE],
    "RECALL RECALL": [ASK, SHIP, COME, ("s", "recall", True)],
    "RETURNED RETURNED": [ASK, SHIP, COME, ("r", "return", True)],
    "RETURNED CHECKED-IN": [ASK, SHIP, COME, ("r", "return", True), ("s", "check-in", True)],
    "RECEIVED SHIPPED (renewed)": [ASK, SHIP, COME, ("r", "renew 20250501", True), ("s", "renew-answer yes 20250501", True)],
}
TITLES = [
    "<script>alert(1)</script>", "\"><img src=x onerror=alert(1)>", "' onload='alert(1)", "A & B &amp; C &lt; D &#60;",
    "</th></table></style><style>*{display:none}</style>", "<!-- <![CDATA[ ]]> --> <?php ?>", "War and Peace",
    "\U0001F4DA\U0001F469\u200D\U0001F3EB emoji", "\u202Egnp.exe \u200F \u2066x\u2069 \u061C", "\u0085\u009B next line",
    "\u05E9\u05DC\u05D5\u05DD \u05E2\u05D5\u05DC\u05DD", "\u6771\u4EAC \u56F3\u66F8\u9928", "M" * 200, "e\u0301" * 66,
    "\u4E00" * 66, "javascript:alert(1) url(x) @import",
]
EXPIRIES = ["none", "20250301", "20250318", "20250401"]
GROUP = "<b>&\"'"
NOTE = "</small></th> & \u202Efor <i>Noether</i>"

# What a page may have: elements, those of them that are not closed, and attributes. HEAD is the head of a table.
ELEMENTS = set("html head meta title style body h1 h2 h3 p strong section table thead tbody tr th td bdi small time code".split())
EMPTY = {"meta"}
ATTRIBUTES = set("lang charset name content http-equiv dir scope class".split())
HEAD = ["Title", "Loan", "State", "Date", "Actions"]


def case(name, faults):
    """Reports a case. Some of its faults are shown."""
    REPORT.case(name, *faults[:4])


def ill(*words, given=b""):
    """Runs the program, and returns the completed process."""
    return subprocess.run([PROGRAM, *words], input=given, capture_output=True)


def lines(*words):
    """Runs the program, which has to end with status 0, and returns the lines of its output."""
    done = ill(*words)
    if done.returncode:
        raise SystemExit(f"ill {' '.join(words)}: {done.stdout.decode()}{done.stderr.decode()}")
    return done.stdout.decode().splitlines()


class Page(html.parser.HTMLParser):
    """What a page has: faults, the style, and for each file its counts, its fault and its tables.

    A table has the words of its heading, whether it wants a hand, its count, and its rows. A row has its title, the
    small texts below the title, the group, the transaction, the state, the date and the verbs."""

    def __init__(self, text):
        """Reads the text of a page. `file` is the desk whose part is read, and `cells` are those of the row that is
        read."""
        super().__init__(convert_charrefs=True)
        self.faults, self.open, self.style, self.file, self.cells, self.row = [], [], "", None, None, None
        self.counts, self.unread, self.tables = {}, {}, {}
        self.feed(text)
        self.close()
        self.faults += [f"<{name}> is not closed" for name in self.open]

    def handle_starttag(self, name, attributes):
        """Keeps an element as open, with its faults, and begins a desk, a table, a row or a cell."""
        self.faults += [f"<{name}>"] * (name not in ELEMENTS)
        self.faults += [f"attribute {key}" for key, _ in attributes if key not in ATTRIBUTES]
        if name not in EMPTY:
            self.open.append(name)
        if name == "h2":
            self.file = ""
        elif name == "h3":
            self.tables.setdefault(self.file, []).append(["", attributes == [("class", "task")], 0, []])
        elif name == "tr":
            self.cells = []
        elif name in ("th", "td", "bdi", "small", "code") and self.cells is not None:
            self.cells.append([name, ""])

    def handle_startendtag(self, name, attributes):
        """Keeps a fault: no element closes itself."""
        self.faults.append(f"<{name}/>")

    def handle_endtag(self, name):
        """Closes an element, and with it a heading or a row."""
        if not self.open or self.open.pop() != name:
            self.faults.append(f"</{name}> closes another element")
        if name == "h3":
            table = self.tables[self.file][-1]
            table[0], _, count = table[0].rpartition(": ")
            table[2] = int(count) if count.isdecimal() else None
        elif name == "tr":
            self.end_row(self.cells)
            self.cells = None

    def end_row(self, cells):
        """Keeps the row that these cells make up, if it is not the head of its table."""
        shape = [name for name, _ in cells if name not in ("small", "code")]
        if shape == ["th"] * len(HEAD):
            self.faults += [] if [text for _, text in cells] == HEAD else [f"the head {cells}"]
            return
        self.faults += [] if shape == ["th", "td", "bdi", "bdi", "td", "td", "td"] else [f"the row {cells}"]
        texts = [text for name, text in cells if name not in ("small", "code")]
        notes = [text for name, text in cells if name == "small"]
        verbs = [text for name, text in cells if name == "code"]
        self.tables[self.file][-1][3].append([texts[0], notes, *texts[2:6], verbs])

    def handle_data(self, data):
        """Adds a text to the part of the page in which it stands."""
        within = self.open[-1] if self.open else None
        if within == "style":
            self.style += data
        elif within == "h2":
            self.file += data
        elif within == "p":
            self.counts[self.file] = self.counts.get(self.file, "") + data
        elif within == "strong":
            self.unread[self.file] = self.unread.get(self.file, "") + data
        elif within == "h3":
            self.tables[self.file][-1][0] += data
        elif within in ("th", "td", "bdi", "small", "code", "time") and self.cells:
            self.cells[-1][1] += data if data.strip() or within != "td" else ""
        elif data.strip() and within not in ("title", "h1", "time"):
            self.faults.append(f"{data!r} in <{within}>")

    def handle_comment(self, data):
        """Keeps a fault: no comment may be there."""
        self.faults.append("a comment")

    def handle_pi(self, data):
        """Keeps a fault: no processing instruction may be there."""
        self.faults.append("a processing instruction")

    def handle_decl(self, data):
        """Keeps a fault, unless it is the declaration of HTML."""
        if data != "DOCTYPE html":
            self.faults.append(f"<!{data}>")


def begin():
    """Makes two desks with a loan in each state, of which each third has a note at the first desk. Returns the titles
    by the transaction, and the days of the last actions by the desk and the transaction."""
    lines("new", "here", "requester")
    lines("new", "there", "responder")
    titles, acted = {}, {}
    for place, story in enumerate(STORIES.values()):
        txn, item, expiry = f"T{place:02}", TITLES[place], EXPIRIES[place % len(EXPIRIES)]
        titles[txn] = item
        issued = {"r": 0, "s": 0}
        for who, words, is_delivered in story:
            desk, other = ("here", "there") if who == "r" else ("there", "here")
            filled = [word.format(item=item, expiry=expiry) if "{" in word else word for word in words.split(" ")]
            today = "20250301" if words.startswith("ship") else DAY
            lines("act", desk, GROUP, txn, "--today", today, *" ".join(filled).split(" "))
            acted[desk, txn] = today
            issued[who] += 1
            if is_delivered:
                message = ill("send", desk, GROUP, txn, str(issued[who])).stdout
                ill("take", other, given=message)
    for txn in list(titles)[::3]:
        lines("note", "here", GROUP, txn, "--", NOTE)
    return titles, acted


def day_or_none(word):
    """Returns a day of a line, or None for a dash."""
    return None if word == "-" else word


def iso(day):
    """Returns a day as ISO 8601 has it."""
    return f"{day[:4]}-{day[4:6]}-{day[6:]}"


def loans_of(desk, begun, morning):
    """Yields the loans of a desk in the order in which they were begun. Each has with it the row that a page must
    have."""
    titles, acted = begun
    txns = [line.partition(" ")[2] for line in lines("status", desk) if line.startswith("transaction ")]
    for txn in txns:
        printed = dict(line.partition(" ")[::2] for line in reversed(lines("loan", desk, GROUP, txn)))
        due, expiry = day_or_none(printed["due"]), day_or_none(printed["expiry"])
        loan = Loan(printed["role"], printed["state"], printed["marks"].split(), due, expiry)
        date = f"due {iso(due)}" if due else f"expires {iso(expiry)}" if expiry else ""
        verbs = [verb for verb in printed["now"].split() if verb != "-" and morning.allows(loan, verb)]
        notes = [shown(NOTE)] if "note" in printed else []
        since = [f"since {iso(acted[desk, txn])}"] if (desk, txn) in acted else []
        yield loan, [shown(titles[txn]), notes + since, GROUP, txn, morning.state(loan), date, verbs]


def check_desk(page, desk, begun, today):
    """Compares what a page says of a desk with what `loan` prints, by the tables of docs/PROTOCOL.md. `begun` is what
    `begin` has returned, and `today` the day of the page."""
    morning = Morning(today)
    loans = list(loans_of(desk, begun, morning))
    wanted, found = [[words, wants, len(rows), rows] for words, wants, rows in morning.tables(loans)], page.tables.get(desk, [])
    heads = [[table[:3] for table in tables] for tables in (found, wanted)]
    faults = [] if heads[0] == heads[1] else [f"the tables {heads[0]} and not {heads[1]}"]
    faults += [f"{row} and not {right}" for one, other in zip(found, wanted)
               for row, right in zip(one[3], other[3]) if row != right]
    faults += [f"{len(one[3])} rows of {one[0]}" for one, other in zip(found, wanted) if len(one[3]) != len(other[3])]
    counts = morning.counts([loan for loan, _ in loans])
    faults += [] if page.counts.get(desk) == counts else [f"{page.counts.get(desk)} and not {counts}"]
    case(f"{desk} on {today}: {len(loans)} loans in {len(wanted)} tables, with titles, states, days and verbs", faults)


def check_unread():
    """Looks at a page of four desks, of which the second is damaged and the third is not there. It must have the faults
    of these two, and the other desks."""
    with open("here", "rb") as whole, open("<i>", "wb") as damaged:
        damaged.write(whole.read()[:-1])
    done = ill("report", "here", "<i>", "none", "there", "--today", DAY)
    page, printed = Page(done.stdout.decode()), done.stderr.decode().splitlines()
    fault = printed[-1].removeprefix("ill: ") if printed else ""
    wanted = {"<i>": f"This desk cannot be read: {fault}", "none": "This desk cannot be read: no-record"}
    faults = page.faults + [f"{page.unread}"] * (page.unread != wanted) + [f"{printed}"] * (
        printed != [f"ill: <i>: {fault}", "ill: none: no-record", f"ill: {fault}"])
    faults += [f"status {done.returncode}"] * (done.returncode != 2)
    faults += [f"no part of {desk}" for desk in ("here", "there") if desk not in page.tables]
    case("desks that cannot be read have their faults on the page, beside the others", faults)


def brightness(colour):
    """Returns the relative luminance of a colour, as WCAG 2.2 defines it."""
    digits = colour.lstrip("#")
    digits = "".join(digit * 2 for digit in digits) if len(digits) == 3 else digits
    parts = [int(digits[place:place + 2], 16) / 255 for place in (0, 2, 4)]
    parts = [part / 12.92 if part <= 0.04045 else ((part + 0.055) / 1.055) ** 2.4 for part in parts]
    return 0.2126 * parts[0] + 0.7152 * parts[1] + 0.0722 * parts[2]


def contrast(one, other):
    """Returns the contrast of two colours, from 1 to 21, as WCAG 2.2 defines it."""
    light, dark = sorted((brightness(one), brightness(other)), reverse=True)
    return (light + 0.05) / (dark + 0.05)


def schemes(style):
    """Returns the schemes of colours of a page: medium -> name -> colour. Each begins with the colours of any
    medium."""
    found = {}
    for part in style.split("@media "):
        own = {name: colour for block in re.findall(r":root {([^}]*)}", part)
               for name, colour in re.findall(r"--([a-z]+): (#[0-9a-f]+)", block)}
        if own:
            found["any" if not found else part.partition(" {")[0]] = {**found.get("any", {}), **own}
    return found


def check_style(style):
    """Looks at the style of a page: its schemes, the contrast of each text, and that all its colours have names."""
    found = schemes(style)
    faults = [] if list(found) == ["any", "(prefers-color-scheme: dark)", "print"] else [f"schemes of colours: {list(found)}"]
    least = 21
    for scheme in found.values():
        for over in ("text", "quiet", "mark", "fault"):
            least = min(least, contrast(scheme[over], scheme["page"]))
            if contrast(scheme[over], scheme["page"]) < 4.5:
                faults.append(f"{over} {scheme[over]} on {scheme['page']}")
    faults += [f"{name} {colour} in print" for name, colour in found.get("print", {}).items()
               if len(set(colour[1:])) > 1 or name == "page" and colour != "#fff"]
    used = re.findall(r"(?:color|background|fill|stroke|border[a-z-]*): ([^;}]*)", style)
    faults += [f"a colour with no name: {use}" for use in used if "#" in use or "rgb" in use]
    faults += [f"{word} in the style" for word in ("url(", "@import", "http", "expression") if word in style]
    case(f"colours: a contrast of {least:.2f} at least", faults)


def check_text(text):
    """Looks for what a page must not have, as scripts and references, and for what its head must have."""
    faults = [f"{word} in the page" for word in ("<script", "<img", "<link", "<iframe", " href", " src=") if word in text]
    head = text[:1024]
    policy = "<meta http-equiv=\"Content-Security-Policy\" content=\"default-src 'none'; style-src 'unsafe-inline'\">"
    faults += [f"no {word}" for word in (policy, "<meta charset=\"utf-8\">", "name=\"viewport\"") if word not in head]
    case("the page has no scripts, and no references", faults)


def chromium():
    """Returns the path of Chromium, or None if it is not installed."""
    names = [os.environ.get("CHROMIUM"), "chromium", "chromium-browser", "google-chrome"]
    return next((found for found in map(shutil.which, filter(None, names)) if found), None)


def browse(browser, folder, *words):
    """Runs Chromium without a window, with a profile in this folder. Returns what it writes."""
    own = f"--user-data-dir={folder}/profile"
    return subprocess.run([browser, "--headless", "--no-sandbox", "--disable-gpu", "--hide-scrollbars", own, *words],
                          capture_output=True, timeout=120).stdout.decode()


def check_browser(text, titles):
    """Lets Chromium read a page, if it is installed: it must find these titles, and show nothing beyond the edge."""
    browser = chromium()
    if browser is None:
        print("ok: no Chromium is installed, so the page was not rendered")
        return
    folder = tempfile.mkdtemp()
    try:
        with open(f"{folder}/page.html", "w", encoding="utf-8") as file:
            file.write(text)
        seen = Page(browse(browser, folder, "--dump-dom", f"file://{folder}/page.html"))
        found = {row[0] for tables in seen.tables.values() for table in tables for row in table[3]}
        case("Chromium finds the same titles", [repr(shown(title)) for title in titles if shown(title) not in found])
        for width in (320, 800, 1200):
            check_width(browser, folder, text, width)
    finally:
        shutil.rmtree(folder)


def check_width(browser, folder, text, width):
    """Renders the page in a frame of this width. A script beside it says how wide it is, and how many scripts, pictures
    and links it has."""
    frame = f"<!DOCTYPE html><title>-</title><body style='margin:0'><iframe style='border:0;width:{width}px;height:6000px' " \
            f"srcdoc=\"{html.escape(text)}\"></iframe><script>onload = () => {{ const page = " \
            "document.querySelector('iframe').contentDocument.documentElement; " \
            "document.title = page.scrollWidth + ' ' + page.querySelectorAll('script, img, link').length }</script>"
    with open(f"{folder}/frame.html", "w", encoding="utf-8") as file:
        file.write(frame)
    said = browse(browser, folder, "--window-size=1300,6000", "--dump-dom", f"file://{folder}/frame.html")
    found = re.search(r"<title>(\d+) (\d+)</title>", said)
    faults = ["it was not rendered"] if found is None else []
    if found and (int(found[1]) > width or found[2] != "0"):
        faults.append(f"it is {found[1]} pixels wide, with {found[2]} foreign elements")
    case(f"at {width} pixels nothing stands beyond the edge", faults)
    if os.environ.get("SHOTS"):
        browse(browser, folder, f"--window-size={width},6000", f"--screenshot={os.environ['SHOTS']}/{width}.png",
               f"file://{folder}/frame.html")


def main(program):
    """Looks at pages, in the folder that it is in. Returns the exit status."""
    global PROGRAM
    PROGRAM = program
    begun = begin()
    # The title of the second loan, which has the words of a reference, stands in no desk but the first.
    for words, today in ((["here", "there"], DAY), (["here", "there"], "20250307"), (["here", "there"], "20250308"),
                         (["here", "there"], "20250502"), (["there"], DAY)):
        text = ill("report", *words, "--today", today).stdout.decode()
        page = Page(text)
        case(f"the page of {' and '.join(words)} is well formed", page.faults)
        for desk in words:
            check_desk(page, desk, begun, today)
    check_text(text)
    check_style(page.style)
    check_unread()
    name = "a<b>&\"'\u202Ec"
    os.rename("here", name)
    page = Page(ill("report", name, "--today", DAY).stdout.decode())
    case("the name of a file is shown as text", [] if page.file == shown(name) and not page.faults else [repr(page.file)])
    lines("new", "empty", "requester")
    page = Page(ill("report", "empty", "--today", DAY).stdout.decode())
    printed = "To do: 0. Open: 0. Loans: 0. Room for 1000 more."
    case("a desk without loans has a page",
         page.faults or [str(page.counts)] * (page.counts != {"empty": printed} or bool(page.tables)))
    for words, status, said in ((["report", "empty"], 2, ""),
                                (["report", "empty", "--today", "20250230"], 2, "ill: arguments\n")):
        done = ill(*words)
        is_right = done.returncode == status and not done.stdout and (not said or done.stderr.decode() == said)
        case(f"ill {' '.join(words)}", [] if is_right else [f"{done.returncode} {done.stderr.decode()}"])
    text = ill("report", name, "there", "--today", DAY).stdout.decode()
    check_browser(text, begun[0].values())
    return REPORT.status()
