"""Looks at the slips of `ill slip`, as a parser of HTML, a browser and a scanner see them.

A slip must have only the elements that are named below, each closed; no reference to elsewhere; the item, the role, both
names and the due date as text; and the bars that `zint`, another program, draws for both names. CODES has these bars,
as `zint -b CODE128B --dump -d 'GROUP TRANSACTION'` (2.11.1) wrote them. A name that a shell might take for more has none.

Where `zint` is installed, it draws bars of further names. Where Chromium and `zbarimg` are, the slip is rendered, and
printed if `pdftoppm` is there too: the scanner must read both names. SHOTS, if set, is a folder for pictures.
It prints a line for each case; exit 1 if one fails.
"""
import html.parser
import os
import random
import re
import shutil
import string
import subprocess
import tempfile

from ill import harness
from ill.pages import TITLES, browse, chromium
from ill.screen import shown

REPORT = harness.Report()
# The bars of names: the group and the transaction -> the dump of `zint`.
CODES = {
    "G1 T1": "D21A22736CCDC539BB163AC",
    "North-2026 17": "D2171A3D49E9E930A6E6729D99CB3A6CC9CDDBBD163AC",
    "zz +": "D21BDB7B6CCC493231D6",
    "0123456789 ./:_+-": "D213B273672CB993B72674EDDD33966CC99D73393530C49373CA63AC",
    "ABCDEFGHIJKLMNOPQRSTUVWXYZ abcdefghijklmnopqrstuvwxyz":
        "D214622C446B111A231688C5188ADC58E8DD762E3476EEDA3B176E8DC5BBBAC746E2DDA3B16CC96121A16426B21612684C28690CB09650F75"
        "8523D53C97927AF24F49E5E93CA792DBDBDA3D63AC",
}
PLAIN = string.ascii_letters + string.digits + "-./:_+"
ELEMENTS = set("html head meta title style body h1 p dl dt dd svg path section".split())
EMPTY = {"meta", "path"}
TITLE = "War and Peace"
ANY = object()  # bars that are not looked at
WHOLE = 25  # of names of so many characters each module is a whole pixel wide on a screen


class Slip(html.parser.HTMLParser):
    """A slip as a parser sees it: faults, the texts of its elements, its fields, and the bars with the width of their
    view."""

    def __init__(self, text):
        """Reads the text of a slip."""
        super().__init__(convert_charrefs=True)
        self.faults, self.open, self.texts, self.bars, self.view = [], [], {}, None, None
        self.feed(text)
        self.close()
        self.faults += [f"<{name}> is not closed" for name in self.open]
        self.fields = dict(zip(self.texts.get("dt", []), self.texts.get("dd", [])))

    def handle_starttag(self, name, attributes):
        """Keeps an element as open, with its faults, and the bars or their view."""
        self.faults += [f"<{name}> is in the slip"] if name not in ELEMENTS else []
        self.faults += [f"{name} has {key}" for key, _ in attributes if key in ("href", "src", "id") or key.startswith("on")]
        self.open += [name] if name not in EMPTY else []
        given = dict(attributes)
        self.bars = given["d"] if name == "path" else self.bars
        self.view = (given["width"], given["viewbox"]) if name == "svg" else self.view

    def handle_startendtag(self, name, attributes):
        """Keeps an element as `handle_starttag` does."""
        self.handle_starttag(name, attributes)

    def handle_endtag(self, name):
        """Closes an element."""
        if not self.open or self.open.pop() != name:
            self.faults.append(f"</{name}> closes another element")

    def handle_data(self, data):
        """Adds a text to those of its element."""
        if self.open and data.strip():
            self.texts.setdefault(self.open[-1], []).append(data)


def modules(bars):
    """Returns the modules that a path draws, 1 for a black one, or None if it is no such path."""
    if not re.fullmatch(r"M10 25(h[1-4]m[1-4] 0)+h2", bars):
        return None
    return "".join(("1" if way == "h" else "0") * int(width) for way, width in re.findall(r"([hm])(\d)", bars))


def bits(dump):
    """Returns the modules in a dump of `zint`, without the white ones that fill its last digit."""
    return "".join(f"{int(digit, 16):04b}" for digit in dump).rstrip("0")


def drawn_by_zint(words):
    """Returns the modules that `zint` draws for a text."""
    done = subprocess.run(["zint", "-b", "CODE128B", "--dump", "-d", words], capture_output=True, check=True, timeout=60)
    return bits("".join(done.stdout.decode().split()))


class Case:
    """The desks `here` of a requester and `there` of a responder, with the program that writes their slips."""

    def __init__(self, program):
        """Makes both desks."""
        self.program = program
        for desk, role in (("here", "requester"), ("there", "responder")):
            self.well("new", desk, role)

    def run(self, *words, given=b""):
        """Runs the program, and returns what it leaves."""
        return harness.run([self.program, *words], given)

    def well(self, *words, given=b""):
        """Runs the program, which has to end with status 0, and returns its output."""
        done = self.run(*words, given=given)
        if done.status:
            raise SystemExit(f"ill {' '.join(words)}: {done.output.decode()}{done.errors.decode()}")
        return done.output

    def ask(self, names, title):
        """Begins a loan at the requester's desk, with this title."""
        self.well("act", "here", *names, "request", "none", *title.split(" "))

    def ship(self, names, due):
        """Lets the responder take the request of a loan and ship its item, and the requester take the Shipped."""
        self.well("take", "there", given=self.well("send", "here", *names, "1"))
        self.well("act", "there", *names, "--today", "20250301", "ship", due)
        self.well("take", "here", given=self.well("send", "there", *names, "1"))

    def look(self, desk, names, title, due, code):
        """Compares a slip with the title, the names, the due date and the bars that it must have. Returns its text."""
        text = self.well("slip", desk, *names).decode()
        slip = Slip(text)
        fields = {"Group": names[0], "Transaction": names[1], **({"Due": due} if due else {})}
        faults = list(slip.faults)
        for label, found, wanted in (("item", slip.texts.get("h1"), [shown(title)]), ("fields", slip.fields, fields),
                                     ("role", slip.texts.get("p"), ["Asked by us" if desk == "here" else "Lent by us"])):
            faults += [f"the {label} is {found!r}, not {wanted!r}"] if found != wanted else []
        faults += check_head(text) + check_bars(slip, code)
        REPORT.case(f"the slip of {' '.join(names)} at {desk}", *faults[:4])
        return text


def check_head(text):
    """Returns the faults of a slip's head, and the references that the slip has."""
    policy = "<meta http-equiv=\"Content-Security-Policy\" content=\"default-src 'none'; style-src 'unsafe-inline'\">"
    head = text.partition("</head>")[0]
    return [f"no {word}" for word in (policy, "<meta charset=\"utf-8\">", "@page { size: 105mm 148mm") if word not in head] \
        + [f"{word} in the slip" for word in ("<script", "<img", "<link") if word in text] \
        + [f"{word} in its style" for word in ("url(", "@import") if word in head]


def check_bars(slip, code):
    """Returns the faults of the bars of a slip, which must be `code`. None is for no bars, and ANY for any."""
    if code is ANY:
        return []
    if slip.bars is None or code is None:
        return [] if slip.bars is code else [f"the bars are {slip.bars!r}"]
    width = str(len(code) + 20)
    faults = [] if modules(slip.bars) == code else [f"the bars are {slip.bars!r}"]
    return faults + ([] if slip.view == (width, f"0 0 {width} 50") else [f"the view is {slip.view!r}"])


def known(case):
    """Looks at slips of names whose bars are known, at both desks, before and after the item is shipped."""
    for words, dump in CODES.items():
        names = words.split(" ")
        case.ask(names, TITLE)
        case.look("here", names, TITLE, None, bits(dump))
        case.ship(names, "20250315")
        for desk in ("here", "there"):
            case.look(desk, names, TITLE, "2025-03-15", bits(dump))


def odd(case):
    """Looks at slips of titles that are no good HTML, and of names that a shell takes for more."""
    for place, title in enumerate(TITLES):
        names = ["Odd", f"T{place}"]
        case.ask(names, title)
        case.look("here", names, title, None, ANY)
    for group in ("<b>&\"'", "a b", "$(id)", "a;b", "`id`", "~", "a*", "a\\b", "a=b", "#", "a|b", "a@b", "a,b", "%"):
        for names in ([group, "T1"], ["G1", group]):
            case.ask(names, TITLE)
            case.look("here", names, TITLE, None, None)


def missing(case):
    """Looks at what is printed if there is no such loan, or no such desk."""
    for desk, fault in (("here", "ill: no-such-transaction"), ("nowhere", "ill: no-record")):
        REPORT.run(f"no slip at {desk}", case.run("slip", desk, "G1", "T9"), 1, b"", fault)


def full(case):
    """Looks at what is printed if the output is full. CODES has the loan."""
    done = harness.run([case.program, "slip", "here", "G1", "T1"], output=harness.FULL)
    REPORT.run("a slip that cannot be written", done, 3, b"", "ill: write")


def on_shelf(case):
    """Compares the slip of a loan on a shelf with that of its desk."""
    case.well("shelf", "new", "shelf", "requester")
    case.well("shelf", "act", "shelf", "G1", "T1", "--new-group", "request", "none", *TITLE.split(" "))
    REPORT.same("a slip on a shelf", case.well("shelf", "slip", "shelf", "G1", "T1"),
                case.well("slip", "shelf/G1.requester", "G1", "T1"))


def lengths(case):
    """Compares the bars of names of many lengths with those that `zint` draws. It takes 60 characters at most."""
    if shutil.which("zint") is None:
        REPORT.skip("bars of further names", "no zint is installed")
        return
    chance = random.Random(1)
    for size in (1, 2, 3, 5, 8, 13, 21, 29):
        names = [chance.choice(string.ascii_letters) + "".join(chance.choices(PLAIN, k=size - 1)) for _ in range(2)]
        case.ask(names, TITLE)
        case.look("here", names, TITLE, None, drawn_by_zint(" ".join(names)))


def scanned(picture):
    """Returns what the scanner reads in a picture."""
    done = subprocess.run(["zbarimg", "-q", "--raw", "-Sdisable", "-Scode128.enable", picture], capture_output=True, timeout=120)
    return done.stdout.decode().rstrip("\n")


def rendered(case):
    """Lets a scanner read the slips of known names in print, and of short ones on a screen."""
    browser = chromium()
    lacking = [name for name, path in (("Chromium", browser), ("zbarimg", shutil.which("zbarimg")),
                                       ("pdftoppm", shutil.which("pdftoppm"))) if path is None]
    if lacking:
        REPORT.skip("slips for a scanner", f"no {' and no '.join(lacking)} is installed")
        return
    for place, words in enumerate(CODES):
        with tempfile.TemporaryDirectory() as folder:
            harness.write(f"{folder}/slip.html", case.well("slip", "there", *words.split(" ")))
            show(browser, folder, words, os.path.join(os.environ["SHOTS"], f"slip-{place}") if "SHOTS" in os.environ else None)


def show(browser, folder, words, kept):
    """Renders and prints the slip in a folder, and lets the scanner read both. Keeps the pictures under `kept`, if that
    is given."""
    page = f"file://{folder}/slip.html"
    browse(browser, folder, "--force-device-scale-factor=3", "--window-size=500,700", f"--screenshot={folder}/screen.png", page)
    browse(browser, folder, "--no-pdf-header-footer", f"--print-to-pdf={folder}/slip.pdf", page)
    subprocess.run(["pdftoppm", "-r", "600", "-png", f"{folder}/slip.pdf", f"{folder}/sheet"], check=True, timeout=120)
    sheets = sorted(name for name in os.listdir(folder) if name.startswith("sheet"))
    REPORT.same(f"the sheets of {words}", len(sheets), 1)
    for name in (["screen.png"] if len(words) <= WHOLE else []) + sheets:
        REPORT.same(f"a scanner reads {words} in {name}", scanned(f"{folder}/{name}"), words)
        if kept:
            shutil.copy(f"{folder}/{name}", f"{kept}-{name}")


def main(program):
    """Looks at slips, in the folder that it is in. Returns the exit status."""
    case = Case(program)
    for part in (known, odd, missing, full, on_shelf, lengths, rendered):
        part(case)
    return REPORT.status()
