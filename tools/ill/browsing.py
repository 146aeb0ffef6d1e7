"""The parts of tools/browser: what staff do in Chromium, behind a web server.

A `House` is two libraries with a desk each, whose nights `ill exchange` has. A `Clerk` is a browser in which somebody has
logged in. The server, the origin and the scripts are those of a `Site`.
"""
import base64
import concurrent.futures
import contextlib
import fcntl
import http.client
import os
import re
import ssl
import subprocess
import urllib.error
import urllib.parse
import urllib.request

from ill import harness
from ill.driving import Driver, ELEMENT, missing
from ill.pages import contrast
from ill.serving import USERS, Servers, free_port, has_tls, is_there

REPORT = harness.Report()
DAY = "20250301"
HOST = "ill.example"  # a name that no browser trusts without TLS
TITLE = "Öl & <b>Wein</b> – \"ein Buch\""
ARABIC, CHINESE, LONG = "ألف ليلة وليلة", "東京の図書館", "M" * 200
STATUS = "return performance.getEntriesByType('navigation')[0].responseStatus"


class House:
    """Two libraries, and the transport between them."""

    def __init__(self, program, folder):
        """Makes the desks and the folders of message files of both libraries."""
        self.ill, self.folder = harness.Program(program), folder
        for desk, role in (("borrow", "requester"), ("lend", "responder")):
            os.makedirs(f"{folder}/{desk}/in")
            os.makedirs(f"{folder}/{desk}/out")
            self.ill.well(["new", self.desk(desk), role])

    def desk(self, name):
        """Returns the file of a library's desk."""
        return f"{self.folder}/{name}/desk"

    def night(self):
        """Performs a night: the run of the requester, that of the responder, and the requester's again."""
        for here, there in (("borrow", "lend"), ("lend", "borrow"), ("borrow", "lend")):
            own = f"{self.folder}/{here}"
            done = self.ill.run(["exchange", "--today", DAY, f"{own}/desk", f"{own}/in", f"{own}/out"])
            harness.expect(done.status == 0, f"a night: {harness.short(done.output + done.errors)}")
            for name in os.listdir(f"{own}/out"):
                os.rename(f"{own}/out/{name}", f"{self.folder}/{there}/in/{name}")

    def field(self, desk, txn, what):
        """Returns the value of the first line of `ill loan` whose first word is `what`, at a library's desk."""
        lines = self.ill.well(["loan", self.desk(desk), "G1", txn]).decode().splitlines()
        return dict(line.partition(" ")[::2] for line in reversed(lines))[what]

    def open_to_all(self):
        """Lets each user of the machine write to the desks, as the folder of a group lets its users."""
        for folder, _, names in os.walk(self.folder):
            for path in (folder, *(f"{folder}/{name}" for name in names)):
                os.chmod(path, 0o777 if path == folder else 0o666)

    def state(self, desk, txn):
        """Returns the state of a loan."""
        return self.field(desk, txn, "state")

    def bytes(self, desk):
        """Returns the record of a desk."""
        return harness.read(self.desk(desk))


class Site:
    """The pages of two libraries at an origin."""

    def __init__(self, servers, house, origin, folder="ill"):
        """Writes the scripts of both pages, whose origin is `origin`. `folder` is that of scripts at the server."""
        self.house, self.origin, self.folder = house, origin, folder
        for name in ("borrow", "lend"):
            servers.script(name, "--origin", origin, "--today", DAY, house.desk(name))

    def url(self, name, query="", user=None):
        """Returns the address of a page, with a login if there is a user."""
        scheme, _, place = self.origin.partition("://")
        login = f"{user}:{USERS[user]}@" if user else ""
        return f"{scheme}://{login}{place}/{self.folder}/{name}{query}"

    def loan(self, name, txn):
        """Returns the address of the page of a loan."""
        return self.url(name, "?" + urllib.parse.urlencode({"desk": self.house.desk(name), "group": "G1", "transaction": txn}))


class Clerk:
    """A browser in which a user has logged in at a site."""

    def __init__(self, browser, site, user="anna"):
        """Logs in at the page of the requester's library, and forgets the messages of the console."""
        self.browser, self.site = browser, site
        browser.go(site.url("borrow", user=user))
        browser.messages()

    def at(self, name, txn=None):
        """Loads the page of a library, or that of a loan there. Returns the clerk itself."""
        self.browser.go(self.site.loan(name, txn) if txn else self.site.url(name))
        return self

    def form(self, verb, word=None):
        """Returns the selector of the form of an action. With a word, it is the form that has it."""
        form = f"form:has(input[type=hidden][name=word][value='{verb}'])"
        return form + (f":has(:is(input, button)[name=word][value='{word}'], option)" if word else "")

    def fills(self, verb, word=None, day=None):
        """Fills in the form of an action, and returns its button. `word` and `day` are those of the action, if it has
        any."""
        form = self.form(verb, word)
        if day:
            self.browser.fill(self.browser.one(f"{form} input[type=date]"), day)
        if word and self.browser.all(f"{form} select"):
            self.browser.run("arguments[0].value = arguments[1]", {ELEMENT: self.browser.one(f"{form} select")}, word)
        named = f"{form} button[value='{word}']"
        return self.browser.one(named if word and self.browser.all(named) else f"{form} button")

    def does(self, verb, word=None, day=None):
        """Performs an action by its form, with the parameters of `fills`. Returns the status of the page that comes."""
        button = self.fills(verb, word, day)
        self.browser.leave(lambda: self.browser.press(button))
        return self.status()

    def fills_request(self, txn, title=TITLE, day=None):
        """Fills in the form of a new loan at the page of the requester, and returns its button. `day` is the expiry
        date, if it has one."""
        self.at("borrow")
        form = self.form("request")
        self.browser.run("document.querySelector('details').open = true")
        for name, text in (("group", "G1"), ("transaction", txn), ("word", title)):
            self.browser.fill(self.browser.one(f"{form} input[name={name}]:not([type=hidden])"), text)
        if day:
            self.browser.fill(self.browser.one(f"{form} input[type=date]"), day)
        return self.browser.one(f"{form} button")

    def asks(self, txn, title=TITLE, day=None):
        """Begins a loan at the page of the requester. Returns the status of the page that comes."""
        button = self.fills_request(txn, title, day)
        self.browser.leave(lambda: self.browser.press(button))
        return self.status()

    def status(self):
        """Returns the status of the page."""
        return self.browser.run(STATUS)

    def notice(self):
        """Returns the notice of the page."""
        return self.browser.text("[role=alert]")

    def console(self, *meant):
        """Returns a fault if the console has other messages than one of each status in `meant`; else None."""
        shown = self.browser.messages()
        found = [next((status for status in ("401", "403", "409", "500", "503") if f"status of {status}" in it), it) for it in shown]
        return harness.differs("console", found, list(meant))


def differs(what, found, wanted):
    """Returns a fault if two values differ as texts; else None."""
    return harness.differs(what, str(found), str(wanted))


def is_printed(clerk, *words):
    """Returns a fault if the notice of the page lacks one of these texts; else None."""
    notice = clerk.notice()
    return None if all(word in notice for word in words) else f"the notice is {notice!r}"


# ---- A loan

def one_loan(clerk, txn="T1", server="lighttpd"):
    """Performs a loan with conditions and a renewal, and nights between, by forms alone."""
    house, statuses = clerk.site.house, [clerk.asks(txn, day="2025-03-20")]
    shown = clerk.browser.text("h2")
    steps = [("lend", "answer", "conditional", None), ("borrow", "reply", "yes", None), ("lend", "ship", None, "2025-03-15"),
             ("borrow", "receive", None, None), ("borrow", "renew", None, "2025-04-01"),
             ("lend", "renew-answer", "yes", "2025-04-01"), ("borrow", "return", None, None), ("lend", "check-in", None, None)]
    for library, verb, word, day in steps:
        house.night()
        statuses.append(clerk.at(library, txn).does(verb, word, day))
    house.night()
    ends = [house.state(library, txn) for library in ("borrow", "lend")]
    REPORT.case(f"a loan with conditions and a renewal, by forms and nights, behind {server}", differs("statuses", statuses, [200] * 9),
                differs("title", shown, TITLE), differs("states", ends, ["RETURNED", "CHECKED-IN"]), clerk.console())


def cancelled(clerk):
    """Asks for an item, and cancels it."""
    house, statuses = clerk.site.house, [clerk.asks("T2")]
    for library, verb, word in (("borrow", "cancel", None), ("lend", "cancel-reply", "yes")):
        house.night()
        statuses.append(clerk.at(library, "T2").does(verb, word))
    house.night()
    ends = [house.state(library, "T2") for library in ("borrow", "lend")]
    REPORT.case("a cancel, agreed to", differs("statuses", statuses, [200] * 3), differs("states", ends, ["CANCELLED"] * 2),
                clerk.console())


def refused(clerk):
    """Asks for an item on conditions, which are refused."""
    house, statuses = clerk.site.house, [clerk.asks("T3")]
    for library, verb, word in (("lend", "answer", "conditional"), ("borrow", "reply", "no")):
        house.night()
        statuses.append(clerk.at(library, "T3").does(verb, word))
    house.night()
    REPORT.case("conditions, refused", differs("statuses", statuses, [200] * 3), clerk.console(),
                differs("state", house.state("borrow", "T3"), house.state("lend", "T3")))


# ---- What goes wrong

def changed_between(clerk):
    """Sends a form when another clerk was faster. The page is shown as it is now. A reload sends the form again, and
    nothing is done."""
    house = clerk.site.house
    clerk.asks("Web-1")
    house.ill.well(["act", house.desk("borrow"), "G1", "Web-1", "cancel"])
    before = house.bytes("borrow")
    first = clerk.does("cancel")
    missing = is_printed(clerk, "Nothing was done", "the loan has changed")
    forms = len(clerk.browser.all(clerk.form("cancel")))
    REPORT.case("changed in between", differs("status", first, 409), missing, differs("forms to cancel", forms, 0),
                clerk.console("409"))
    clerk.browser.leave(clerk.browser.reload)
    REPORT.case("a reload of a 409", differs("status", clerk.status(), 409), clerk.console("409"),
                None if house.bytes("borrow") == before else "the desk has changed")


def reloaded(clerk):
    """Loads the page anew that comes after an action: it shows the loan, and nothing is done again."""
    clerk.asks("Web-8")
    statuses = [clerk.does("cancel")]
    before = clerk.site.house.bytes("borrow")
    clerk.browser.leave(clerk.browser.reload)
    REPORT.case("a reload after an action", differs("statuses", [*statuses, clerk.status()], [200] * 2), clerk.console(),
                differs("notice", clerk.notice(), ""), None if clerk.site.house.bytes("borrow") == before else "the desk has changed")


def back_button(clerk):
    """Goes back after an action: either the page is loaded anew, or its form does nothing."""
    house = clerk.site.house
    clerk.asks("Web-2")
    clerk.at("borrow", "Web-2").does("cancel")
    before = house.bytes("borrow")
    clerk.browser.back()
    is_old = bool(clerk.browser.all(clerk.form("cancel")))
    status = clerk.does("cancel") if is_old else 200
    REPORT.case("the back button", differs("status", status, 409 if is_old else 200), clerk.console(*["409"] * is_old),
                None if house.bytes("borrow") == before else "the desk has changed")


def double_click(clerk):
    """Presses a button twice: the loan has one message more."""
    house = clerk.site.house
    clerk.asks("Web-3")
    button = clerk.at("borrow", "Web-3").fills("cancel")
    down, up = {"type": "pointerDown", "button": 0}, {"type": "pointerUp", "button": 0}
    moves = [{"type": "pointerMove", "x": 0, "y": 0, "origin": {ELEMENT: button}}, down, up, down, up]
    clerk.browser.leave(lambda: clerk.browser.call("POST", "/actions", {"actions": [
        {"type": "pointer", "id": "mouse", "actions": moves}]}))
    clerk.browser.messages()
    REPORT.case("a double click", differs("state", house.state("borrow", "Web-3"), "CANCEL-PENDING"),
                differs("messages", house.field("borrow", "Web-3", "messages"), "2/2"),
                differs("status of the desks", clerk.at("borrow").status(), 200), clerk.console())


def posts(site, fields, user="anna", **headers):
    """Sends a form without a browser, and returns the status."""
    login = base64.b64encode(f"{user}:{USERS[user]}".encode()).decode()
    request = urllib.request.Request(site.url("borrow"), urllib.parse.urlencode(fields).encode(), {
        "Authorization": f"Basic {login}", "Sec-Fetch-Site": "same-origin", **headers})

    class Stays(urllib.request.HTTPRedirectHandler):
        """Follows no redirection."""
        def redirect_request(self, *_):
            """Returns None, so no redirection is followed."""
            return None

    try:
        return urllib.request.build_opener(Stays).open(request, timeout=120).status
    except urllib.error.HTTPError as error:
        return error.code


def ten_at_once(clerk):
    """Sends the form of a page ten times at once."""
    clerk.asks("Web-4")
    script = "return [...new FormData(document.querySelector(arguments[0]))].map(it => it.join('='))"
    fields = [tuple(it.split("=", 1)) for it in clerk.browser.run(script, clerk.form("cancel"))]
    with concurrent.futures.ThreadPoolExecutor(10) as pool:
        found = sorted(pool.map(lambda _: posts(clerk.site, fields), range(10)))
    REPORT.case("ten equal forms at once, behind the server", differs("statuses", found, [303] + [409] * 9), clerk.console())


def busy(clerk):
    """Holds the lock of the desk: its page is shown, and a form is told to come again."""
    house = clerk.site.house
    clerk.asks("Web-5")
    before = house.bytes("borrow")
    with open(f"{house.desk('borrow')}.lck", "a") as lock:
        fcntl.flock(lock, fcntl.LOCK_EX)
        look = clerk.at("borrow", "Web-5").status()
        status = clerk.does("cancel")
    REPORT.case("a busy desk", differs("status of the page", look, 200), differs("status", status, 503), clerk.console("503"),
                is_printed(clerk, "busy", "Look again"), None if house.bytes("borrow") == before else "the desk has changed")


def damaged(clerk, servers, program):
    """Shows a damaged desk beside another. A form at a desk that was damaged since is told whom to ask."""
    house, desk = clerk.site.house, f"{clerk.site.house.folder}/broken"
    harness.Program(program).well(["new", desk, "requester"])
    harness.Program(program).well(["act", desk, "G1", "Broken-1", "request", "none", "Maps"])
    servers.script("both", "--origin", clerk.site.origin, "--today", DAY, desk, house.desk("borrow"))
    query = urllib.parse.urlencode({"desk": desk, "group": "G1", "transaction": "Broken-1"})
    clerk.browser.go(clerk.site.url("both", f"?{query}"))
    button = clerk.fills("cancel")
    harness.write(desk, b"ILL2?")
    clerk.browser.leave(lambda: clerk.browser.press(button))
    REPORT.case("a form at a damaged desk", differs("status", clerk.status(), 500), clerk.console("500"),
                is_printed(clerk, "damaged", "the operator"), None if harness.read(desk) == b"ILL2?" else "the desk has changed")
    clerk.at("both")
    text = clerk.browser.text()
    REPORT.case("a damaged desk beside another", differs("status", clerk.status(), 200), clerk.console(),
                None if "cannot be read" in text and "T1" in text else "it is not shown")


@contextlib.contextmanager
def small_disk(folder):
    """Gives the path of an empty disk of 64 KiB, for a block. Gives None if no disk can be mounted there."""
    os.makedirs(folder)
    if subprocess.run(["mount", "-t", "tmpfs", "-o", "size=64k", "none", folder], capture_output=True, check=False).returncode:
        yield None
        return
    try:
        yield folder
    finally:
        subprocess.run(["umount", folder], check=False)


def full_disk(clerk, servers, program):
    """Acts at a desk on a full disk, or under a limit of the size of files: nothing is done."""
    with small_disk(f"{clerk.site.house.folder}/disk") as disk:
        folder = disk or f"{clerk.site.house.folder}/limited"
        os.makedirs(folder, exist_ok=True)
        desk = f"{folder}/desk"
        harness.Program(program).well(["new", desk, "requester"])
        harness.Program(program).well(["act", desk, "G1", "Damaged-1", "request", "none", "Maps"])
        words = ["--origin", clerk.site.origin, "--today", DAY, desk]
        if disk:
            with contextlib.suppress(OSError), open(f"{disk}/junk", "wb", buffering=0) as junk:
                while True:
                    junk.write(bytes(4096))
            servers.script("disk", *words)
        else:
            servers.limited_script("disk", *words)
        before = harness.read(desk)
        query = urllib.parse.urlencode({"desk": desk, "group": "G1", "transaction": "Damaged-1"})
        clerk.browser.go(clerk.site.url("disk", f"?{query}"))
        status = clerk.does("cancel")
        REPORT.case("a full disk" if disk else "a limit of the size of files", differs("status", status, 503), clerk.console("503"),
                    is_printed(clerk, "written", "Look again", "the operator"),
                    None if harness.read(desk) == before else "the desk has changed")


def two_clerks(clerk, other):
    """Lets two clerks look at a loan and act: the second is told. The diary has the name of the first."""
    house = clerk.site.house
    clerk.asks("Web-6")
    other.at("borrow", "Web-6")
    found = [clerk.at("borrow", "Web-6").does("cancel"), other.does("cancel")]
    other.at("borrow")
    other.asks("Web-7")
    diary = harness.read(f"{house.desk('borrow')}.diary").decode()
    REPORT.case("two clerks", differs("statuses", found, [200, 409]), clerk.console(), other.console("409"), None if re.search(
        r"anna .*Web-6", diary) and re.search(r"bert .*Web-7", diary) and not re.search(r"bert .*Web-6", diary) else f"the diary: {diary!r}")


def same_number(clerk, other):
    """Lets two clerks begin a loan with one number: the second is told that it was taken."""
    button = other.fills_request("Web-9", "Rivers")
    first = clerk.asks("Web-9", "Maps")
    other.browser.leave(lambda: other.browser.press(button))
    REPORT.case("two requests with one number", differs("statuses", [first, other.status()], [200, 409]), clerk.console(),
                other.console("409"), is_printed(other, "Nothing was done", "its number was taken"),
                differs("title", other.browser.text("h2"), "Maps"))


def foreign_form(clerk, name, place):
    """Sends the form of a page of somebody else: it is refused, and the reply is whole."""
    before = clerk.site.house.bytes("borrow")
    clerk.browser.go(place)
    clerk.browser.messages()
    clerk.browser.leave(lambda: clerk.browser.press(clerk.browser.one("button")))
    REPORT.case(f"a form of {name}", differs("status", clerk.status(), 403), clerk.console("403"),
                None if clerk.site.house.bytes("borrow") == before else "the desk has changed")


def page_of_others(clerk):
    """Returns a page of somebody else, with a form for a loan."""
    desk = clerk.site.house.desk("borrow")
    fields = {"desk": desk, "group": "G1", "transaction": "Web-5", "stamp": "x", "word": "cancel"}
    inputs = "".join(f"<input name={name} value='{value}'>" for name, value in fields.items())
    head = "<title>-</title><link rel=icon href='data:,'>"  # else a browser asks for an icon, which is not there
    return f"{head}<form method=post action='{clerk.site.url('borrow')}'>{inputs}<button>win</button></form>"


def strangers(clerk, servers):
    """Expects that nobody comes in without a login, and that no foreign page sends a form."""
    try:
        found = urllib.request.urlopen(clerk.site.url("borrow"), timeout=60).status
    except urllib.error.HTTPError as error:
        found = error.code
    REPORT.case("no login", differs("status", found, 401))
    page = page_of_others(clerk)
    harness.write(f"{servers.folder}/www/evil.html", page)
    neighbour = servers.lighttpd()
    for name, place in (("a page of nobody", "data:text/html," + urllib.parse.quote(page)),
                        ("a page at another port", f"http://127.0.0.1:{neighbour}/evil.html")):
        foreign_form(clerk, name, place)


# ---- What is seen

# What a page looks like: the colours of each text and of its ground, the levels of headings, and the fields without a
# label. Then come the language, the width of the page, and the width of the window.
LOOK = """
const own = [...document.querySelectorAll('body *')].filter(it => it.offsetParent !== null);
const ground = it => { for (; it; it = it.parentElement) { const c = getComputedStyle(it).backgroundColor;
  if (!c.endsWith(', 0)')) return c; } return 'rgb(255, 255, 255)'; };
const texts = own.filter(it => [...it.childNodes].some(node => node.nodeType === 3 && node.data.trim())
  || it.matches('input, select'));
return { colours: texts.map(it => [it.tagName, getComputedStyle(it).color, ground(it)]),
  heads: [...document.querySelectorAll('h1, h2, h3, h4')].map(it => Number(it.tagName[1])),
  bare: [...document.querySelectorAll('input:not([type=hidden]), select')].filter(it => !it.labels.length).map(it => it.outerHTML),
  lang: document.documentElement.lang, width: document.documentElement.scrollWidth, room: innerWidth };
"""
# The element that has the focus: its tag, its name, the style and width of its outline, and its top in pixels.
FOCUS = """
const it = document.activeElement, style = getComputedStyle(it);
return [it.tagName, it.name || '', style.outlineStyle, style.outlineWidth, it.getBoundingClientRect().top + scrollY];
"""


def brightest(colour):
    """Returns a colour of a computed style as `#rrggbb`, without its opacity."""
    return "#" + "".join(f"{int(number):02x}" for number in re.findall(r"\d+", colour)[:3])


def faults_seen(look):
    """Yields what is wrong with how a page looks."""
    for tag, colour, ground in look["colours"]:
        found = contrast(brightest(colour), brightest(ground))
        if found < 4.5:
            yield f"{tag} has a contrast of {found:.2f}"
    heads = look["heads"]
    if heads[:1] != [1] or any(after > before + 1 for before, after in zip(heads, heads[1:])):
        yield f"the headings are {heads}"
    if look["bare"]:
        yield f"no label: {look['bare']}"
    if look["lang"] != "en" or look["width"] > look["room"]:
        yield f"lang {look['lang']!r}, {look['width']} pixels in {look['room']}"


def as_seen(clerk):
    """Looks at each page, wide and narrow, light and dark: headings, labels, contrasts, and nothing beyond the edge."""
    for title, txn in ((ARABIC, "S1"), (CHINESE, "S2"), (LONG, "S3"), ("<script>alert(1)</script>", "S4")):
        clerk.asks(txn, title)
    site = clerk.site
    pages = {"the desks": site.url("borrow"), "a search": site.url("borrow", "?find=M"), "a loan": site.loan("borrow", "S1"),
             "a long title": site.loan("borrow", "S3"), "a slip": site.loan("borrow", "S3") + "&page=slip",
             "figures": site.url("borrow", "?from=2025-03-01&to=2025-03-31"), "no loan": site.loan("borrow", "no")}
    for name, url in pages.items():
        faults = []
        for width in (320, 1280):
            for scheme in ("light", "dark"):
                clerk.browser.devtools("Emulation.setDeviceMetricsOverride", width=width, height=900, deviceScaleFactor=1, mobile=False)
                clerk.browser.devtools("Emulation.setEmulatedMedia", features=[{"name": "prefers-color-scheme", "value": scheme}])
                clerk.browser.go(url)
                faults += [f"{width} {scheme}: {fault}" for fault in faults_seen(clerk.browser.run(LOOK))]
        clerk.browser.messages()
        REPORT.case(f"{name}, as it is seen", *sorted(set(faults))[:4])
    clerk.browser.devtools("Emulation.clearDeviceMetricsOverride")
    clerk.browser.devtools("Emulation.setEmulatedMedia", features=[])


def by_keyboard(clerk):
    """Acts by the keyboard alone. The focus goes down the page, and is seen."""
    clerk.asks("S5")
    clerk.at("borrow", "S5")
    seen, faults = [], []
    for _ in range(30):
        clerk.browser.call("POST", "/actions", {"actions": [{"type": "key", "id": "keys", "actions": [
            {"type": "keyDown", "value": "\ue004"}, {"type": "keyUp", "value": "\ue004"}]}]})
        tag, name, style, width, top = clerk.browser.run(FOCUS)
        if tag == "BODY" or seen and top < seen[-1]:
            break
        seen.append(top)
        faults += [f"the focus of {tag} {name} is not seen"] * (style == "none" or width == "0px")
        if tag == "BUTTON" and clerk.browser.run("return document.activeElement.closest(arguments[0]) !== null", clerk.form("cancel")):
            break
    enter = [{"type": "keyDown", "value": "\ue007"}, {"type": "keyUp", "value": "\ue007"}]
    clerk.browser.leave(lambda: clerk.browser.call("POST", "/actions", {"actions": [
        {"type": "key", "id": "keys", "actions": enter}]}))
    REPORT.case("an action by the keyboard alone", *faults[:3], clerk.console(),
                differs("state", clerk.site.house.state("borrow", "S5"), "CANCEL-PENDING"))


# ---- Other servers

def short_loan(name, clerk, txn):
    """Asks for an item, and cancels the request. The loan must be CANCEL-PENDING, and the diary have the name
    `anna`."""
    found = [clerk.asks(txn), clerk.does("cancel")]
    diary = harness.read(f"{clerk.site.house.desk('borrow')}.diary").decode()
    REPORT.case(name, differs("statuses", found, [200, 200]), clerk.console(),
                differs("state", clerk.site.house.state("borrow", txn), "CANCEL-PENDING"),
                None if re.search(rf"anna .*{txn}", diary) else f"the diary: {harness.short(diary)}")


def sends(site, body, length=None, user="anna"):
    """Sends bytes as a form over TLS without a browser, and returns the status. Without `length` there is no header of
    it, and without `user` no login."""
    place = urllib.parse.urlsplit(site.url("borrow"))
    connection = http.client.HTTPSConnection("127.0.0.1", place.port, timeout=120, context=ssl._create_unverified_context())
    login = base64.b64encode(f"{user}:{USERS[user]}".encode()).decode() if user else None
    headers = {"Host": place.netloc, "Content-Type": "application/x-www-form-urlencoded", "Sec-Fetch-Site": "same-origin",
               "Content-Length": length, "Authorization": f"Basic {login}" if login else None}
    with contextlib.closing(connection):
        connection.putrequest("POST", place.path, skip_host=True)
        for name, value in headers.items():
            if value is not None:
                connection.putheader(name, value)
        connection.endheaders(body)
        return connection.getresponse().status


def limits(clerk, server):
    """Sends forms without a login, without a length, and of the greatest length and one byte more. No desk changes."""
    before, site = clerk.site.house.bytes("borrow"), clerk.site
    found = [sends(site, b"a=b", 3, user=None), sends(site, b""), *(sends(site, b"a" * size, size) for size in (4096, 4097))]
    REPORT.case(f"no login, no length and too long a form, to {server}", differs("statuses", found, [401, 411, 400, 413]),
                None if clerk.site.house.bytes("borrow") == before else "the desk has changed")


def at_tls(clerk, server, txn):
    """Performs a short loan at a server with TLS. Then sends a foreign form, and the forms of `limits`."""
    short_loan(f"{server} at a name, with TLS", clerk, txn)
    foreign_form(clerk, f"a page of nobody, to {server}", "data:text/html," + urllib.parse.quote(page_of_others(clerk)))
    limits(clerk, server)


def other_origin(clerk, servers):
    """Lets the operator's script name another origin than the browser shows: no form is taken."""
    house = clerk.site.house
    servers.script("borrow", "--origin", "http://other.example", "--today", DAY, house.desk("borrow"))
    before = house.bytes("borrow")
    status = clerk.asks("O9")
    REPORT.case("another origin than the operator's", differs("status", status, 403), clerk.console("403"),
                None if house.bytes("borrow") == before else "the desk has changed")


def attempt(part, *words):
    """Performs a part. What stops it is reported as a failure, and the next part goes on."""
    try:
        part(*words)
    except (harness.Wrong, OSError) as fault:
        REPORT.fail(f"{part.__name__.replace('_', ' ')}: {fault}")


class Stage:
    """The driver, the servers, and the two libraries, which all parts of tools/browser share."""

    def __init__(self, programs, folder):
        """Makes the folder of pages, the desks of both libraries, and the driver."""
        self.programs = programs
        os.makedirs(f"{folder}/desks")
        self.servers, self.house = Servers(f"{folder}/site", programs[0]), House(programs[1], f"{folder}/desks")
        self.driver = Driver(folder, free_port())

    def clerk(self, origin, user="anna", folder="ill"):
        """Begins a browser at a site with this origin, where a user logs in. Returns the clerk. `folder` is that of the
        scripts at the server."""
        browser = self.driver.browser(f"--host-resolver-rules=MAP {HOST} 127.0.0.1")
        return Clerk(browser, Site(self.servers, self.house, origin, folder), user)

    def at_lighttpd(self):
        """Performs the loans and what goes wrong behind lighttpd, on the loopback."""
        port = self.servers.lighttpd()
        clerk = self.clerk(f"http://127.0.0.1:{port}")
        for part in (one_loan, cancelled, refused, changed_between, reloaded, back_button, double_click, ten_at_once, busy):
            attempt(part, clerk)
        attempt(damaged, clerk, self.servers, self.programs[1])
        attempt(full_disk, clerk, self.servers, self.programs[1])
        bert = self.clerk(f"http://127.0.0.1:{port}", "bert")
        attempt(two_clerks, clerk, bert)
        attempt(same_number, clerk, bert)
        attempt(strangers, clerk, self.servers)
        attempt(as_seen, clerk)
        attempt(by_keyboard, clerk)

    def at_a_name(self):
        """Performs a loan behind lighttpd at a name. Without TLS the origin decides, and with it the site."""
        port = self.servers.lighttpd()
        clerk = self.clerk(f"http://{HOST}:{port}")
        short_loan("lighttpd at a name, without TLS", clerk, "O1")
        other_origin(clerk, self.servers)
        if not has_tls():
            REPORT.skip("lighttpd with TLS", "lighttpd-mod-openssl not installed")
            return
        self.servers.certificate(HOST)
        port = self.servers.lighttpd(has_tls=True)
        at_tls(self.clerk(f"https://{HOST}:{port}"), "lighttpd", "O2")

    def at_a_proxy(self):
        """Performs a loan behind nginx, which sends another Host to lighttpd."""
        behind = self.servers.lighttpd()
        port = self.servers.proxy(behind)
        short_loan("behind a proxy, without TLS", self.clerk(f"http://{HOST}:{port}"), "P1")
        self.servers.certificate(HOST)
        port = self.servers.proxy(behind, has_tls=True)
        short_loan("behind a proxy, with TLS", self.clerk(f"https://{HOST}:{port}"), "P2")

    def at_busybox(self):
        """Performs a loan behind busybox httpd."""
        port = self.servers.busybox()
        short_loan("busybox httpd", self.clerk(f"http://127.0.0.1:{port}", folder="cgi-bin"), "B1")

    def at_nginx(self):
        """Performs a whole loan behind nginx at a name, with TLS. Its scripts are run by fcgiwrap."""
        self.servers.certificate(HOST)
        clerk = self.clerk(f"https://{HOST}:{self.servers.nginx()}")
        one_loan(clerk, "N1", "nginx")
        at_tls(clerk, "nginx", "N2")

    def at_apache(self):
        """Performs a loan behind Apache at a name, with TLS."""
        self.servers.certificate(HOST)
        self.house.open_to_all()
        port = self.servers.apache(HOST)
        at_tls(self.clerk(f"https://{HOST}:{port}"), "Apache", "A1")

    def perform(self):
        """Performs all parts, but those for which a program is not installed."""
        parts = {self.at_lighttpd: ["lighttpd", "openssl"], self.at_a_name: ["lighttpd", "openssl"],
                 self.at_a_proxy: ["nginx", "lighttpd", "openssl"], self.at_busybox: ["busybox"],
                 self.at_nginx: ["nginx", "fcgiwrap", "openssl"], self.at_apache: ["apache2", "openssl"]}
        for part, wanted in parts.items():
            lacks = [name for name in wanted if not is_there(name)]
            if lacks:
                REPORT.skip(part.__name__.replace("_", " "), f"{', '.join(lacks)} not installed")
                continue
            attempt(part)
            self.driver.end_browsers()

    def end(self):
        """Ends browsers and servers."""
        self.driver.end()
        self.servers.ended()


def perform(programs):
    """Performs all parts on two programs. Returns the exit status."""
    if missing():
        REPORT.skip("the browser", f"{' and '.join(missing())} not installed")
        return 0
    with harness.own_folder() as folder:
        os.chmod(folder, 0o755)
        stage = Stage(programs, folder)
        try:
            stage.driver.wait()
            stage.perform()
        finally:
            stage.end()
    return REPORT.status()
