"""A browser that is driven: Chromium without a window, by chromedriver (WebDriver over HTTP).

A `Browser` has a profile of its own, so two of them are two clerks. It finds elements by selectors of CSS, and presses what
it finds. It keeps the messages of its console.
"""
import base64
import contextlib
import json
import os
import shutil
import subprocess
import time
import urllib.error
import urllib.request

from ill import harness
from ill.pages import chromium

ELEMENT = "element-6066-11e4-a52e-4f735466cecf"  # the name of an element's reference (WebDriver, section 12)
PATIENCE = 60  # seconds
SWITCHES = ["--headless=new", "--no-sandbox", "--disable-gpu", "--disable-dev-shm-usage", "--no-first-run", "--hide-scrollbars",
            "--lang=en-GB", "--force-color-profile=srgb"]


def missing():
    """Returns the programs that are not installed, and without which no browser is driven."""
    return [name for name, found in (("chromium", chromium()), ("chromedriver", shutil.which("chromedriver"))) if not found]


class Driver:
    """A running chromedriver, which begins browsers."""

    def __init__(self, folder, port):
        """Starts chromedriver, which listens at the port. The profiles of its browsers lie in the folder."""
        self.folder, self.port, self.begun, self.browsers = folder, port, 0, []
        self.log = open(os.path.join(folder, "driver.log"), "wb")
        self.process = subprocess.Popen(["chromedriver", f"--port={port}"], stdout=self.log, stderr=self.log)

    def call(self, method, path, body=None):
        """Calls the driver, and returns the value of its answer."""
        data = None if body is None else json.dumps(body).encode()
        request = urllib.request.Request(f"http://127.0.0.1:{self.port}{path}", data, {"Content-Type": "application/json"},
                                         method=method)
        with urllib.request.urlopen(request, timeout=120) as reply:
            return json.load(reply)["value"]

    def wait(self):
        """Waits until the driver answers."""
        harness.expect(patiently(self._is_ready), "chromedriver does not answer")

    def _is_ready(self):
        """Returns true if the driver answers that it is ready."""
        with contextlib.suppress(OSError):
            return self.call("GET", "/status")["ready"]
        return False

    def browser(self, *switches):
        """Begins a browser with a profile of its own, and returns it. `switches` are further switches of Chromium."""
        self.begun += 1
        words = [*SWITCHES, f"--user-data-dir={self.folder}/profile{self.begun}", *switches]
        wanted = {"browserName": "chrome", "acceptInsecureCerts": True,
                  "goog:chromeOptions": {"args": words, "binary": chromium()}, "goog:loggingPrefs": {"browser": "ALL"}}
        value = self.call("POST", "/session", {"capabilities": {"alwaysMatch": wanted}})
        self.browsers.append(Browser(self, value["sessionId"]))
        return self.browsers[-1]

    def end_browsers(self):
        """Ends all browsers that were begun. They would outlive the driver."""
        while self.browsers:
            self.browsers.pop().end()

    def end(self):
        """Ends the driver and its browsers."""
        self.end_browsers()
        self.process.terminate()
        self.process.wait()
        self.log.close()


def patiently(is_so, seconds=PATIENCE):
    """Waits until `is_so` returns true. Returns false if it does not within these seconds."""
    end = time.monotonic() + seconds
    while not is_so():
        if time.monotonic() > end:
            return False
        time.sleep(0.05)
    return True


class Browser:
    """A browser with one window."""

    def __init__(self, driver, session):
        """Keeps the driver and the path of the session."""
        self.driver, self.path = driver, f"/session/{session}"

    def call(self, method, path, body=None):
        """Calls the driver for this browser, whose path stands before `path`. Returns the value of the answer."""
        return self.driver.call(method, self.path + path, body)

    def go(self, url):
        """Loads a page."""
        self.call("POST", "/url", {"url": url})

    def back(self):
        """Presses the back button."""
        self.call("POST", "/back", {})

    def reload(self):
        """Loads the page anew, and sends its form again if there is one."""
        self.call("POST", "/refresh", {})

    def url(self):
        """Returns the address of the page."""
        return self.call("GET", "/url")

    def run(self, script, *words):
        """Runs a script in the page, and returns its value. The policy of the page does not forbid it."""
        return self.call("POST", "/execute/sync", {"script": script, "args": list(words)})

    def all(self, selector):
        """Returns the elements that a selector finds."""
        found = self.call("POST", "/elements", {"using": "css selector", "value": selector})
        return [it[ELEMENT] for it in found]

    def one(self, selector):
        """Returns the first element that a selector finds. Raises `Wrong` if it finds none."""
        found = self.all(selector)
        harness.expect(found, f"the page has no {selector}: {harness.short(self.text())}")
        return found[0]

    def text(self, selector="body"):
        """Returns the text of the first element that a selector finds, or an empty text if it finds none."""
        found = self.all(selector)
        return self.call("GET", f"/element/{found[0]}/text") if found else ""

    def press(self, element):
        """Presses an element."""
        self.call("POST", f"/element/{element}/click", {})

    def type(self, element, text):
        """Types into an element."""
        self.call("POST", f"/element/{element}/value", {"text": text})

    def fill(self, element, text):
        """Replaces the text of an element, or the day of a date field, as `2025-03-15`."""
        if self.call("GET", f"/element/{element}/attribute/type") == "date":
            self.run("arguments[0].value = arguments[1]", {ELEMENT: element}, text)
        else:
            self.call("POST", f"/element/{element}/clear", {})
            self.type(element, text)

    def type_day(self, element, day):
        """Types a day, as `2025-03-15`, into a date field, in the order of the browser's language."""
        parts = dict(zip(("year", "month", "day"), day.split("-")))
        order = self.run("return new Intl.DateTimeFormat(navigator.language).formatToParts(0).map(it => it.type)")
        self.type(element, "".join(parts[name] for name in order if name in parts))
        found = self.call("GET", f"/element/{element}/property/value")
        harness.expect(found == day, f"{day} was typed, and the field has {found}")

    def leave(self, act):
        """Calls `act`, which loads another page, and waits until that page is complete. Raises `Wrong` if none
        comes."""
        old = self.one("html")
        act()
        harness.expect(patiently(lambda: self._is_gone(old)), "no other page came")
        harness.expect(patiently(lambda: self.run("return document.readyState") == "complete"), "a page is not complete")

    def _is_gone(self, old):
        """Returns true if an element is no more on the page."""
        try:
            self.call("GET", f"/element/{old}/name")
        except urllib.error.HTTPError:
            return True
        return False

    def messages(self):
        """Returns the messages of the console since the last call."""
        return [it["message"] for it in self.call("POST", "/se/log", {"type": "browser"})]

    def devtools(self, command, **words):
        """Sends a command of the DevTools protocol with these parameters. Returns its result."""
        return self.call("POST", "/goog/cdp/execute", {"cmd": command, "params": words})

    def picture(self, path):
        """Writes a picture of the whole page."""
        size = self.devtools("Page.getLayoutMetrics")["cssContentSize"]
        clip = {"x": 0, "y": 0, "width": size["width"], "height": size["height"], "scale": 1}
        shot = self.devtools("Page.captureScreenshot", captureBeyondViewport=True, clip=clip)
        harness.write(path, base64.b64decode(shot["data"]))

    def end(self):
        """Ends the browser."""
        with contextlib.suppress(OSError):
            self.call("DELETE", "")
