"""What the scripts that read the repository share: its files, its crates, and pages that are made from its sources."""
import collections
import difflib
import glob
import os
import re

from ill import harness

TOP = harness.TOP  # tools/texts may set another folder, which is laid out alike


# Crates of tests that call rooms by the rooms' own names, and not by those that a library passes on.
TESTS_OF_ROOMS = {"ill_desk_tests", "ill_disk_tests", "ill_message_disk_kit", "ill_post_tests", "ill_room_tests"}


class Unread(Exception):
    """A text cannot be read. The text of this exception says where it stands, and why."""


# ---- Files

def full(*path):
    """Returns the full path of a file of the repository."""
    return os.path.join(TOP, *path)


def read(path):
    """Returns the text of a file of the repository, which must be there."""
    try:
        with open(full(path), encoding="utf-8") as file:
            return file.read()
    except FileNotFoundError as error:
        raise Unread(f"{path}: it is not there") from error


def write(path, text):
    """Makes a file of the repository, or one of a full path, and the folders that it lies in."""
    os.makedirs(os.path.dirname(full(path)), exist_ok=True)
    with open(full(path), "w", encoding="utf-8") as file:
        file.write(text)


def found(*pattern):
    """Returns the files of the repository that fit a pattern, sorted."""
    return sorted(os.path.relpath(path, TOP) for path in glob.glob(full(*pattern), recursive=True))


# ---- Crates

def libraries():
    """Returns the crates, lowest first, each with the libraries that it stands on, of the kit too."""
    lines = re.findall(r"(?m)^(\w+)(?: staticlib)?:([^#\n]*)", read("crates.txt"))
    return {name: below.split() for name, below in lines}


def stand_on():
    """Returns the crates, each with those of the repository that it stands on, in the order of crates.txt."""
    crates = libraries()
    return {name: [other for other in below if other in crates] for name, below in crates.items()}


def is_for_tests(crate):
    """Returns true if a crate is one of tests, or a kit for them: its name ends in `_tests` or `_kit`."""
    return crate.endswith(("_tests", "_kit"))


def rooms():
    """Returns the libraries on which no crate of tests stands but those of rooms, and no kit."""
    below = stand_on()
    tested = {other for name, others in below.items() if is_for_tests(name) and name not in TESTS_OF_ROOMS
              for other in others}
    return {name for name in below if name not in tested and not is_for_tests(name)}


# ---- Comparisons

class Comparison:
    """Counts what was compared, by kinds, and keeps the faults."""

    def __init__(self):
        """Begins without faults, and with each count at 0."""
        self.faults, self.counts = [], collections.Counter()

    def expect(self, kind, is_so, fault):
        """Counts one more comparison of a kind. Keeps the fault if `is_so` is false."""
        self.counts[kind] += 1
        if not is_so:
            self.faults.append(fault)

    def summary(self):
        """Returns a text that says how many of each kind were compared."""
        return ", ".join(f"{count} {kind}" for kind, count in sorted(self.counts.items()))


def differences(path, wanted):
    """Yields a text for each place in which a file differs from `wanted`: its line, what it has, and what has to stand
    there."""
    there = read(path) if os.path.exists(full(path)) else ""
    old, new = there.splitlines(True), wanted.splitlines(True)
    for kind, begin, end, first, last in difflib.SequenceMatcher(None, old, new, False).get_opcodes():
        if kind != "equal":
            has = f"it has \"{old[begin].strip()}\"" if begin < end else "a line is missing"
            said = " / ".join(line.strip() for line in new[first:last])
            yield f"{path}:{begin + 1}: {has}; the sources say {said or 'nothing'}"


def all_differences(pages):
    """Returns a text for each place in which a file differs from what it has to be. `pages` maps the files to their
    texts."""
    return [line for path, text in pages.items() for line in differences(path, text)]
