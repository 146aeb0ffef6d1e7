"""Tries the mutants in strength/tests/: those that no contract refuses, and a program of tests must.

An edit stands in the folder of the program that is to refuse it, and begins with the cases that do: `cases:` and a
pattern of lines, or `case:` and the name of a case. It is made in a copy of the repository. There the program, built
without proof, reads these lines of its stdin, or all of it and the name. The lines have the answers too, and what it
writes must differ from them. A line says what became of each.
"""
import re
import shutil
import subprocess
import tempfile

from ill.repository import found, full, read
from ill.strength.edits import BadEdit, Pair, change


def known():
    """Returns the programs of tests that are to refuse edits, each with the names of these."""
    names = {}
    for path in found("strength", "tests", "*", "*.edit"):
        crate, name = path.removesuffix(".edit").split("/")[2:]
        names.setdefault(crate, []).append(name)
    return names


def written_by(folder, cases, arguments):
    """Returns what the program of tests in this folder writes of the cases, with these arguments. Raises `BadEdit` if
    it does not run to its end."""
    words = {"input": cases, "capture_output": True, "encoding": "utf-8", "check": False}
    ran = subprocess.run(["rt", "try", *arguments], cwd=folder, **words)
    if "run=ended" not in ran.stderr:
        raise BadEdit(f"its program does not run: {' '.join(ran.stderr.split())[-300:]}")
    return ran.stdout


def cases_of(key, value, crate):
    """Returns the input and the arguments with which the program of a crate performs the cases that an edit names.
    `key` and `value` are the two parts of its first line."""
    text = read(f"crates/{crate}/stdin")
    if key == "case":
        return text, ["--", value]
    return "".join(line for line in text.splitlines(True) if re.match(value, line)), []


def pairs_of(lines):
    """Returns the pairs of these lines: one of the file, and then two of each pair."""
    file, *texts = (line.split(": ", 1)[1] for line in lines)
    return [Pair(file, old, new) for old, new in zip(texts[::2], texts[1::2])]


def judge(crate, name):
    """Tries an edit. Returns `refused`, `NOT REFUSED`, or why it cannot be tried."""
    first, *others = read(f"strength/tests/{crate}/{name}.edit").splitlines()
    cases, arguments = cases_of(*first.split(": ", 1), crate)
    with tempfile.TemporaryDirectory() as copy:
        shutil.copytree(full("crates"), f"{copy}/crates", ignore=shutil.ignore_patterns("out"))
        for file in ("crates.txt", "HANDLES"):
            shutil.copy(full(file), copy)
        try:
            change(copy, pairs_of(others))
            written = written_by(f"{copy}/crates/{crate}", cases, arguments)
        except BadEdit as bad:
            return str(bad)
    return "NOT REFUSED" if written == cases else "refused"


def perform(asked):
    """Tries the edits of these programs: those of the names of each, or all if it has none. Returns true if each is
    refused."""
    refused = tried = 0
    for crate, names in asked.items():
        for name in names or known()[crate]:
            what = judge(crate, name)
            print(f"{crate}: {name}: {what}", flush=True)
            tried += 1
            refused += what == "refused"
    print(f"{refused} of {tried} edits were refused by tests")
    return refused == tried
