"""Breaks each line of a proof or of definitions that has more than 130 columns.

It reads all files of the crates' proofs/ and specs/. A line is broken at a space where the fewest brackets are open,
before an operator or after a comma, an `=` or an `in`. A `use` of many names becomes several of its module. Nothing but
white space and these heads changes. `rt fmt` sets the indents after it.
"""
import re
import subprocess

from ill import repository

WIDTH = 130
# Brackets; and a line of `use` with its names.
OPEN, CLOSE = "([{⟨", ")]}⟩"
USE = re.compile(r"(\s*(?:pub )?use [^{]*\{)(.*)\}")
# A line is broken best behind one of BEHIND, then before one of BEFORE, whose first group is the best. No place is
# worse than WORST.
BEHIND = (" in", " =", ",", ".", " then", " else")
BEFORE = (("→", "×"), ("≡", "∙"), ("+", "∷", "++", "&&", "||", "∸"))
WORST = len(BEFORE) + 2


def places(line):
    """Yields each space of a line that is in no text, with the count of brackets open there."""
    depth, is_text = 0, False
    for at, letter in enumerate(line):
        if letter == '"':
            is_text = not is_text
        elif is_text:
            continue
        elif letter == " ":
            yield at, depth
        else:
            depth += (letter in OPEN) - (letter in CLOSE)


def rank(line, at):
    """Returns how good it is to break a line at this place: 0 is best."""
    before, word = line[:at], line[at + 1:].split(" ", 1)[0]
    if before[-1] in OPEN or word in ("in", "=", "then", "else", "|", "↦", "λ") and before.endswith(("(", "λ")):
        return WORST
    if before.endswith(BEHIND):
        return 0
    for number, words in enumerate(BEFORE):
        if word in words:
            return number + 1
    return WORST if word in ("in", "=", "↦", "]", "})") or before.endswith(("→", "∙", "≡", "λ")) else WORST - 1


def broken(line, is_rest=False):
    """Returns the lines that a line becomes. If `is_rest`, it is the rest of a line that was broken."""
    if len(line) <= WIDTH or line.lstrip().startswith("--"):
        return [line]
    begin = len(line) - len(line.lstrip())
    found = [(depth + (rank(line, at) == WORST) * 9, rank(line, at), -at) for at, depth in places(line)
             if begin + 30 < at <= WIDTH]
    if not found:
        return [line]
    at = -min(found)[2]
    return [line[:at]] + broken(" " * (begin if is_rest else begin + 4) + line[at + 1:], True)


def several(head, names):
    """Returns as many lines of `use` as these names of a module want."""
    lines = [head]
    for name in names:
        if len(lines[-1]) + len(name) + 3 > WIDTH and lines[-1] != head:
            lines.append(head)
        lines[-1] += name if lines[-1] == head else ", " + name
    return [line + "}" for line in lines]


def lines_of(line):
    """Returns the lines that a line of a file becomes: itself, if it is not too long."""
    used = USE.fullmatch(line)
    if used and len(line) > WIDTH:
        return several(used[1], used[2].split(", "))
    return broken(line)


def files():
    """Returns the files of proofs and definitions of the repository."""
    listed = subprocess.run(["git", "ls-files", "crates/*/proofs/*", "crates/*/specs/*"], cwd=repository.TOP, text=True,
                            check=True, stdout=subprocess.PIPE).stdout
    return [name for name in listed.split("\n") if name.endswith(".antt")]


def compare():
    """Returns each line that is too long, and how many files were read."""
    faults = [f"{path}:{number}: over {WIDTH} columns" for path in files()
              for number, line in enumerate(repository.read(path).split("\n"), 1) if len(line) > WIDTH]
    return faults, f"no line of {len(files())} files of proofs and definitions is over {WIDTH} columns"


def write():
    """Breaks the long lines of all files. Returns what was changed."""
    changed = []
    for path in files():
        text = repository.read(path)
        new = "\n".join(line for old in text.split("\n") for line in lines_of(old))
        if new != text:
            repository.write(path, new)
            changed.append(path)
    return f"lines were broken in: {', '.join(changed) or 'no file'}"
