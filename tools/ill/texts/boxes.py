"""Reads the pictures of bytes in docs/FORMATS.md, and compares their words with what the bytes say.

A picture has rows of boxes, each with its bytes and below them their meaning:

    0        2
    +--------+-----------+
    | 66 10  | 80 01 01  |
    | Cancel | version 1 |
    +--------+-----------+
             |- 3 octets |

The number over a box is the offset of its first byte. In a box `..` stands for the bytes between, of the picture before
that begins and ends so. A line below the boxes spans those that a length counts: the last byte before the span. The
bytes are read as a message, a record of version 1 or 2, or a sealed letter, by their first byte or their first four.
"""
import hashlib
import hmac
import re

from ill import repository
from ill.der import RESULTS, TYPES
from ill.records import DIGEST, OCTETS
from ill.repository import Unread, read

PAGE = "docs/FORMATS.md"
KEY = bytes(range(32))  # that of the sealed letter
QUALIFIERS = {0x81: "group", 0x82: "transaction"}
PLAIN = {0x82: "number", 0x83: "answers"}

COMPARED = repository.Comparison()


# ---- What bytes say

def message(data):
    """Returns the parts of a message, each with its meaning."""
    parts, at, end_of_id = [(2, next(name for name, tag in TYPES.items() if tag == data[0]))], 2, 0
    while at < len(data):
        tag, size = data[at], data[at + 1]
        contents, end = data[at + 2:at + 2 + size], at + 2 + size
        if tag == 0xA1:
            parts.append((2, "id"))
            at, end_of_id = at + 2, end
            continue
        meant = f"{QUALIFIERS[tag]} {contents.decode()}" if at < end_of_id else field(tag, contents)
        parts.append((2 + size, meant))
        at = end
    return parts


def field(tag, contents):
    """Returns the meaning of a field of a message."""
    if tag == 0x80:
        return f"version {contents[0]}"
    if tag in PLAIN:
        return f"{PLAIN[tag]} {int.from_bytes(contents, 'big')}"
    if tag == 0x84:
        return {0: "reply no", 0xFF: "reply yes"}.get(contents[0]) or f"result {RESULTS[contents[0] - 1]}"
    return {0x85: "date ", 0x86: "item "}[tag] + contents.decode()


def record(data):
    """Returns the parts of a record of one side, a requester, each with its meaning."""
    if data[4]:
        raise Unread(f"{PAGE}: no picture of a responder can be read")
    states = {octet: name for name, octet in OCTETS.items() if name not in ("IN-PROCESS", "CHECKED-IN")}
    parts, at = [(4, data[:4].decode()), (1, "requester"), (1, states[data[5]])], 6
    for name in ("group", "transaction"):
        end = at + 1 + data[at]
        parts.append((end - at, f"{name} {data[at + 1:end].decode()}"))
        at = end
    due = data[at + 2:at + 10].decode()
    parts += [(1, f"held {data[at] or 'none'}"), (1, "checked in" if data[at + 1] else "not checked in"),
              (8, "no due date" if due == "0" * 8 else f"due {due}"), (1, f"issued {data[at + 10]}")]
    at += 11
    while at < len(data):
        parts.append((data[at + 1] + 2, message(data[at:])[0][1]))
        at += parts[-1][0]
    return parts


def record2(data):
    """Returns the parts of a record of one desk, each with its meaning."""
    parts, at = [(4, data[:4].decode()), (1, ("requester", "responder")[data[4]]),
                 (2, f"sides {int.from_bytes(data[5:7], 'big')}")], 7
    while at < len(data) - DIGEST:
        size = int.from_bytes(data[at:at + 2], "big")
        parts += [(2, f"octets {size}"), (size, "record of the side")]
        at += 2 + size
    fits = hashlib.sha256(data[:-DIGEST]).digest() == data[-DIGEST:]
    return parts + [(DIGEST, "digest" if fits else "no digest")]


def letter(data):
    """Returns the parts of a sealed letter, each with its meaning."""
    fits = hmac.digest(KEY, data[:-32], "sha256") == data[-32:]
    return [(4, "mark " + data[:4].decode()), (1, ("requester", "responder")[data[4]]), (len(data) - 37, "text"),
            (32, "seal" if fits else "no seal")]


def meaning(data):
    """Returns the parts of bytes of any kind, each with its meaning."""
    try:
        return {b"ILL1": record, b"ILL2": record2, b"ILLS": letter}.get(data[:4], message)(data)
    except (LookupError, StopIteration, UnicodeDecodeError) as error:
        raise Unread(f"{PAGE}: these bytes cannot be read: {data.hex(' ')}") from error


# ---- The pictures

def pictures():
    """Yields the lines of each picture, each with its number."""
    lines = enumerate(read(PAGE).splitlines(), 1)
    block = None
    for number, line in lines:
        if line.startswith("```"):
            if block and any(text.startswith("+-") for _, text in block):
                yield block
            block = None if block is not None else []
        elif block is not None:
            block.append((number, line))


def cells(line, edges, place):
    """Returns the texts that a line has between the edges of boxes. Raises `Unread` unless it has a bar at each edge,
    and no other. `place` is where the line stands."""
    if any(line[edge:edge + 1] != "|" for edge in edges) or line.count("|") != len(edges):
        raise Unread(f"{place}: its bars are not below the corners")
    return [line[begin + 1:end].strip() for begin, end in zip(edges, edges[1:])]


def resolved(text, known, place):
    """Returns the bytes of a box. The known pictures say what `..` stands for."""
    try:
        first, *last = (bytes.fromhex(part) for part in text.split(".."))
    except ValueError as error:
        raise Unread(f"{place}: no bytes: {text}") from error
    if not last:
        return first
    found = [data for data in known if data.startswith(first) and data.endswith(last[0])]
    if len(found) != 1:
        raise Unread(f"{place}: {len(found)} pictures before begin and end so: {text}")
    return found[0]


def spans(lines, edges, boxes):
    """Compares each line that spans boxes with them: with their sizes, and with the last byte before them. Returns the
    lines after these. `lines` begin below the boxes, and `boxes` has the bytes of each."""
    while lines and re.fullmatch(r" *\|-+ \d+ octets -+\|", lines[0][1]):
        number, line = lines.pop(0)
        begin, end = line.index("|"), line.rindex("|")
        if begin not in edges[1:] or end not in edges:
            raise Unread(f"{PAGE}:{number}: it does not span whole boxes")
        first, said = edges.index(begin), int(re.search(r"\d+", line)[0])
        size = sum(map(len, boxes[first:edges.index(end)]))
        COMPARED.expect("spans", size == said == boxes[first - 1][-1], f"{PAGE}:{number}: it spans {size} octets")
    return lines


def rows(lines, known):
    """Yields each box of a picture: the number of its line, the offset over it, its bytes and its words. `known` has
    the bytes of the pictures before."""
    while lines:
        (number, over), (_, border), (_, data), (_, words), (_, closed), *lines = lines
        place = f"{PAGE}:{number}"
        edges = [at for at, letter in enumerate(border) if letter == "+"]
        if border != closed or re.sub(r"[+-]", "", border):
            raise Unread(f"{place}: no border is above and below the boxes")
        offsets = {found.start(): int(found[0]) for found in re.finditer(r"\d+", over)}
        boxes = [resolved(text, known, place) for text in cells(data, edges, place)]
        if sorted(offsets) != edges[:-1]:
            raise Unread(f"{place}: the offsets are not above the corners")
        for edge, box, said in zip(edges, boxes, cells(words, edges, place)):
            yield number, offsets[edge], box, said
        lines = spans(lines, edges, boxes)


def compare():
    """Returns the faults of the pictures, and how much was compared."""
    known = []
    for lines in pictures():
        found = list(rows(lines, known))
        data = b"".join(box for _, _, box, _ in found)
        at, wanted = 0, meaning(data)
        for (number, over, box, said), (size, word) in zip(found, wanted):
            COMPARED.expect("boxes", (over, len(box), said) == (at, size, word),
                            f"{PAGE}:{number}: at {at} there are {size} octets: {word}")
            at += len(box)
        COMPARED.expect("pictures", len(found) == len(wanted), f"{PAGE}:{lines[0][0]}: it has {len(found)} boxes")
        known.append(data)
    return COMPARED.faults, f"{PAGE} has {COMPARED.summary()} of bytes"
