"""What an edit changes: pairs of an old text and a new one.

Each old text stands once in what the pairs before it made of its file. White space in it stands for any white space,
also for the end of a line. An old text that begins with a space begins a line.
"""
import collections
import re

from ill.repository import read, write

Pair = collections.namedtuple("Pair", "file old new")


class BadEdit(Exception):
    """An edit cannot be made or tried, or is not refused. The text of this exception says why."""


def places_of(text, old):
    """Returns the places of an old text: the begin and the end of each, without the white space around it."""
    words = r"\s+".join(re.escape(word) for word in old.split())
    return [it.span(1) for it in re.finditer(f"(?m)^[ ]*({words})" if old.startswith(" ") else f"({words})", text)]


def changed(text, pair):
    """Returns `text` with `pair.new` in the place of `pair.old`. Raises `BadEdit` unless that stands once."""
    places = places_of(text, pair.old)
    if len(places) != 1:
        raise BadEdit(f"it stands {len(places)} times in {pair.file}: {pair.old.strip()}")
    (begin, end), = places
    return text[:begin] + pair.new.strip() + text[end:]


def change(folder, pairs):
    """Makes the changes of these pairs, whose files lie in a folder."""
    for pair in pairs:
        write(f"{folder}/{pair.file}", changed(read(f"{folder}/{pair.file}"), pair))
