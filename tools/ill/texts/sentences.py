"""Counts the words of each sentence in the documents: CONTRIBUTING.md allows 20.

A code span counts as one word. A semicolon ends a sentence, too. A block of code, a heading and the row of a table are no
sentences. LONG has the few longer ones that stay, each by its first words. It says how many words all sentences have.
"""
import re

from ill import repository
from ill.repository import read

LIMIT = 20
# The sentences that may be longer, by their document and their first words.
LONG = {
    "docs/FORMATS.md": ["of both roles: IDLE 00"],
}

COMPARED = repository.Comparison()


def documents():
    """Returns the documents that people write."""
    return [it for pattern in (["*.md"], ["docs", "*.md"], ["bench", "*.md"], ["examples", "*.md"])
            for it in repository.found(*pattern)]


def paragraphs(text):
    """Yields the number of the first line of each paragraph and each item of a list, and its text."""
    begin, kept, fenced = 0, [], False
    for number, line in enumerate(text.splitlines(), 1):
        fenced ^= line.startswith("```")
        ends = not line.strip() or fenced or re.match(r"```|#|\|", line) or not kept and line.startswith("    ")
        if (ends or re.match(r"\s*([-*]|\d+\.) ", line)) and kept:
            yield begin, " ".join(kept)
            kept = []
        if not ends:
            begin = begin if kept else number
            kept.append(line.strip())
    if kept:
        yield begin, " ".join(kept)


def sentences(paragraph):
    """Yields the sentences of a paragraph, without its marks."""
    plain = re.sub(r"``.*?``|`[^`]*`", "CODE", paragraph)
    plain = re.sub(r"\[([^\]]*)\]\([^)]*\)", lambda link: link[1][:1].upper() + link[1][1:], plain)
    plain = re.sub(r"^([-*]|\d+\.) ", "", plain).replace("**", "").replace("*", "")
    for sentence in re.split(r"(?<=[.!?])[\")]?\s+(?=[\"(]?[A-Z`])|;\s+", plain):
        yield sentence.strip()


def words(sentence):
    """Returns how many words a sentence has."""
    return len(re.findall(r"[A-Za-z0-9][\w'.,/@:+-]*", sentence))


def compare():
    """Compares all documents. Returns the faults, and what was compared."""
    counted = 0
    for document in documents():
        for number, paragraph in paragraphs(read(document)):
            for sentence in sentences(paragraph):
                counted += words(sentence)
                is_short = words(sentence) <= LIMIT or sentence.startswith(tuple(LONG.get(document, ())))
                COMPARED.expect("sentences", is_short,
                                f"{document}:{number}: {words(sentence)} words in one sentence: {sentence[:60]}..")
    long = sum(map(len, LONG.values()))
    return COMPARED.faults, (f"{COMPARED.summary()} of the documents have at most {LIMIT} words each, but for {long}, "
                             f"and {counted} words together")
