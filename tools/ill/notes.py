"""The notes of staff, as docs/FORMATS.md has their file: a line a note, of which the last of a loan counts."""
from ill.screen import shown


def key(text):
    """Returns a qualifier as a line has it. A space would end it, so a space in it is an escape."""
    return text.replace("\\", "\\u{5c}").replace(" ", "\\u{20}")


def note_line(txn, words):
    """Returns the line of a note. One without words removes the note."""
    return f"{key(txn[0])} {key(txn[1])} {shown(words)}\n".encode()


def notes_of(notes):
    """Returns a file with the notes of loans, pairs of a loan and its words, in their order."""
    return b"".join(note_line(*note) for note in notes)


def kept(notes):
    """Returns the last note of each loan, by the loan. A loan whose last note has no words is left out."""
    return {txn: words for txn, words in dict(notes).items() if words}


def is_found(find, side, notes):
    """Returns true if a text of the loan has the words `find`, in capitals or not. Its texts are its group and
    transaction, its title, and its note in `notes`. If `find` is None, each loan is found."""
    texts = [" ".join(side.txn), side.asked()["item"], *filter(None, [notes.get(tuple(side.txn))])]
    return find is None or any(find.casefold() in text.casefold() for text in texts)
