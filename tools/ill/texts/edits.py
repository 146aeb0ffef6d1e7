"""Compares the mutants in strength/ with the sources that they change, and tries none.

Each old text of an edit must stand once in what the edit changes. That is the body of a function, or else a source, and
then the edit must name the functions that are to be refused, and the crate must have them. So a source that changes
takes its mutants along.
"""
import os

from ill.bodies import MUTANTS
from ill.repository import full, libraries, read
from ill.strength import contracts
from ill.strength.edits import BadEdit, changed


def edits_of(crate, functions):
    """Returns the edits of a crate, which has these functions, also those of the gate and its controls."""
    folders = [folder for is_gate in (True, False) for folder in contracts.folders_of(crate, is_gate)]
    return contracts.edits_of(dict.fromkeys(folders), crate, functions)


def text_of(edit, pair, crate):
    """Returns the text in which the old text of a pair has to stand once."""
    path = full("crates", crate, pair.file)
    if not os.path.exists(path):
        raise BadEdit(f"there is no {pair.file}")
    it = edit.body_of
    return read(path)[it.start:it.end] if it and it.file == pair.file else read(path)


def fault_of(edit, crate, names):
    """Returns what is wrong with an edit of a crate, or None. The crate's functions have these names, without their paths."""
    texts = {}
    try:
        for pair in edit.pairs:
            text = texts.get(pair.file) or text_of(edit, pair, crate)
            texts[pair.file] = changed(text, pair)
    except BadEdit as bad:
        return str(bad)
    if not edit.refuses:
        return "it changes no body, and names no function that must be refused"
    missing = [path for path in edit.refuses if path.rpartition("::")[2] not in names]
    return f"the crate has no {missing[0]}, which must be refused" if missing else None


def faults_of_mutants():
    """Returns the faults of the mutants that a script refuses: an old text that does not stand once in its source."""
    return [f"tools/ill/bodies.py: {name}: {file} has not once: {old}" for name, _, _, file, changes in MUTANTS
            for old, _ in changes if read(full("crates", file)).count(old) != 1]


def compare():
    """Returns the faults that were found, and how much was compared."""
    faults, count = faults_of_mutants(), len(MUTANTS)
    for crate in libraries():
        functions = contracts.functions_of(full("crates", crate))
        names = {path.rpartition("::")[2] for path in functions}
        for edit in edits_of(crate, functions):
            count += 1
            fault = fault_of(edit, crate, names)
            if fault:
                faults.append(f"strength: {crate}/{edit.name}: {fault}")
    return faults, f"the {count} mutants that the prover or a script must refuse fit the sources that they change"
