"""What the program says of its command line, for the scripts that read it.

tools/ill/help.jsonl has what `ill help --json` prints, and `make words` writes it. No help names that command. Each
line is an object, of one of four kinds:

- program: its version, its line and text of help, and all options, also those that `clap` adds;
- command: its word, whether it is one on a shelf, its line and text of help, and its example;
- argument: the command that has it, or null for one of the program and of each command. Its name for `clap` is that of
  an option without hyphens. It has the word for it or for its value, its line of help, and whether it must be there,
  repeats, or takes all the words that remain. Last come the words that it may have, if not any;
- end: the line of a fault without `ill: `, with 0 for a number, or a word if a command ends without a fault. Then comes
  the exit status.
"""
import collections
import json
import re

from ill.repository import Unread, read

FILE = "tools/ill/help.jsonl"

# An argument: its name for `clap`, the label that stands for it or for its value, and its line of help, `about`. Of an
# option `option` is the word, as `--today`, and `letter` the short form, if any. `required` is true if it must be
# there. `many` is true if it repeats, and `last` if it takes all the words that remain. `values` are the words that it
# may have, if not any.
# A command: its word, its line of help, and its arguments.
Part = collections.namedtuple("Part", "name label option about required many last values letter", defaults=("",))
Command = collections.namedtuple("Command", "word about parts")


def objects(kind):
    """Returns the objects of a kind, in their order."""
    return [found for found in map(json.loads, read(FILE).splitlines()) if found["kind"] == kind]


def program():
    """Returns the object of the kind `program`."""
    return objects("program")[0]


def part_of(said):
    """Returns the `Part` of an object of the kind `argument`. It has no letter."""
    return Part(said["name"], said["value"] or "", f"--{said['name']}" if said["option"] else "", said["help"],
                said["required"], said["repeats"], said["rest"], tuple(said["values"]))


def explained():
    """Returns the first argument that is of no command. It is the option `--explain` of the program."""
    return next(part_of(said) for said in objects("argument") if said["command"] is None)


def commands():
    """Returns two lists of commands: those for one desk or for none, and those on a shelf. Both are in the order of the
    help. The command `shelf` itself is left out."""
    parts = {}
    for said in objects("argument"):
        parts.setdefault((said["command"], said["shelf"]), []).append(part_of(said))
    found = {True: [], False: []}
    for said in objects("command"):
        word, shelf = said["command"], said["shelf"]
        if word != "shelf":
            found[shelf].append(Command(word, said["about"], parts.get((word, shelf), [])))
    return found[False], found[True]


def about(word):
    """Returns the line of the purpose of a command for one desk, or of `shelf`."""
    return next(said["about"] for said in objects("command") if said["command"] == word and not said["shelf"])


def name_of(said):
    """Returns the name of the text of a command: its word in capitals, after `SHELF_` if it is one on a shelf."""
    return ("SHELF_" if said["shelf"] else "") + said["command"].upper().replace("-", "_")


def texts():
    """Returns the texts of the help by their names. That of the program is ILL."""
    return {"ILL": program()["help"]} | {name_of(said): said["help"] for said in objects("command")}


def text_of(name):
    """Returns the text of the help that has this name. Raises `Unread` if there is none."""
    found = texts()
    if name not in found:
        raise Unread(f"{FILE}: no text of the help has the name {name}")
    return found[name]


def examples():
    """Returns the examples of the commands that have one."""
    return [said["example"] for said in objects("command") if said["example"]]


def lines():
    """Returns the lines of the help, of commands and of their arguments."""
    return [said["about"] for said in objects("command")] + [said["help"] for said in objects("argument")]


def words_of(name):
    """Returns the words that an argument may have: those of the first one with this name for `clap`."""
    return next(said["values"] for said in objects("argument") if said["name"] == name)


def ends():
    """Returns the exit status of each end, by its text. The text is the line of a fault, or the word for an end without
    a fault. N stands for a number at the end of a line."""
    return {re.sub(r"\b0$", "N", said["end"]): said["status"] for said in objects("end")}


def faults():
    """Returns the lines of all faults, with N for a number."""
    return [re.sub(r"\b0$", "N", said["end"]) for said in objects("end") if said["fault"]]
