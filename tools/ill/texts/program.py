"""Has the rows of docs/FAULTS.md with the faults of the program, from its help, its ends and the sources.

A row has the text of a fault after `ill: `, its exit status, its type in the code, the commands that may end with it,
and its meaning. The meanings and their order are those of `ill --help`. The module `command_line` has the statuses, and
the rest is of the sources. The module `faults` writes the page.
"""
import re

from ill.repository import Unread
from ill.texts import help as helps

LINE = re.compile(r"(?m)^  \d  (\S.{20})(\S.*(?:\n {26}.*)*)")


def meanings():
    """Returns the meaning of each fault, in the order of `ill --help`."""
    text = helps.texts()["ILL"].partition("The exit status, and the line of a fault")[2]
    return {told.strip(): helps.joined(meaning) for told, meaning in LINE.findall(text) if told.strip() != "-"}


def commands_by_cause():
    """Returns the commands that may end with each cause of a status."""
    by_cause = {}
    for command, own in helps.arguments_of().items():
        for cause in helps.causes_of(command, own):
            by_cause.setdefault(cause, []).append(command)
    return by_cause


def groups():
    """Yields the groups of commands that have a name, each after its name."""
    arguments = helps.arguments_of()
    yield "all", list(arguments)
    for name, own in ("all with a FILE", helps.OF_DESKS), ("all with a KEYFILE", helps.OF_KEYS):
        yield name, [command for command in arguments if own & set(arguments[command])]


def listed(commands):
    """Returns the names of commands, one after another."""
    return ", ".join(f"`{command}`" for command in commands)


def named(commands):
    """Returns the text of a cell with the names of commands, the shortest of these: a list; a group, or all of one but
    some; and a group and some more."""
    texts = [listed(commands)]
    for name, group in groups():
        missing = [command for command in group if command not in commands]
        more = [command for command in commands if command not in group]
        if not missing or not more:
            texts.append(name + (" but " if missing else ", and " if more else "") + listed(missing + more))
    return min(texts, key=lambda text: len(text.split()))


def rows():
    """Yields the rows of the table."""
    types, by_cause = dict(helps.told_faults()), commands_by_cause()
    for told, meaning in meanings().items():
        if told not in types:
            raise Unread(f"{helps.HELP}: no command tells {told}")
        commands = by_cause[told if told in by_cause else helps.CAUSE_OF[types[told]]]
        yield f"| `{told}` | {helps.status_of(told)} | `{types[told]}` | {named(commands)} | {meaning} |\n"
