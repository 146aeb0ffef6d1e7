r"""Writes the words of the program into the man page and the completions, from what it says of its command line.

It reads commands, arguments, options and tables of the help as the module `command_line` has them. It writes
completions/ill.bash, _ill and ill.fish whole, from the texts at the end of this file. In man/ill.1 it writes the
version, and what stands between `.\" words: PART` and `.\" end`. PART is

    commands, options, or statuses with their faults
    column TEXT HEAD       the first column of a table of a text of the help, under the line that ends in HEAD

All else in the man page is written by hand. Each word that is bold there must stand in the help. The module `help`
compares the texts of the help with the code. `manual` compares the man page and the completions with the built program.
"""
import collections
import re
import textwrap

from ill import command_line, repository
from ill.command_line import Part, about, commands, explained, text_of
from ill.repository import Unread, read

HELP, MAN = "crates/ill_help/src/texts.rt", "man/ill.1"
BEGIN, END = '.\\" words: ', '.\\" end'
# Words in capitals of the help that stand for others, beside the labels of arguments and values.
CAPITALS = {"DUE", "EXPIRY", "ITEM", "N", "RESULT", "WISHED"}
# Words of the man page that the help does not have: those of `clap`, and a name of a file.
OTHERS = {"error:", "ill help", "ill --version", ".unsorted.mail", ".letters.mail", ".opened"}
# The kinds of arguments that the completions know, by their names, and those of the values of options.
KINDS = {"FILE": "file", "PATH": "files", "FOLDER": "folder", "IN": "folder", "OUT": "folder", "ROLE": "role", "GROUP": "loan",
         "TRANSACTION": "loan", "WORDS": "words", "NUMBER": "none", "KEYFILE": "file"}
VALUES = {"DAY": "day", "DAYS": "count", "N": "count", "NAME": "text", "TEXT": "text", "WORDS": "text", "STATE": "state", "FILE": "file",
          "FOLDER": "file", "KEYFILE": "file"}

# What a shell offers for a command: its word, the kind of each argument, and its options.
Row = collections.namedtuple("Row", "word kinds options")

# What `clap` adds to each command line.
HELP_OPTION = Part("help", "", "--help", "Print help", False, False, False, (), "-h")
VERSION_OPTION = Part("version", "", "--version", "Print the version", False, False, False, (), "-V")
HELP_COMMAND = {"help": "Print the help of a command"}


# What the sources say.

def find(pattern, path):
    """Returns what a pattern finds in a source, which must be there."""
    found = re.search(pattern, read(path), re.S)
    if found is None:
        raise Unread(f"{path}: it has nothing like {pattern}")
    return found


def function(name, text):
    """Returns the text of the first function of this name, to the end of its body. Returns None if there is none."""
    found = re.search(rf"(?ms)^( *)(?:pub(?:\([\w ]+\))? )?fn {name}\b.*?^\1\}}$", text)
    return found[0] if found else None


def body(name, *paths):
    """Returns the text of a function, to the end of its body. It is of the first of these sources that has one of this
    name. Raises `Unread` if none has it."""
    found = next(filter(None, (function(name, read(path)) for path in paths)), None)
    if found is None:
        raise Unread(f"{', '.join(paths)}: no function {name}")
    return found


def named(kind, text):
    """Returns the words that a text gives to the variants of a type."""
    found = re.findall(rf'((?:{kind}::\w+(?:\(_\)| \{{[^}}]*\}})?(?: \| )?)+) => "([^"]+)"', text)
    return {name: word for names, word in found for name in re.findall(rf"{kind}::(\w+)", names)}


def general():
    """Returns the options of the program."""
    return [explained(), HELP_OPTION, VERSION_OPTION]


def options():
    """Returns all options of commands, each once for each command that has it."""
    return [part for some in commands() for command in some for part in command.parts if part.option]


def groups():
    """Returns the groups of commands, as the help has them: the title, and the words."""
    text = re.sub(r",\n {4,}", ", ", text_of("ILL").partition("\n\n")[0])
    rows = re.findall(r"(?m)^  ((?:for|to) \S.*?)  +(.*)$", text)
    return [(title, said.partition(", which")[0].split(", ")) for title, said in rows]


def table(name, head):
    """Returns the rows of a table of a text of the help, in two columns, under the line that ends in a head."""
    text = text_of(name)
    if text.count(head + "\n") != 1:
        raise Unread(f"{HELP}: {name} has not one line that ends in {head}")
    rows = []
    for line in text.partition(head + "\n")[2].splitlines():
        if not line.startswith("  "):
            break
        row = re.fullmatch(r"  (\d  \S.*?|\S.*?)  +(\S.*)", line)
        if row is None and not (rows and line.startswith("   ")):
            raise Unread(f"{HELP}: {name} has no row of a table in {line}")
        if row is None or line.startswith("   "):
            rows[-1][1] += " " + line.strip()
        else:
            rows.append(list(row.groups()))
    return rows


def ends():
    """Returns the rows of the list of exit statuses: the status, the text of the fault or `-`, and what it says."""
    rows = table("ILL", "The exit status, and the line of a fault on standard error after `ill: `:")
    return [(*re.split("  ", head, maxsplit=1), said) for head, said in rows]


def verbs(role):
    """Returns the first words of the actions of a role."""
    heads = re.findall(rf"(?m)^The words of a {role}\b.*:$", text_of("ACT"))
    return list(dict.fromkeys(row[0].split()[0] for row in table("ACT", heads[0])))


def states():
    """Returns the names of the states."""
    return command_line.words_of("state")


# The man page.

def escaped(text):
    """Returns a text for the man page in which no character is taken for a macro."""
    return text.replace("\\", "\\e").replace("-", "\\-")


def roff(text):
    """Returns a text for the man page: words in backquotes and options are bold."""
    text = re.sub(r"`([^`]+)`", r"\\fB\1\\fP", escaped(text))
    return re.sub(r"(?<![\w\\{-])((?:\\-){2}[a-z]+(?:\\-[a-z]+)*)", r"\\fB\1\\fP", text)


def slanted(text):
    """Returns a text for the man page in which the words in capitals that stand for others are slanted."""
    known = CAPITALS | {part.label for some in commands() for command in some for part in command.parts} - {""}
    longest_first = "|".join(sorted(known, key=len, reverse=True))
    return re.sub(rf"(?<![\w\\-])({longest_first})(?![\w\\])", r"\\fI\1\\fP", roff(text))


def bold(words):
    """Returns words for the man page, in bold, with commas between them."""
    return ", ".join(f"\\fB{escaped(word)}\\fP" for word in words)


def bold_head(row):
    """Returns the head of an entry: words of the program are bold, those in capitals are slanted."""
    said = " ".join(f"\\fI{word}\\fP" if word.isupper() else word if word == "|" else bold([word])
                    for word in row.split())
    return re.sub(r"(?<=[a-z])\\fP \\fB(?=[a-z])|(?<=[A-Z])\\fP \\fI(?=[A-Z])", " ", said)


def sentence(text):
    """Returns a text that begins with a capital and ends with a stop."""
    return text[0].upper() + text[1:] + ("" if text.endswith(".") else ".")


def filled(text):
    """Returns lines of the man page, none of which is taken for a macro."""
    return [("\\&" if line[0] in ".'" else "") + line for line in
            textwrap.wrap(text, 118, break_on_hyphens=False, break_long_words=False)]


def entry(head, text):
    """Returns an entry of a list of the man page."""
    return [".TP", head, *filled(text)]


def form(part):
    """Returns a part of a command line as a usage has it."""
    if part.option:
        said = bold([part.option]) + (f" \\fI{part.label}\\fP" if part.label else "")
    else:
        said = f"\\fI{part.label}\\fP" + ("..." if part.many else "")
    return said if part.required else f"[{said}]"


def usage(command, before=""):
    """Returns the usage of a command: options that must be there, arguments, other options, and words up to the end."""
    def place(part):
        """Returns the place of a part in a usage: options that must be there, arguments, other options, and words up to
        the end."""
        return 3 if part.last else 2 * (not part.required) if part.option else 1
    said = " ".join([bold([before + command.word]), *map(form, sorted(command.parts, key=place))])
    return re.sub(r"(?<=[A-Z])\\fP \\fI(?=[A-Z])", " ", said)


def listed_commands():
    """Returns all commands in their groups, each with what it does."""
    desk, shelf = commands()
    known = {command.word: entry(usage(command), f"{roff(command.about)}.") for command in desk}
    known["shelf"] = listed_shelf(set(known), shelf)
    in_groups = [word for _, words in groups() for word in words if word != "shelf"]
    if in_groups != [command.word for command in desk]:
        raise Unread(f"{HELP}: the groups of commands are not those of the sources: {', '.join(in_groups)}")
    lines = []
    for title, words in groups():
        lines.append(f".SS {title[0].upper()}{title[1:]}")
        lines += [line for word in words for line in known[word]]
    return lines


def listed_shelf(of_desks, shelf):
    """Returns the commands on a shelf: those that a desk has too in a sentence, and the others each with what it
    does."""
    alike = [command.word for command in shelf if command.word in of_desks]
    said = (f"{roff(about('shelf'))}. It has {bold(alike[:-1])} and {bold(alike[-1:])}, with \\fIDIR\\fP in place of"
            " \\fIFILE\\fP.")
    lines = entry("\\fBshelf\\fP \\fICOMMAND DIR\\fP...", said)
    for command in shelf:
        if command.word not in alike:
            lines += entry(usage(command, "shelf "), f"{roff(command.about)}.")
    return lines


def said_of(is_listed, head):
    """Returns the parts of command lines for which `is_listed` returns true, by what `head` makes of them. Each has the
    texts that are said of it, with the commands of which they are said. A command on a shelf is left out if one for a
    desk has the same text."""
    found = {}
    desk, shelf = commands()
    for before, some in (("", desk), ("shelf ", shelf)):
        for command in some:
            for part in filter(is_listed, command.parts):
                texts = found.setdefault(head(part), {})
                if not before or part.about not in texts:
                    texts.setdefault(part.about, []).append(before + command.word)
    return found


def listed_options():
    """Returns all options, those of the program first, each with what it does in which commands."""
    lines = []
    for part in general():
        lines += entry(bold(filter(None, [part.letter, part.option])), f"{part.about}.")
    found = said_of(lambda part: part.option, lambda part: form(part._replace(required=True)))
    for head, texts in sorted(found.items()):
        lines += entry(head, " ".join(f"{bold(words)}: {slanted(text)}." for text, words in texts.items()))
    return lines


def listed_statuses():
    """Returns the exit statuses, each with what it says, and with its faults in a sentence."""
    lines = []
    for status in dict.fromkeys(status for status, _, _ in ends()):
        said = [sentence(roff(text)) for of, fault, text in ends() if of == status and fault == "-"]
        faults = [bold_head(fault) for of, fault, _ in ends() if of == status and fault != "-"]
        if faults:
            said.append(f"{'Or a' if said else 'A'} fault: {', '.join(faults[:-1])} or {faults[-1]}.")
        lines += entry(f".B {status}", " ".join(said))
    return lines


PARTS = {"commands": listed_commands, "options": listed_options, "statuses": listed_statuses}


def part_of_page(said):
    """Returns the lines of a part of the man page that its mark names."""
    if said in PARTS:
        return PARTS[said]()
    kind, _, rest = said.partition(" ")
    name, _, words = rest.partition(" ")
    if kind == "column":
        heads = [bold_head(row) for row, _ in table(name, words)]
        return filled(f"{', '.join(heads[:-1])} or {heads[-1]}.")
    raise Unread(f"{MAN}: it has a mark of no part: {said}")


def by_hand(page):
    """Returns what is written by hand in the man page."""
    return re.sub(rf"(?ms)^{re.escape(BEGIN)}.*?^{re.escape(END)}$", "", page)


def bold_by_hand(page):
    """Returns the words that are bold in what is written by hand."""
    text = by_hand(page).replace("\\-", "-")
    return set(re.findall(r"\\fB(.*?)\\fP", " ".join(text.split()))) | set(re.findall(r"(?m)^\.B (.*)$", text))


def all_texts():
    """Returns all texts of the help: of the program, of commands and their examples, and of arguments."""
    words = [word for some in commands() for command in some for word in (command.word, *(part.label for part in command.parts))]
    return [*command_line.texts().values(), *command_line.examples(), *command_line.lines(), *words,
            *command_line.program()["options"]]


def stands_in_help(word):
    """Returns a match if the help has a word that is no part of a longer one, or None."""
    before, after = (r"(?<![\w-])" if word[0].isalnum() else "", r"(?![\w-])" if word[-1].isalnum() else "")
    return re.search(before + re.escape(word) + after, " ".join(" ".join(all_texts()).split()))


def manual(old):
    """Returns the man page with its parts written anew."""
    lines, at = [], None
    for line in old.splitlines():
        if line.startswith(BEGIN) and at is None:
            at = line.removeprefix(BEGIN)
            lines += [line, *part_of_page(at)]
        elif line == END and at is not None:
            at = None
        if at is None:
            lines.append(line)
    if at is not None:
        raise Unread(f"{MAN}: {at} has no {END}")
    for word in bold_by_hand(old) - OTHERS:
        if not stands_in_help(word):
            raise Unread(f"{MAN}: {word} stands in no text of the help")
    lines[0] = re.sub(r'"ill [^"]*"', f'"ill {command_line.program()["version"]}"', lines[0])
    return "\n".join(lines) + "\n"


# The completions.

def rows():
    """Returns what may stand after each command: first none, then those for one desk, and those on a shelf."""
    desk, shelf = commands()
    found = [Row("", ["command"], general()), Row("help", ["command"], [])]
    found += [row_of(command.word, command) for command in desk]
    found += [Row("shelf-", ["shelf-command"], [explained(), HELP_OPTION]), Row("shelf-help", ["shelf-command"], [])]
    return found + [row_of(f"shelf-{command.word}", command) for command in shelf]


def row_of(word, command):
    """Returns what may stand after a command."""
    of_desk = any(part.name == "FILE" for part in command.parts)
    kinds = [kind_of(part, command.word, of_desk, word.startswith("shelf-")) for part in command.parts if not part.option]
    return Row(word, kinds, [*(part for part in command.parts if part.option), explained(), HELP_OPTION])


def kind_of(part, word, of_desk, on_shelf):
    """Returns the kind of an argument of a command. It is a loan only if there is a desk or a shelf. It is the words of
    an action only for `act`."""
    if part.name not in KINDS:
        raise Unread(f"{command_line.FILE}: no completion knows the argument {part.name}")
    kind = KINDS[part.name]
    if kind == "words" and word != "act":
        return "none"
    return "folder" if kind == "file" and on_shelf else "none" if kind == "loan" and not of_desk else kind


def value_of(option):
    """Returns the kind of the value of an option, or an empty text if it has none."""
    if option.label and option.label not in VALUES:
        raise Unread(f"{command_line.FILE}: no completion knows the value {option.label} of {option.option}")
    return VALUES.get(option.label, "")


def quoted(text):
    """Returns a text between the quotes of a shell."""
    return "'" + text.replace("'", r"'\''") + "'"


def lowered(text):
    """Returns a text that begins with no capital."""
    return text[0].lower() + text[1:]


def described(option):
    """Returns an option, and its letter if it has one, each with what it does, as zsh reads it."""
    return [quoted(f"{word}:{lowered(option.about)}") for word in (option.letter, option.option) if word]


def offered(on_shelf=False):
    """Returns the commands that a shell offers for one desk or on a shelf: command -> what it does."""
    desk, shelf = commands()
    found = {command.word: command.about for command in (shelf if on_shelf else desk)}
    return found | ({} if on_shelf else {"shelf": about("shelf")}) | HELP_COMMAND


def wrapped(words, indent):
    """Returns words in lines of at most 96 columns, which but for the first begin with so many spaces."""
    return textwrap.fill(" ".join(words), 96, break_long_words=False, break_on_hyphens=False,
                         subsequent_indent=" " * indent)


def cases(between, indent, line):
    """Returns a line for each kind of value that an option may have, after so many spaces. `line` is its form. The
    options that have the kind stand in it with `between` between them."""
    kinds = {}
    for option in options():
        kinds.setdefault(value_of(option), []).append(f"any-{option.option}")
    return "\n".join(" " * indent + line.format(options=between.join(dict.fromkeys(found)), kind=kind)
                     for kind, found in kinds.items() if kind)


def common():
    """Returns the words that all completions have: verbs, roles and `--explain`, by their names."""
    return {"requester": " ".join(verbs("requester")), "responder": " ".join(verbs("responder")),
            "roles": " ".join(command_line.words_of("ROLE")), "explain": explained().option}


def of_bash():
    """Returns the words of the completion of bash, by their names."""
    lines = [f"    {row.word or quoted('')}) parts=({' '.join(row.kinds)})"
             f" options={quoted(' '.join(option.option for option in row.options))} ;;" for row in rows()]
    return common() | {
        "rows": "\n".join(lines), "values": cases(" | ", 6, "{options}) wanted={kind} ;;"),
        "states": wrapped(states(), 6), "commands": wrapped(offered(), 6),
        "commands_on_shelf": wrapped(offered(True), 6)}


def of_zsh():
    """Returns the words of the completion of zsh, by their names."""
    lines = []
    for row in rows():
        said = [word for option in row.options for word in described(option)]
        between = " " if sum(map(len, said)) < 60 else "\n    "
        lines.append(f"  {row.word or quoted('')}) parts=({' '.join(row.kinds)}) options=({between.join(said)}) ;;")
    named_with = [[f"  {quoted(f'{word}:{lowered(said)}')}" for word, said in offered(on_shelf).items()]
                  for on_shelf in (False, True)]
    return common() | {
        "rows": "\n".join(lines), "values": cases("|", 4, "{options}) wanted={kind} ;;"),
        "states": wrapped(states(), 2), "commands": "\n".join(named_with[0]),
        "commands_on_shelf": "\n".join(named_with[1])}


def rule(condition, rest):
    """Returns a line of the completion of fish, which offers `rest` on a condition."""
    return f"complete -c ill -n {in_fish(condition)} {rest}"


def in_fish(text):
    """Returns a text between the quotes of fish."""
    return f'"{text}"' if "'" in text else f"'{text}'"


def of_fish():
    """Returns the words of the completion of fish, by their names."""
    known = [row._replace(word=row.word.removesuffix("-") or "''") for row in rows()]
    lines = []
    for on_shelf, at, of_help in ((False, "''", "help"), (True, "shelf", "shelf-help")):
        of = offered(on_shelf)
        lines += [rule(f"__ill_at 0 {at}", f"-a {word} -d {in_fish(said)}") for word, said in of.items()]
        lines.append(rule(f"__ill_at 0 {of_help}", f"-a '{' '.join(of)}'"))
    offers = {"file": "-F", "files": "-F", "folder": "-x -a '(__fish_complete_directories)'",
              "role": f"-a '{common()['roles']}'", "loan": "-a '(__ill_loans)'", "words": "-a '(__ill_words)'"}
    for kind, offer in offers.items():
        for at in range(max(len(row.kinds) for row in known)):
            of = [row.word for row in known if row.kinds[at:at + 1] == [kind]]
            if of:
                lines.append(rule(f"__ill_{'any' if kind == 'files' else f'at {at}'} {' '.join(of)}", offer))
    values = {"day": " -x", "count": " -x", "text": " -x", "state": f" -x -a '{' '.join(states())}'", "file": " -r -F", "": ""}
    of_options = {}
    for row in known:
        for option in row.options:
            of_options.setdefault(option._replace(required=False), []).append(row.word)
    for option, of in of_options.items():
        kind, letter = value_of(option), f"-s {option.letter[1:]} " if option.letter else ""
        lines.append(rule(f"__ill_option {kind or 'any'} {' '.join(of)}",
                          f"{letter}-l {option.option[2:]}{values[kind]} -d {in_fish(option.about)}"))
    last = [f"{row.word}-{len(row.kinds)}" for row in known if "words" in row.kinds]
    return common() | {"lines": "\n".join(lines), "last": " ".join(last),
                       "values": cases(" ", 12, "case {options}\n                set wanted {kind}")}


def completion(text, words):
    """Returns a completion whose words stand in place of their names between @."""
    return re.sub(r"@(\w+)@", lambda found: words[found[1]], text.lstrip("\n"))


BASH = r"""
# Completion of ill(1) in bash: commands, options, roles, files, their loans, and the first words of actions.
# Written by tools/ill/texts/words.py: change the text there, and run `make words`.

# A word of the line as a command sees it: without quotes and backslashes, and with the home folder for `~/`.
_ill_text() {
  local word=$1 text= quote= at char
  case $word in '~/'*) text=$HOME word=${word#'~'} ;; esac
  for ((at = 0; at < ${#word}; at++)); do
    char=${word:at:1}
    case $quote$char in
      '\' | '"\') ((at++)); text+=${word:at:1} ;;
      \' | \") quote=$char ;;
      \'\' | \"\") quote= ;;
      *) text+=$char ;;
    esac
  done
  printf '%s\n' "$text"
}

# What `ill status` tells of the loans in a file, or of a shelf.
_ill_status() { ill ${shelf:+shelf} status -- "$(_ill_text "$1")" 2> /dev/null; }

# The first words of the role of a file or a shelf; of both roles if it has no loan.
_ill_words() {
  local requester='@requester@'
  local responder='@responder@'
  case $(_ill_status "$1" | grep -m 1 '^role ') in
    'role requester') echo "$requester" ;;
    'role responder') echo "$responder" ;;
    *) echo "$requester $responder" ;;
  esac
}

# The groups of the loans in a file; after a group, its transactions.
_ill_loans() {
  local line group=
  while IFS= read -r line; do
    case $#-$line in
      1-group\ *) printf '%s\n' "${line#group }" ;;
      2-group\ *) group=${line#group } ;;
      2-transaction\ *) [ "$group" != "$(_ill_text "$2")" ] || printf '%s\n' "${line#transaction }" ;;
    esac
  done < <(_ill_status "$1") | sort -u
}

# Offers those that begin with the word at the cursor, with backslashes if that word is in no quotes.
_ill_offer_loans() {
  local loan word=${COMP_WORDS[COMP_CWORD]}
  while IFS= read -r loan; do
    case $loan in "$(_ill_text "$word")"*) ;; *) continue ;; esac
    case $word in [\"\']*) ;; *) loan=$(printf %q "$loan") ;; esac
    COMPREPLY+=("$loan")
  done < <(_ill_loans "$@")
}

# Sets `parts` to the kinds of the arguments of a command, and `options` to its options.
_ill_parts() {
  case $1 in
@rows@
  esac
}

# Sets `arguments` to those that stand between the command and the cursor, options left out, and `wanted` to
# the kind of what may come next: `any` (an option too), `argument` (no option any more), `day`, `count`, `text`,
# `state` or `file` (the value of an option).
_ill_read() {
  local at word
  for ((at = 2; at < COMP_CWORD; at++)); do
    word=${COMP_WORDS[at]}
    case $wanted-$word in
      day-= | count-= | text-= | state-= | file-=) ;;     # bash takes --today=DAY for three words
      day-* | count-* | text-* | state-* | file-*) wanted=any ;;
      any---) wanted=argument ;;
@values@
      any--*) ;;
      *)
        if [ "${parts[${#arguments[@]}]}" = words ]; then wanted=argument; fi
        arguments+=("$word") ;;
    esac
  done
}

# Takes a word away that may stand before the command, and says if it was there.
_ill_skip() {
  [ "${COMP_WORDS[1]}" = "$1" ] && [ "$COMP_CWORD" -gt 1 ] || return 1
  COMP_WORDS=("${COMP_WORDS[0]}" "${COMP_WORDS[@]:2}")
  ((COMP_CWORD--))
  return 0
}

_ill() {
  local shelf= command= kind offered= wanted=any parts=() options= arguments=()
  _ill_skip @explain@
  if _ill_skip shelf; then shelf=shelf-; fi
  _ill_skip @explain@
  local word=${COMP_WORDS[COMP_CWORD]}
  COMPREPLY=()
  if [ "$COMP_CWORD" -gt 1 ]; then command=${COMP_WORDS[1]}; fi
  _ill_parts "$shelf$command"
  _ill_read
  kind=$wanted
  case $wanted-${parts[0]}-$word in
    any-*--*) kind=option ;;
    any-files-* | argument-files-*) kind=file ;;
    any-* | argument-*) kind=${parts[${#arguments[@]}]} ;;
  esac
  case $kind in
    option) offered=$options ;;
    state) offered='@states@' ;;
    role) offered='@roles@' ;;
    command) offered='@commands@' ;;
    shelf-command) offered='@commands_on_shelf@' ;;
    words) offered=$(_ill_words "${arguments[0]}") ;;
    loan)
      _ill_offer_loans "${arguments[@]}"
      return ;;
    file | folder)
      compopt -o filenames 2> /dev/null
      mapfile -t COMPREPLY < <(if [ "$kind" = file ]; then compgen -f -- "$word"; else compgen -d -- "$word"; fi)
      return ;;
  esac
  COMPREPLY=($(compgen -W "$offered" -- "$word"))
}

complete -F _ill ill
"""

ZSH = r"""
#compdef ill
# Completion of ill(1) in zsh: commands, options, roles, files, their loans, and the first words of actions.
# Written by tools/ill/texts/words.py: change the text there, and run `make words`.

local -a commands commands_on_shelf requester responder states
commands=(
@commands@
)
commands_on_shelf=(
@commands_on_shelf@
)
requester=(@requester@)
responder=(@responder@)
states=(@states@)

# The groups of the loans in a file or on a shelf; after a group, its transactions.
_ill_loans() {
  local line group
  local -aU loans
  for line in ${(f)"$(ill $shelf status -- "$1" 2> /dev/null)"}; do
    case $ARGC-$line in
      1-group\ *) loans+=("${line#group }") ;;
      2-group\ *) group=${line#group } ;;
      2-transaction\ *) if [[ $group = "$2" ]]; then loans+=("${line#transaction }"); fi ;;
    esac
  done
  compadd -a loans
}

# The words of the role of a file or a shelf; of both roles if it has no loan.
_ill_words() {
  case $(ill $shelf status -- "$1" 2> /dev/null | grep -m 1 '^role ') in
    'role requester') compadd -a requester ;;
    'role responder') compadd -a responder ;;
    *) compadd -a requester responder ;;
  esac
}

# The option before the command is taken away, and so is `shelf`, which then stands in `shelf`.
local -a shelf
local before
for before in @explain@ shelf @explain@; do
  if [[ $words[2] = $before ]] && ((CURRENT > 2)); then
    if [[ $before = shelf ]]; then shelf=(shelf); fi
    words[2]=()
    ((CURRENT--))
  fi
done

# The kinds of the arguments of the command, and its options.
local -a parts options
local command=
if ((CURRENT > 2)); then command=$words[2]; fi
case ${shelf:+shelf-}$command in
@rows@
esac

# The arguments between the command and the cursor, options left out, and the kind of what may come next: `any` (an
# option too), `argument` (no option any more), `day`, `count`, `text`, `state` or `file` (the value of
# an option).
local -a arguments
local wanted=any word kind
integer at
for ((at = 3; at < CURRENT; at++)); do
  word=${(Q)words[at]}
  case $wanted-$word in
    day-*|count-*|text-*|state-*|file-*) wanted=any ;;
    any---) wanted=argument ;;
@values@
    any--*) ;;
    *)
      arguments+=("$word")
      if [[ $parts[$#arguments] = words ]]; then wanted=argument; fi ;;
  esac
done

if (($#arguments)); then arguments[1]=${arguments[1]/#\~\//$HOME/}; fi
kind=$wanted
case $wanted-$parts[1]-$PREFIX in
  any-*--*) kind=option ;;
  any-files-*|argument-files-*) kind=file ;;
  any-*|argument-*) kind=$parts[$#arguments+1] ;;
esac
case $kind in
  option) _describe -o option options ;;
  day) _message 'a day, as 20250301' ;;
  count) _message 'a number' ;;
  state) compadd -a states ;;
  role) compadd @roles@ ;;
  command) _describe command commands ;;
  shelf-command) _describe command commands_on_shelf ;;
  words) _ill_words "${arguments[1]}" ;;
  loan) _ill_loans "${arguments[@]}" ;;
  file) _files ;;
  folder) _files -/ ;;
esac
"""

FISH = r"""
# Completion of ill(1) in fish: commands, options, roles, files, their loans, and the first words of actions.
# Written by tools/ill/texts/words.py: change the text there, and run `make words`.

# The words before the cursor, without the option that may stand before the command. A command of a shelf is one word,
# such as `shelf-act`.
function __ill_typed
    set -l words (commandline -opc)
    if test "$words[2]" = @explain@
        set -e words[2]
    end
    if test "$words[2]" = shelf; and test "$words[3]" = @explain@
        set -e words[3]
    end
    if test "$words[2]" = shelf; and test (count $words) -gt 2
        set -e words[2]
        set words[2] shelf-$words[2]
    end
    string join \n -- $words
end

# The kind of what may come next, a line, the command, a line, and the arguments that stand between the command and the
# cursor, options left out, a line each. The kind is `any` (an option too), `argument` (no option any more), `day`,
# `count`, `text`, `state` or `file` (the value of an option).
function __ill_read
    set -l words (__ill_typed)
    set -l wanted any
    set -l arguments
    for word in $words[3..-1]
        switch $wanted-$word
            case 'day-*' 'count-*' 'text-*' 'state-*' 'file-*'
                set wanted any
            case any---
                set wanted argument
@values@
            case 'any--*'
            case '*'
                set -a arguments $word
                if contains -- "$words[2]-"(count $arguments) @last@
                    set wanted argument
                end
        end
    end
    string join \n -- $wanted "$words[2]" $arguments
end

# __ill_at COUNT COMMAND..: whether an argument of one of these commands comes next, after COUNT others.
function __ill_at
    set -l read (__ill_read)
    not contains -- $read[1] day count text state file; and test (count $read[3..-1]) = $argv[1]
    and contains -- "$read[2]" $argv[2..-1]
end

# __ill_any COMMAND..: whether an argument of one of these commands comes next, after any number.
function __ill_any
    set -l read (__ill_read)
    not contains -- $read[1] day count text state file
    and contains -- "$read[2]" $argv
end

# __ill_option KIND COMMAND..: whether an option of one of these commands may come next, or its value of this kind.
function __ill_option
    set -l read (__ill_read)
    contains -- $read[1] any $argv[1]
    and contains -- "$read[2]" $argv[2..-1]
end

# What `ill status` tells of the loans in a file, or of a shelf.
function __ill_status
    set -l shelf (string match -r '^shelf' -- (__ill_read)[2])
    ill $shelf status -- (string replace -r '^~/' "$HOME/" -- $argv[1]) 2>/dev/null
end

# The groups of the loans in the file; after a group, its transactions.
function __ill_loans
    set -l arguments (__ill_read)[3..-1]
    set -l group
    for line in (__ill_status $arguments[1])
        set -l words (string split -m 1 ' ' -- $line)
        switch (count $arguments)-$words[1]
            case 1-group
                string join \n -- $words[2]
            case 2-group
                set group $words[2]
            case 2-transaction
                if test "$group" = "$arguments[2]"
                    string join \n -- $words[2]
                end
        end
    end | sort -u
end

# The words of the role of the file or the shelf; of both roles if it has no loan.
function __ill_words
    set -l requester @requester@
    set -l responder @responder@
    switch (__ill_status (__ill_read)[3] | string match -r '^role .*')[1]
        case 'role requester'
            string join \n $requester
        case 'role responder'
            string join \n $responder
        case '*'
            string join \n $requester $responder
    end
end

complete -c ill -f
@lines@
"""


def written():
    """Returns each file with what has to stand there."""
    return {"completions/ill.bash": completion(BASH, of_bash()), "completions/_ill": completion(ZSH, of_zsh()),
            "completions/ill.fish": completion(FISH, of_fish()), MAN: manual(read(MAN))}


def compare():
    """Returns the lines that differ, and which files were compared."""
    files = written()
    return repository.all_differences(files), f"{', '.join(files)} have the words of {command_line.FILE}"


def write():
    """Writes the files anew. Returns what was written."""
    files = written()
    changed = len(repository.all_differences(files))
    for path, text in files.items():
        repository.write(path, text)
    return f"written: {', '.join(files)}; {changed} places changed"
