"""Compares docs/PROTOCOL.md with the sources of ill_core: both have the same tables.

It compares

- each array of rows in ill_core with the lines of its table, kind by kind, in their order;
- each change of state in those rows with the edges of the pictures;
- the states of each role with the states that its rows name;
- the verbs of each state with the kinds of action that have a row for it;
- each deed that its date forbids with the last cell of its line.

The words of the tables and of the pictures stand below, with the names that the sources have for them. A cell with any
other word is a fault.
"""
import collections
import re

from ill.repository import Unread, read

CORE, PAGE = "crates/ill_core/src", "docs/PROTOCOL.md"
ANY, NONE = 0xFFFF, 0

# The words of a role: its wishes or deeds, the messages that it takes, and the labels of its pictures. Each word has
# its kinds; a label of an action begins with `wish` or `deed`.
NO_SUPPLY = "retry, unfilled, locations-provided, estimate"
WISHES = {"Request": ["Request"], "Cancel": ["Cancel"], "Reply yes": ["Yes"], "Reply no": ["No"],
          "Receive": ["Received"], "Renew": ["Renew"], "Return": ["Returned"]}
DEEDS = {"Answer conditional": ["Conditions"], "Answer will-supply, hold-placed": ["Promise"],
         f"Answer {NO_SUPPLY}": ["NoSupply"], "CancelReply yes": ["CancelYes"], "CancelReply no": ["CancelNo"],
         "Ship, due d": ["Shipped"], "RenewAnswer yes, due d": ["RenewYes"], "RenewAnswer no": ["RenewNo"],
         "Overdue": ["Overdue"], "Recall": ["Recall"], "CheckIn": ["CheckedIn"], "Expire": ["Expired"]}
TO_REQUESTER = {"ILL-Answer conditional, number k": ["Conditions"], "ILL-Answer will-supply, hold-placed": ["Promise"],
                f"ILL-Answer {NO_SUPPLY}; Expired": ["NoSupply", "Expired"],
                "Cancel-Reply to c": ["CancelYes", "CancelNo"], "Shipped, due d": ["Shipped"],
                "Overdue, date d": ["Overdue"], "Renew-Answer to c": ["RenewYes", "RenewNo"], "Recall": ["Recall"],
                "Checked-In": ["CheckedIn"]}
TO_RESPONDER = {"ILL-Request": ["Request"], "Conditional-Reply yes to c": ["Yes"],
                "Conditional-Reply no, to any number": ["No"], "Cancel, number n": ["Cancel"],
                "Received": ["Received"], "Renew, number n": ["Renew"], "Returned": ["Returned"]}
LABELS = {"ILL-Answer conditional": ["Conditions"], "Cancel-Reply yes": ["CancelYes"], "Cancel-Reply no": ["CancelNo"],
          "No supply": ["NoSupply", "Expired"], "Shipped": ["Shipped"], "Overdue": ["Overdue"], "Recall": ["Recall"],
          "Renew-Answer yes": ["RenewYes"], "Renew-Answer no": ["RenewNo"],
          "Renew-Answer yes or no": ["RenewYes", "RenewNo"], "ILL-Request": ["Request"],
          "Conditional-Reply yes": ["Yes"], "Conditional-Reply no": ["No"], "Cancel": ["Cancel"], "Renew": ["Renew"],
          "Returned": ["Returned"]}
LABELS |= {f"wish {word}": kinds for word, kinds in WISHES.items()}
LABELS |= {f"deed {word.removesuffix(', due d')}": kinds for word, kinds in DEEDS.items()}
LABELS |= {"deed No supply": ["NoSupply"], "deed RenewAnswer yes or no": ["RenewYes", "RenewNo"]}

# What an action issues.
WISH_ISSUES = {"Request": "ILL-Request, number 1", "Yes": "Conditional-Reply yes, answering held",
               "No": "Conditional-Reply no, answering held"}
DEED_ISSUES = {"Conditions": "ILL-Answer conditional", "Promise": "ILL-Answer with this result",
               "NoSupply": "ILL-Answer with this result", "CancelYes": "Cancel-Reply yes, answering the last Cancel",
               "CancelNo": "Cancel-Reply no, answering the last Cancel", "Shipped": "Shipped, due d",
               "RenewYes": "Renew-Answer yes, due d, answering the last Renew",
               "RenewNo": "Renew-Answer no, answering the last Renew", "Overdue": "Overdue, date the due date",
               "CheckedIn": "Checked-In"}
# The verb of each kind of action.
VERBS = {"Request": "request", "Yes": "reply", "No": "reply", "Cancel": "cancel", "Received": "receive",
         "Renew": "renew", "Returned": "return", "Conditions": "answer", "Promise": "answer", "NoSupply": "answer",
         "Expired": "expire", "CancelYes": "cancel-reply", "CancelNo": "cancel-reply", "Shipped": "ship",
         "Overdue": "overdue", "RenewYes": "renew-answer", "RenewNo": "renew-answer", "Recall": "recall",
         "CheckedIn": "check-in"}
# What a refusal for a date says, and the deeds of the source that a kind issues.
DATES = {"DateEarlier": "d is before today", "DateNotLater": "d is not after the due date",
         "NotDue": "today is not after the due date",
         "NotExpired": "the request has no expiry date, or today is not after it"}
DATED = {"Ship": "Shipped", "RenewAnswer": "RenewYes", "Overdue": "Overdue", "Expire": "Expired"}

# The conditions of a line beside its states, with the fact that a row asks for, or with none.
FACTS = {"k is at most accepted": "PASSED", "k is held": "HELD", "c is the last Cancel": "LAST_CANCEL",
         "message c of the requester is a Cancel": "WAS_CANCEL", "d is not the due date": "NOT_DUE",
         "c is the last Renew": "LAST_RENEW", "message c of the requester is a Renew": "WAS_RENEW",
         "without the checked-in mark": "UNMARKED", "with the checked-in mark": "", "the reply is yes": "",
         "the answer is yes with a date later than the due date": "LATER",
         "the answer is yes with a date that is not later": "", "the answer is no": "",
         "not declined": "UNDECLINED", "declined": "", "not received": "NOT_HERE", "received": "IS_HERE",
         "c is outstanding": "OUTSTANDING", "c is accepted": "ACCEPTED",
         "message c of the responder is an ILL-Answer conditional": "WAS_CONDITIONAL",
         "n is at most the last Cancel": "PAST_CANCEL", "n is at most the last Renew": "PAST_RENEW",
         "without the received mark": "UNMARKED", "with the received mark": ""}
# The conditions that hold of one of the two kinds of a line.
ONLY = {"the reply is yes": "Yes", "the answer is yes with a date later than the due date": "Yes",
        "the answer is yes with a date that is not later": "Yes", "the answer is no": "No"}
# What changes beside the state.
CHANGES = {"held k": "HOLDS", "held none": "FREES", "due date d": "DUE", "due date the new one": "DUE",
           "the checked-in mark is set": "MARK", "the request is kept": "KEEPS", "accepted c": "ACCEPTS",
           "and an ILL-Answer unfilled is issued": "ENDS", "last Cancel n": "CANCELS", "last Renew n": "RENEWS",
           "the received mark is set": "RECEIVES", "the record is unchanged": ""}
ANSWERS = {"Repeat": "Repeat", "Repeat (it is not compared with the one kept)": "Repeat", "Stale": "Stale",
           "Conflict with the present state": "Conflict"}

# A row: where it stands, and what it says: the kind, the masks of states and facts, what comes of it, and the mask of
# changes. A line of the document gives rows alike.
Row = collections.namedtuple("Row", "place kind states facts then changes")
Table = collections.namedtuple("Table", "role file heading words issues")
TABLES = [Table("requester", "actions", "2.4 Wishes", WISHES, WISH_ISSUES),
          Table("requester", "deliveries", "2.5 Deliveries", TO_REQUESTER, None),
          Table("responder", "actions", "3.4 Deeds", DEEDS, DEED_ISSUES),
          Table("responder", "deliveries", "3.5 Deliveries", TO_RESPONDER, None)]
KINDS = {("requester", "actions"): "RequesterKind", ("requester", "deliveries"): "ResponderKind",
         ("responder", "actions"): "ResponderKind", ("responder", "deliveries"): "RequesterKind"}
SECTION = {"requester": "2", "responder": "3"}


def need(found, place, what):
    """Returns what was found. If it is None, raises `Unread` with the place and the text `what`."""
    if found is None:
        raise Unread(f"{place}: {what}")
    return found


# The sources.

def read_states():
    """Returns the states by their names in the code, as their bit and their name in the document."""
    text = read(f"{CORE}/state.rt")
    body = need(re.search(r"pub enum State \{\n(.*?)\n\}", text, re.S), f"{CORE}/state.rt", "it has no states")[1]
    names = dict(re.findall(r'State::(\w+) => "([^"]+)"', text))
    variants = re.findall(r"^    (\w+),", body, re.M)
    return {variant: (1 << bit, names.get(variant, variant)) for bit, variant in enumerate(variants)}


def constants(path, known, states):
    """Returns the masks that a source declares, with those of `known`, by their names."""
    masks = dict(known)
    for name, said in re.findall(r"const (\w+): u16 = ([^;]*);", read(path)):
        masks[name] = or_of([term_of(term.strip(), masks, states, f"{path}: {name}") for term in said.split("|")])
    return masks


def or_of(masks):
    """Returns the bits of all masks."""
    result = 0
    for mask in masks:
        result |= mask
    return result


def term_of(term, masks, states, place):
    """Returns the mask that a term of an expression says."""
    shifted = re.fullmatch(r"1 << (?:State::(\w+) as u16|(\d+))", term)
    if shifted:
        return bit_of(shifted[1], states, place) if shifted[1] else 1 << int(shifted[2])
    if re.fullmatch(r"\d+|0x[0-9a-f]+", term):
        return int(term, 0)
    return need(masks.get(term), place, f"no mask {term}")


def bit_of(variant, states, place):
    """Returns the bit of a state that the code names."""
    return need(states.get(variant), place, f"no state {variant}")[0]


def mask_of(said, masks, place):
    """Returns the mask that an expression of names says."""
    return or_of([need(masks.get(term.strip()), place, f"no mask {term.strip()}") for term in said.split("|")])


def source_rows(table, masks, states):
    """Returns the rows of the array of a table, by kind, as the code finds them. `masks` are known by their names, and
    `states` are what `read_states` returns."""
    path = f"{CORE}/{table.role}/{table.file}.rt"
    text = read(path)
    array = need(re.search(r"const ROWS: \[Row<Kind>; (\d+)\] = \[\n(.*?)\n\];", text, re.S), path, "it has no rows")
    rows = [source_row(found, text, array.start(2), path, masks, states)
            for found in re.finditer(r"Row\(([^()]*(?:\([^()]*\))?[^()]*)\)", array[2])]
    if not len(rows) == int(array[1]) == array[2].count("Row("):
        raise Unread(f"{path}: an array of {array[1]} rows has {len(rows)}")
    begins = need(re.search(r"const BEGINNINGS: \[usize; \d+\] = \[([\d, ]*)\];", text), path, "it has no beginnings")
    places = [int(word) for word in begins[1].split(",")]
    return by_kind(rows, places, KINDS[table.role, table.file], path)


def source_row(found, text, start, path, masks, states):
    """Returns the row that a match `found` has. The array begins at the offset `start` of the text of the source."""
    place = f"{path}:{text.count(chr(10), 0, start + found.start()) + 1}"
    cells = [cell.strip() for cell in found[1].split(",") if cell.strip()]
    if len(cells) != 5:
        raise Unread(f"{place}: it is no row of five parts")
    kind, asked, facts, then, changes = cells
    to = re.fullmatch(r"To\((\w+)\)", then)
    said = [mask_of(cell, masks, place) for cell in (asked, facts, changes)]
    then = bit_of(to[1], states, place) if to else then
    return row_of(place, kind.removeprefix("Kind::"), said[0], said[1], then, said[2])


def row_of(place, kind, states, facts, then, changes):
    """Returns a `Row` of these parts. If its one state leads to itself, `then` is `Stay`."""
    return Row(place, kind, states, facts, "Stay" if then == states else then, changes)


def by_kind(rows, places, kinds, path):
    """Returns the rows of each kind, from one beginning to the next."""
    text = read(f"{CORE}/kind.rt")
    body = need(re.search(rf"pub enum {kinds} \{{\n(.*?)\n\}}", text, re.S), f"{CORE}/kind.rt", f"no {kinds}")[1]
    names = re.findall(r"^    (\w+),", body, re.M)
    if len(places) != len(names) + 1 or places[-1] != len(rows):
        raise Unread(f"{path}: the beginnings are not those of {len(names)} kinds and {len(rows)} rows")
    found = {name: rows[begin:end] for name, begin, end in zip(names, places, places[1:])}
    for name, own in found.items():
        if any(row.kind != name for row in own):
            raise Unread(f"{own[0].place}: the beginnings give the kind {name} a row of another")
    return found


def date_refusals():
    """Returns the refusal of each deed that its date forbids."""
    text = read(f"{CORE}/responder/actions.rt")
    body = need(re.search(r"fn check_date\(.*?\n\}", text, re.S), f"{CORE}/responder/actions.rt", "no check_date")[0]
    arms = re.findall(r"Deed::(\w+)(?: \{[^}]*\})? =>[\s{]*check\(.*Refusal::(\w+)\)", body)
    return {DATED.get(deed, deed): refusal for deed, refusal in arms}


# The document.

def section(heading):
    """Yields the lines of a section, each with its number."""
    number, inside = 0, False
    for number, line in enumerate(read(PAGE).splitlines(), 1):
        if line.startswith("#"):
            inside = line.lstrip("# ") == heading
        elif inside:
            yield number, line


def table_lines(heading):
    """Yields the cells of each line of the table of a section, as many as its head has, with the place of the line."""
    lines = [(f"{PAGE}:{number}", line[1:].rstrip().removesuffix("|").split("|"))
             for number, line in section(heading) if line.startswith("|")]
    for place, cells in lines[2:]:
        if len(cells) != len(lines[0][1]):
            raise Unread(f"{place}: it has {len(cells)} cells, and the head has {len(lines[0][1])}")
        yield place, [cell.strip() for cell in cells]


def later_states(role, names):
    """Returns the states of a role, and those of them that are SHIPPED or later: they stand from SHIPPED on."""
    listed = [(place, cells[0].split(", ")[0]) for place, cells in table_lines(f"{SECTION[role]}.2 Its states")]
    masks = [need(names.get(name), place, f"no state {name}") for place, name in listed]
    later = [name for _, name in listed].index("SHIPPED")
    return or_of(masks), or_of(masks[later:])


def conditions(cell, place, names, later):
    """Returns the mask of the states that a cell names, or of any, and its other conditions. `later` is the mask of
    SHIPPED or later."""
    said, states, others = cell, [], []
    words = {**dict.fromkeys(FACTS), "SHIPPED or later": later, "any other state": ANY, **names}
    while said:
        word = next((word for word in sorted(words, key=len, reverse=True) if said.startswith(word)), None)
        need(word, place, f"no condition: {said}")
        if word in FACTS:
            others.append(word)
        else:
            states.append(words[word])
        said = re.sub(r"^(, and |, | and | or )", "", said[len(word):])
    return (or_of(states) if states else ANY), others


def answer(cell, kind, place, names):
    """Returns what comes of a line: for each of its states, or for all (ANY), the answer, and the words of what
    changes."""
    if cell in ANSWERS:
        return [(ANY, ANSWERS[cell], [])]
    first, *changes = need(re.fullmatch(r"Taken: (.*)", cell), place, f"no answer: {cell}")[1].split(", ")
    choice = [re.fullmatch(r"(\S+) (on|from) (\S+)", part) for part in [first, *changes]]
    if all(choice):
        chosen = [found for found in choice if found[2] == "from" or kind.endswith(found[3].capitalize())]
        return [(need(names.get(found[3]), place, f"no state {found[3]}") if found[2] == "from" else ANY,
                 need(names.get(found[1]), place, f"no state {found[1]}"), []) for found in chosen]
    if first in names:
        return [(ANY, names[first], changes)]
    return [(ANY, "Stay", [first, *changes])]


def changed(words, masks, place):
    """Returns the mask of what these words change."""
    known = [need(CHANGES.get(word), place, f"no change: {word}") for word in words]
    return or_of([need(masks.get(name), place, f"the source has no {name}") for name in known if name])


def asked_facts(words, masks, place):
    """Returns the mask of the facts that these words ask for."""
    names = [FACTS[word] for word in words if FACTS[word]]
    return or_of([need(masks.get(name), place, f"the source has no {name}") for name in names])


def delivery_rows(table, masks, names, later):
    """Yields the rows that the lines of a table of deliveries say. `masks` and `names` have the masks of the source and
    of states by their names. `later` is the mask of SHIPPED or later."""
    kinds, before = [], None     # the kinds of the line above, and its states and facts without the answer
    for place, cells in table_lines(table.heading):
        if cells[0]:
            kinds = need(table.words.get(cells[0]), place, f"no message: {cells[0]}")
        where = cells[1].replace("the same states and c", before) if before else cells[1]
        states, others = conditions(where, place, names, later)
        before = re.sub(r", and the answer .*", "", where)
        wanted = next((ONLY[word] for word in others if word in ONLY), "")
        facts = asked_facts(others, masks, place)
        yield from (row_of(place, kind, states & of, facts, then, changed(changes, masks, place))
                    for kind in kinds if kind.endswith(wanted)
                    for of, then, changes in answer(cells[2], kind, place, names))


def action_rows(table, masks, names, later):
    """Yields the rows that the lines of a table of wishes or deeds say. A `;` in From parts two rows. The parameters
    are those of `delivery_rows`."""
    for place, cells in table_lines(table.heading):
        kind = need(table.words.get(cells[0]), place, f"no action: {cells[0]}")[0]
        to, *changes = cells[2].removesuffix(" (now declined)").split(", ")
        then = need(names.get(to), place, f"no state: {to}")
        issued = table.issues.get(kind, kind)
        if cells[3] != issued:
            raise Unread(f"{place}: {cells[0]} issues {cells[3]}, and not {issued}")
        for part in cells[1].split("; "):
            states, others = conditions(part, place, names, later)
            facts = asked_facts(others, masks, place)
            yield row_of(place, kind, states, facts, then, changed(changes, masks, place))


def picture_edges(role, names):
    """Returns the edges of the pictures of a role: the place, the label, and the two states."""
    aliases = {name.replace("-", "_").replace("/", "_"): mask for name, mask in names.items()}
    written = {}
    for number, line in section(f"{SECTION[role]}.3 Its states in a picture"):
        place = f"{PAGE}:{number}"
        text = re.fullmatch(r' +(\w+)\["([^"]+)"\]', line)
        edge = re.fullmatch(r" +([\w &]+) -->\|([^|]+)\| (\w+)", line)
        if text and aliases.get(text[1]) != names.get(text[2], -1):
            raise Unread(f"{place}: {text[1]} is not {text[2]}")
        if "--" in line and not edge:
            raise Unread(f"{place}: it is no edge")
        for begin in edge[1].split(" & ") if edge else []:
            ends = [need(aliases.get(name), place, f"no state {name}") for name in (begin, edge[3])]
            if (edge[2], *ends) in written:
                raise Unread(f"{place}: it has an edge again")
            written[edge[2], *ends] = place
    return written


def labelled(label, place):
    """Yields the kinds that a label names, each after the table that it is of."""
    for part in label.split(", or "):
        table = "actions" if part.startswith(("wish ", "deed ")) else "deliveries"
        for kind in need(LABELS.get(part), place, f"no label: {part}"):
            yield table, kind


# The comparison.

def shown_row(row, names, masks):
    """Returns what a row says, in the document's names of states and in the source's names of facts and changes."""
    states = "any state" if row.states == ANY else ", ".join(name for name, bit in names.items() if row.states & bit)
    then = next((f"To {name}" for name, bit in names.items() if bit == row.then), row.then)
    facts = [name for name in dict.fromkeys(FACTS.values()) if row.facts & masks.get(name, NONE)]
    changes = [name for name in dict.fromkeys(CHANGES.values()) if row.changes & masks.get(name, NONE)]
    return f"{states}; facts {', '.join(facts) or 'NONE'}; {then}; changes {', '.join(changes) or 'NONE'}"


def compare_rows(table, source, written, names, masks):
    """Returns the faults of a table: each kind has the rows of its lines, in their order. `source` has the rows of the
    source by kind, and `written` those of the document."""
    lines = collections.defaultdict(list)
    for row in written:
        lines[row.kind].append(row)
    faults = []
    for kind, rows in source.items():
        for one, other in zip(rows, lines[kind]):
            if one[1:] != other[1:]:
                faults.append(f"{one.place}: {kind}: {shown_row(one, names, masks)}; but {other.place} says "
                              f"{shown_row(other, names, masks)}")
        if len(rows) != len(lines[kind]):
            faults.append(f"{(rows + lines[kind])[-1].place}: the source has {len(rows)} rows of {kind}, and "
                          f"{PAGE}, {table.heading}, has {len(lines[kind])}")
    return faults


def edges_of(table, rows):
    """Yields the changes of state in the rows of a table."""
    for row in sum(rows.values(), []):
        if isinstance(row.then, int):
            for bit in range(16):
                if row.states & 1 << bit and 1 << bit != row.then:
                    yield (table, row.kind, 1 << bit, row.then), row.place


def compare_edges(role, changes, written, names):
    """Returns the faults of the pictures of a role: they have each change of state, and no other. `changes` are those
    of the rows, and `written` the edges of the pictures."""
    named = {bit: name for name, bit in names.items()}
    drawn = {(*kind, begin, end): place for (label, begin, end), place in written.items()
             for kind in labelled(label, place)}
    missing = [f"{place}: no picture of the {role} has {kind} from {named[begin]} to {named[end]}"
               for (table, kind, begin, end), place in changes.items() if (table, kind, begin, end) not in drawn]
    more = [f"{place}: the picture leads from {named[begin]} to {named[end]} by {kind}, and no row does"
            for (table, kind, begin, end), place in drawn.items() if (table, kind, begin, end) not in changes]
    return missing + more


def compare_states(role, states, rows, names):
    """Returns the faults of the list of states of a role: it has those that the rows name, and no other."""
    seen = or_of([mask for row in rows for mask in (row.states, row.then) if isinstance(mask, int) and mask != ANY])
    return [f"{PAGE}, {SECTION[role]}.2: {name} is " + ("no state of a row" if states & bit else "missing")
            for name, bit in names.items() if (states ^ seen) & bit]


def compare_verbs(role, rows, masks, names):
    """Returns the faults of the verbs of a role: each state has those of its rows, and no other; and each row has its
    line."""
    faults, listed = [], set()
    for place, cells in table_lines(f"{SECTION[role]}.2 Its states"):
        states, others = conditions(cells[0], place, names, NONE)
        facts = or_of(masks.get(FACTS[word], NONE) for word in others)
        verbs = {VERBS[row.kind] for row in rows if row.states & states and not row.facts & ~facts}
        listed |= {(states, verb) for verb in verbs}
        if verbs != set(filter(None, cells[2].split(", "))):
            faults.append(f"{place}: {cells[0]} has the verbs {', '.join(sorted(verbs)) or 'of no row'}")
    return faults + [f"{row.place}: {PAGE}, {SECTION[role]}.2, has no line of {name} with the verb {VERBS[row.kind]}"
                     for row in rows for name, bit in names.items()
                     if row.states & bit and (bit, VERBS[row.kind]) not in listed]


def compare_dates():
    """Returns the faults of the last cell of each deed."""
    refusals, faults = date_refusals(), []
    for place, cells in table_lines("3.4 Deeds"):
        refusal = refusals.get(DEEDS[cells[0]][0])
        wanted = f"`{refusal}`: {DATES.get(refusal)}" if refusal else ""
        if cells[4:] != [wanted]:
            faults.append(f"{place}: {cells[0]} is refused for its date by: {wanted or 'nothing'}")
    return faults


def check_role(role, states):
    """Returns the faults of a role, with the numbers of its rows and edges."""
    names = {name: bit for bit, name in states.values()}
    common = constants(f"{CORE}/table.rt", {}, states)
    common = constants(f"{CORE}/{role}/standing.rt", common, states)
    own, later = later_states(role, names)
    faults, changes, rows = [], {}, []
    for table in [table for table in TABLES if table.role == role]:
        masks = constants(f"{CORE}/{role}/{table.file}.rt", common, states)
        source = source_rows(table, masks, states)
        if table.issues:
            faults += compare_verbs(role, sum(source.values(), []), masks, names)
        said = action_rows if table.issues else delivery_rows
        faults += compare_rows(table, source, said(table, masks, names, later), names, masks)
        changes |= dict(edges_of(table.file, source))
        rows += sum(source.values(), [])
    written = picture_edges(role, names)
    faults += compare_edges(role, changes, written, names) + compare_states(role, own, rows, names)
    return faults, len(rows), len(written)


def compare():
    """Returns the faults of the tables, and how many rows and edges were compared."""
    states = read_states()
    checked = [check_role(role, states) for role in SECTION]
    faults = sum((found for found, _, _ in checked), []) + compare_dates()
    return faults, (f"{PAGE} and {CORE} have the same {sum(rows for _, rows, _ in checked)} rows, and "
                    + " and ".join(str(edges) for _, _, edges in checked) + " edges")
