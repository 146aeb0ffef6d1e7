"""Messages in the short form, written and read as docs/FORMATS.md says, and sealed letters of them."""
import hashlib
import hmac

# The types of messages, with their first octets, and those of the requester.
TYPES = {"ILL-Request": 0x61, "Shipped": 0x63, "ILL-Answer": 0x64, "Conditional-Reply": 0x65, "Cancel": 0x66,
         "Cancel-Reply": 0x67, "Received": 0x68, "Recall": 0x69, "Returned": 0x6A, "Checked-In": 0x6B, "Overdue": 0x6C,
         "Renew": 0x6D, "Renew-Answer": 0x6E, "Expired": 0x74}
ASKED = {"ILL-Request", "Conditional-Reply", "Cancel", "Received", "Renew", "Returned"}
RESULTS = ["conditional", "retry", "unfilled", "locations-provided", "will-supply", "hold-placed", "estimate"]

LONGEST = 361  # octets of a message


def digest(file):
    """Returns the digest under which a message file is quarantined. It is that of at most 362 octets, the first of a
    message file that is too long."""
    return hashlib.sha256(file[:LONGEST + 1]).hexdigest()


# ---- The writer

def element(tag, contents):
    """Returns an element: its tag, its length in the fewest octets, and what it has."""
    size = len(contents)
    length = [size] if size < 128 else [0x81, size] if size < 256 else [0x82, *divmod(size, 256)]
    return bytes([tag, *length]) + contents


def integer(tag, number):
    """Returns the element of a number with this tag. A number above 127 has a zero in front."""
    return element(tag, bytes([number] if number < 128 else [0, number]))


def encode(tag, transaction, number, *fields, group=b"G1"):
    """Returns a message of a loan, with this tag and number. `fields` are its further fields, encoded."""
    identity = element(0xA1, element(0x81, group) + element(0x82, transaction))
    return element(tag, element(0x80, b"\1") + identity + integer(0x82, number) + b"".join(fields))


def request(transaction, *fields, item=b"Maps"):
    """Returns an ILL-Request of a loan of the group G1. The further fields, encoded, stand before the item."""
    return encode(0x61, transaction, 1, *fields, element(0x86, item))


REQUESTER, RESPONDER = 0, 1  # the senders of letters


def sealed(key, sender, text):
    """Returns the letter in which a sender has sealed messages with a key."""
    body = b"ILLS" + bytes([sender]) + text
    return body + hmac.new(key, body, hashlib.sha256).digest()


def cancel(transaction):
    """Returns a Cancel with the number 2, of a loan of the group G1."""
    return encode(0x66, transaction, 2)


def shipped(transaction, number=1):
    """Returns a Shipped of a loan of the group G1, due on 15 March 2025."""
    return encode(0x63, transaction, number, element(0x85, b"20250315"))


def encoded(txn, apdu):
    """Returns the bytes of a message of the model. `txn` has the group and the transaction of its loan."""
    fields = []
    if "answers" in apdu:
        fields.append(integer(0x83, apdu["answers"]))
    if "result" in apdu:
        fields.append(element(0x84, bytes([RESULTS.index(apdu["result"]) + 1])))
    if "reply" in apdu:
        fields.append(element(0x84, b"\xff" if apdu["reply"] else b"\0"))
    if apdu.get("date") is not None:
        fields.append(element(0x85, apdu["date"].encode()))
    if "item" in apdu:
        fields.append(element(0x86, apdu["item"].encode()))
    group, transaction = (part.encode() for part in txn)
    return encode(TYPES[apdu["apdu"]], transaction, apdu["number"], *fields, group=group)


# ---- The reader

def size_of(row):
    """Returns the size of the message that is a prefix of the bytes `row`, as its length octets say. Returns None if
    these are cut."""
    longer = row[1] - 0x80 if len(row) > 1 and row[1] > 0x80 else 0
    if len(row) < 2 + longer:
        return None
    return 2 + longer + (int.from_bytes(row[2:2 + longer], "big") if longer else row[1])


def is_whole(message):
    """Returns true if bytes are one message: as long as its length says."""
    return size_of(message) == len(message)


def messages_of(row):
    """Returns a list of the whole messages with which the bytes `row` begin, and the bytes after them."""
    messages = []
    while (size := size_of(row)) is not None and size <= len(row):
        messages.append(row[:size])
        row = row[size:]
    return messages, row


def parts_of(row):
    """Returns the whole messages with which the bytes `row` begin. If bytes stand after them, these come last in the
    list."""
    messages, rest = messages_of(row)
    return [*messages, rest] if rest else messages
