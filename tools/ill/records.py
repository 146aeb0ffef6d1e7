"""The record of a desk, written as docs/FORMATS.md says."""
import hashlib

from ill.der import encoded
from ill.model import REQUESTER

DIGEST = 32  # the bytes at the end of a record of version 2

# The states of each role with their octets (FORMATS.md, section 12).
OCTETS = {"IDLE": 0, "PENDING": 1, "IN-PROCESS": 1, "CONDITIONAL": 2, "CANCEL-PENDING": 3, "CANCELLED": 4,
          "NOT-SUPPLIED": 5, "SHIPPED": 6, "RECEIVED": 7, "RENEW/PENDING": 8, "OVERDUE": 9, "RENEW/OVERDUE": 10,
          "NOT-RECEIVED/OVERDUE": 11, "RECALL": 12, "RETURNED": 13, "CHECKED-IN": 14}


def record(side):
    """Returns the record of one side, of version 1."""
    txn, parts = side.txn, b"ILL1" + bytes([side.role, OCTETS[side.state]])
    parts += b"".join(bytes([len(part)]) + part.encode() for part in txn)
    if side.role == REQUESTER:
        parts += bytes([side.held or 0, side.checked_in]) + (side.due or "0" * 8).encode()
    else:
        parts += bytes([side.accepted or 0, side.cancelled or 0, side.renewed or 0, side.received])
        parts += b"\1" + encoded(txn, side.request) if side.request else b"\0"
    return parts + bytes([len(side.issued)]) + b"".join(encoded(txn, apdu) for apdu in side.issued)


def with_digest(parts):
    """Returns these bytes with their digest after them."""
    return parts + hashlib.sha256(parts).digest()


def repaired(data):
    """Returns the record of a desk with the digest that fits, in place of the digest at its end."""
    return with_digest(data[:-DIGEST])


def desk_of(role, records):
    """Returns the record of a desk, of version 2, from the records of its sides."""
    parts = [b"ILL2", bytes([role]), len(records).to_bytes(2, "big")]
    for each in records:
        parts += [len(each).to_bytes(2, "big"), each]
    return with_digest(b"".join(parts))


def desk_record(role, sides):
    """Returns the record of a desk, of version 2, from the sides of the model."""
    return desk_of(role, [record(side) for side in sides])
