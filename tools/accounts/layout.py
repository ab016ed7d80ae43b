"""The layout of recordings and accounts, in bytes. Numbers are little-endian.

An account: the magic, the number of its entries in 8 bytes, the entries, the length of the text in 8 bytes, and the text. An entry: its actor
in 4 bytes, its stamp in 8, a kind in one, and what belongs to the kind. A key is its parts one behind the other, 8 bytes for a number and 64
for a string with zeros behind it; a value likewise.
"""
import struct
from dataclasses import dataclass, replace

MAGIC = b"BACCT001"
TEXT_BYTES = 64
PARTS = 8
NUMBER, STRING = "number", "string"
GET, SET, DELETE, READ_ALL, CLEAR, ZERO, ADD, READ, CLEAR_OF, ZERO_OF, CROSS, CHECK, STOP, EMIT = range(1, 15)
KEYED = (GET, SET, DELETE)
SWEEPS = (READ_ALL, CLEAR, ZERO)
TABLE_SWEEPS = (READ, CLEAR_OF, ZERO_OF)


@dataclass(frozen=True)
class Map:
    """A map: the types of its keys' parts, and what it holds, which is a number, a string, or None for an aggregation."""

    keys: tuple
    holds: str | None


@dataclass(frozen=True)
class Step:
    """An entry: who made the step and when, its kind, the map, the key, the value or number, and the part, table or tick."""

    actor: int
    kind: int
    map: int = 0
    key: tuple = ()
    value: object = None
    place: int = 0
    stamp: int = 0

    def at(self, **others):
        """The same with other fields."""
        return replace(self, **others)


def value_bytes(value):
    """A number or a string of a key or a value."""
    if isinstance(value, int):
        return struct.pack("<Q", value % 2 ** 64)
    return value.encode().ljust(TEXT_BYTES, b"\0")


def key_bytes(key):
    """A key."""
    return b"".join(map(value_bytes, key))


def entry_bytes(step):
    """An entry."""
    head = struct.pack("<IQB", step.actor, step.stamp, step.kind)
    if step.kind in KEYED:
        return head + struct.pack("<I", step.map) + key_bytes(step.key) + (value_bytes(step.value) if step.kind == SET else b"")
    if step.kind in SWEEPS + TABLE_SWEEPS:
        return head + struct.pack("<II", step.map, step.place)
    if step.kind == ADD:
        return head + struct.pack("<I", step.map) + key_bytes(step.key) + value_bytes(step.value)
    return head + (struct.pack("<I", step.place) if step.kind == CROSS else b"")


def account_bytes(steps, text):
    """An account."""
    entries = b"".join(map(entry_bytes, steps))
    return MAGIC + struct.pack("<Q", len(steps)) + entries + struct.pack("<Q", len(text)) + text


def place_of(steps, index):
    """The offset at which an entry begins, or the text's length where the index is the number of entries."""
    return 16 + len(b"".join(map(entry_bytes, steps[:index])))


# ---- recordings

EVENT_TEXT = b"name: e\nID: 7\nformat:\n\tfield:long v;\toffset:8;\tsize:8;\tsigned:1;\n"
CALL_TEXT = b"name: sys_enter\nID: 21\nformat:\n\tfield:long id;\toffset:8;\tsize:8;\tsigned:1;\n"
SECOND = 10 ** 9


def event(time, value, comm=b"p", number=7):
    """An event at a time, with a number in its field."""
    return struct.pack("<QIIII16sIHxxIq", time, 1, 1, 0, 0, comm, 16, number, 1, value)


def mark(time, count):
    """A mark of lost events."""
    return struct.pack("<QQ", time, count)


def recording(cpus, system=b"t", text=EVENT_TEXT, end=SECOND):
    """A recording from 0 on with one format, and these entries of each CPU. With a mark it is of the second version."""
    marked = any(len(entry) == 16 for entries in cpus for entry in entries)
    out = struct.pack("<8sIIQQ", b"BTRACE02" if marked else b"BTRACE01", len(cpus), 1, 0, end)
    out += struct.pack("<H", len(system)) + system + struct.pack("<I", len(text)) + text
    for number, entries in enumerate(cpus):
        out += struct.pack("<II", number, len(entries))
        for entry in entries:
            out += (bytes([len(entry) == 16]) if marked else b"") + entry
    return out
