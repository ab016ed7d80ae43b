"""The containers BTRACE01 and BTRACE02: their limits, and how their parts are spelled.

docs/RECORDINGS.md describes them. Both have events; marks of lost events stand in the second alone, which tells events and marks apart by
a byte before each.
"""
import re
import struct
from dataclasses import dataclass
from typing import NamedTuple

from faults import Refused
from format_text import BadFormat, Layout, layout_of

MAGIC = b"BTRACE01"
MARKED_MAGIC = b"BTRACE02"
# The versions by their magics: without marks of lost events, and with them.
VERSIONS = {MAGIC: 1, MARKED_MAGIC: 2}
MOST_CPUS = 64
MOST_FORMATS = 4096
# Events and marks of all CPUs.
MOST_ENTRIES = 1_048_576
MOST_BYTES = 268_435_456

HEADER = struct.Struct("<8sIIQQ")
CPU = struct.Struct("<II")
EVENT = struct.Struct("<QIIII16sI")
# The parts of an event between its time and its payload's length: the process, the thread, the user, the group and the name.
WHO = struct.Struct("<IIII16s")
TIME = struct.Struct("<Q")
# In version 2 a byte before each entry tells what it is. A mark is that byte, a time and how many events were lost.
EVENT_KIND, MARK_KIND = 0, 1
EVENT_BYTE = bytes([EVENT_KIND])
MARK = struct.Struct("<BQQ")
MOST_COUNT = (1 << 64) - 1
LENGTH = struct.Struct("<I")
SYSTEM = re.compile(rb"[A-Za-z0-9_-]{1,64}")


class Lost(NamedTuple):
    """A mark: that so many events of a CPU were lost, as is known at a time."""

    time: int
    count: int

    def spelled(self):
        """The mark as it stands in a recording."""
        return MARK.pack(MARK_KIND, self.time, min(self.count, MOST_COUNT))


@dataclass(frozen=True)
class Format:
    """A tracepoint: its system, the text by which the kernel describes its records, and what that text says."""

    system: bytes
    text: bytes
    layout: Layout

    @property
    def name(self):
        """SYSTEM:EVENT."""
        return f"{self.system.decode()}:{self.layout.name.decode()}"


def format_of(system, text):
    """A format, or why it can't stand in a recording."""
    if not SYSTEM.fullmatch(system):
        raise Refused(f"the system {system.decode(errors='replace')!r} has no name that a recording can hold")
    try:
        return Format(system, text, layout_of(text))
    except BadFormat as fault:
        raise Refused(f"a format of {system.decode()} can't stand in a recording: {fault}") from fault


def test_formats(formats):
    """Refuses formats that can't stand together in a recording."""
    if len(formats) > MOST_FORMATS:
        raise Refused(f"there are {len(formats):,} tracepoints, and a recording holds {MOST_FORMATS:,}; name fewer")
    numbers, names = set(), set()
    for format in formats:
        if format.layout.number in numbers or format.name in names:
            raise Refused(f"{format.name}: another format has its ID or its name")
        numbers.add(format.layout.number)
        names.add(format.name)
    if head_bytes(formats, MOST_CPUS) + MARK.size * MOST_CPUS > MOST_BYTES:
        raise Refused(f"the formats leave no room for events in the {MOST_BYTES:,} bytes of a recording")


def spelled_format(format):
    """The bytes of a format."""
    return struct.pack("<H", len(format.system)) + format.system + struct.pack("<I", len(format.text)) + format.text


def head_bytes(formats, cpus):
    """How many bytes a recording has beside its events."""
    return HEADER.size + sum(6 + len(format.system) + len(format.text) for format in formats) + CPU.size * cpus
