"""What a recording holds, as far as a script's points ask for it: its formats, its span, and which of them have events.

A recording is read by tools/btrecord's own code, and through a map of its file, so that it takes no memory. Nothing is told of one that is
damaged: the program refuses that.
"""
import contextlib
import mmap
import os
import re
import stat
import struct
import sys
import time
from dataclasses import dataclass

from btreplay.places import TOOLS
from btreplay.script import probes_of

if str(TOOLS / "btrecord") not in sys.path:
    sys.path.append(str(TOOLS / "btrecord"))

import reading  # noqa: E402  (the line above finds it)
from container import CPU, EVENT, EVENT_KIND, HEADER, MARK, MARK_KIND, MOST_BYTES, VERSIONS  # noqa: E402

# How scripts see fields; what else there is they cannot read.
SEEN = {"number": "number", "characters": "string", "dynamic characters": "string"}
LENGTH = struct.Struct("<I")
MAGIC_BYTES = 8
SOME_EVENTS = 65_536


@dataclass(frozen=True)
class Head:
    """What stands before a recording's entries: its formats, its span in nanoseconds, how many CPUs it has, where the entries begin, and the
    version."""

    formats: list
    span: int
    cpus: int
    behind: int
    version: int


@contextlib.contextmanager
def mapped(path):
    """The bytes of a file, or none where it is no regular file, is empty or longer than a recording, or cannot be read."""
    data = None
    with contextlib.suppress(OSError, ValueError):
        if stat.S_ISREG(os.stat(path).st_mode) and os.path.getsize(path) <= MOST_BYTES:
            with open(path, "rb") as file:
                data = mmap.mmap(file.fileno(), 0, access=mmap.ACCESS_READ)
    try:
        yield data
    finally:
        if data is not None:
            data.close()


def begins_a_recording(path):
    """Whether a regular file begins as recordings do."""
    with contextlib.suppress(OSError):
        if stat.S_ISREG(os.stat(path).st_mode):
            with open(path, "rb") as file:
                return file.read(MAGIC_BYTES) in VERSIONS
    return False


def head_of(data):
    """What stands before the events in a recording's bytes, or none where that is damaged."""
    try:
        version, cpus, formats, start, end = reading.read_header(data)
        found, behind = reading.read_formats(data, HEADER.size, formats)
    except reading.BadRecording:
        return None
    return Head(found, end - start, cpus, behind, version)


def head_of_file(path):
    """What stands before the events in a recording, or none."""
    with mapped(path) as data:
        return head_of(data) if data is not None else None


def without_events(data, head, groups, until):
    """The keys of those groups of IDs that no event belongs to. None are told where the recording is damaged, or `until` comes first."""
    left, at, size = dict(groups), head.behind, len(data)
    wanted = set().union(*left.values()) if left else set()
    with contextlib.suppress(struct.error, IndexError):
        for _ in range(head.cpus):
            _, count = CPU.unpack_from(data, at)
            at += CPU.size
            for entry in range(count):
                if head.version == 2:
                    if data[at] != EVENT_KIND:
                        if data[at] != MARK_KIND:
                            return set()
                        at += MARK.size
                        continue
                    at += 1
                payload = at + EVENT.size
                which = data[payload] | data[payload + 1] << 8
                if which in wanted:
                    left = {key: group for key, group in left.items() if which not in group}
                    wanted = set().union(*left.values())
                if not left or entry % SOME_EVENTS == 0 and time.monotonic() > until:
                    return set()
                at = payload + LENGTH.unpack_from(data, payload - LENGTH.size)[0]
        return set(left) if at == size else set()
    return set()


def entries(data, head):
    """The places of a recording's events: where each begins, where its payload does, and where it ends. A damaged one ends by a fault of its bytes."""
    at = head.behind
    for _ in range(head.cpus):
        _, count = CPU.unpack_from(data, at)
        at += CPU.size
        for _ in range(count):
            if head.version == 2:
                if data[at] == MARK_KIND:
                    at += MARK.size
                    continue
                at += 1
            payload = at + EVENT.size
            end = payload + LENGTH.unpack_from(data, payload - LENGTH.size)[0]
            if end > len(data):
                raise IndexError("an event ends behind the recording")
            yield at, payload, end
            at = end


def matcher(point):
    """Whether a format fits a point `tracepoint:SYSTEM:EVENT`, where `*` stands for any characters."""
    _, _, name = point.partition(":")
    found = re.compile(".*".join(map(re.escape, name.split("*"))))
    return lambda format: name.count(":") == 1 and found.fullmatch(format.name)


def formats_of(text, at, head):
    """The formats that the points of the probe at an offset of a script's text fit, of a recording with this head; none where there is no head."""
    found = [probe for probe in probes_of(text) if probe.tokens and probe.tokens[0].at <= at]
    points = [point for point, _ in found[-1].points if point[0] == "t" and ":" in point] if found and head else []
    return [format for format in head.formats if any(matcher(point)(format) for point in points)] if points else []
