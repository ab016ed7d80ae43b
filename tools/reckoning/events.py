"""The events and marks of a recording in the order of their times, with their fields, as docs/RECORDINGS.md describes them."""
import re
import struct
from dataclasses import dataclass

HEADER = struct.Struct("<8sIIQQ")
EVENT = struct.Struct("<QIIII16sI")
MARK = struct.Struct("<QQ")
# The name of a mark of lost events, which no tracepoint has. Its one field is `count`.
LOST = "lost"
FIELD = re.compile(r"field:(.*?)(\w*)(\[\w*\])?;\s*offset:(\d+);\s*size:(\d+);\s*signed:([01]);")


@dataclass
class Event:
    """An event: its name as `sched:sched_switch`, the number of its CPU, who it was of, and its fields by name."""

    name: str
    cpu: int
    time: int
    pid: int
    tid: int
    comm: str
    fields: dict


def text_of(raw):
    """What stands before the first zero byte, at most 63 bytes."""
    return raw.split(b"\0")[0][:63].decode()


def fields_of(layout, payload):
    """The numbers and strings of a payload by name; what is neither is left out."""
    found = {}
    for kind, name, brackets, offset, size, signed in layout:
        raw = payload[offset:offset + size]
        if "__data_loc" in kind and "char" in kind:
            place = int.from_bytes(raw, "little")
            found[name] = text_of(payload[place & 0xFFFF:(place & 0xFFFF) + (place >> 16)])
        elif brackets and kind.split()[-1] == "char":
            found[name] = text_of(raw)
        elif not brackets:
            found[name] = int.from_bytes(raw, "little", signed=signed)
    return found


def layout_of(text):
    """The fields of a format text: kind, name, whether it is an array, offset, size and sign."""
    return [(kind, name, bool(brackets), int(offset), int(size), signed == "1")
            for kind, name, brackets, offset, size, signed in FIELD.findall(text)]


def read_formats(data, place, count):
    """The formats by their numbers, each as a name and a layout, and the place behind them."""
    formats = {}
    for _ in range(count):
        length, = struct.unpack_from("<H", data, place)
        system = data[place + 2:place + 2 + length].decode()
        place += 2 + length
        length, = struct.unpack_from("<I", data, place)
        text = data[place + 4:place + 4 + length].decode()
        place += 4 + length
        lines = text.splitlines()
        formats[int(lines[1].split(":")[1])] = f"{system}:{lines[0].split(':')[1].strip()}", layout_of(text)
    return formats, place


def read_recording(data):
    """The start of a recording and its events and marks by time; those of one time by CPU, and those of one CPU as they stand in the file."""
    magic, cpus, formats, start, _ = HEADER.unpack_from(data)
    if magic not in (b"BTRACE01", b"BTRACE02"):
        raise ValueError("no recording")
    formats, place = read_formats(data, HEADER.size, formats)
    events = []
    for _ in range(cpus):
        cpu, count = struct.unpack_from("<II", data, place)
        place += 8
        for _ in range(count):
            if magic == b"BTRACE02":
                place += 1
                if data[place - 1] == 1:
                    time, lost = MARK.unpack_from(data, place)
                    place += MARK.size
                    events.append(Event(LOST, cpu, time, 0, 0, "", {"count": lost}))
                    continue
            time, pid, tid, _, _, comm, length = EVENT.unpack_from(data, place)
            payload = data[place + EVENT.size:place + EVENT.size + length]
            place += EVENT.size + length
            name, layout = formats[int.from_bytes(payload[:2], "little")]
            events.append(Event(name, cpu, time, pid, tid, text_of(comm), fields_of(layout, payload)))
    return start, sorted(events, key=lambda event: event.time)
