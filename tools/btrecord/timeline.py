"""A recording as a timeline for a trace viewer: JSON of the trace event format, as chrome://tracing and ui.perfetto.dev read it.

Each CPU shows which thread it runs, and its interrupts; each thread its system calls, and what else begins and ends; block requests
stand apart. What neither begins nor ends is a mark. Times are in microseconds from the recording's start.
"""
import json
import re

from reading import Mark, by_time
from values import shown, values_of

# Numbers of processes that Linux does not give (they are below 2^22), for what belongs to no process.
CPUS, DEVICES = 1 << 23, (1 << 23) + 1
MOST_REQUESTS = 1 << 16
# A viewer's numbers have 53 bits; what is greater is text.
MOST_EXACT = 1 << 53
# The ends of names between which something lasts.
SPANS = [("sys_enter", "sys_exit"), ("_entry", "_exit"), ("_enter", "_exit"), ("_start", "_end"), ("_begin", "_end")]
# What is done on a CPU for no thread of its own.
OF_CPU = re.compile(r"irq|irq_vectors|timer|softirq|tasklet|nmi|ipi")
# Fields of which both ends of a span have the same number.
KEYS = ("id", "irq", "vec", "vector", "timer", "hrtimer", "work", "nr", "__syscall_nr")


def microseconds(nanoseconds):
    """A time as JSON has it."""
    return f"{nanoseconds // 1000}.{nanoseconds % 1000:03}"


class Kind:
    """What is known of the events of a format: their fields, and whether they begin or end something."""

    def __init__(self, format, names):
        self.system = format.system.decode()
        self.name = format.layout.name.decode()
        self.values = values_of(format.layout)
        self.what, self.is_begin, self.is_end = self.name, False, False
        self.is_switch = (self.system, self.name) == ("sched", "sched_switch")
        self.request = self.name if self.system == "block" and self.name in ("block_rq_issue", "block_rq_complete") else None
        for begin, end in SPANS:
            if begin in self.name and f"{self.system}:{self.name.replace(begin, end, 1)}" in names:
                self.what, self.is_begin = self.name.replace(begin, "", 1), True
            elif end in self.name and f"{self.system}:{self.name.replace(end, begin, 1)}" in names:
                self.what, self.is_end = self.name.replace(end, "", 1), True
            if self.is_begin or self.is_end:
                break
        self.what = self.what.strip("_") or "syscall"
        self.is_of_cpu = bool(OF_CPU.fullmatch(self.system))

    def fields(self, payload):
        """The fields of an event: numbers that a viewer holds, and texts."""
        found = {}
        for value in self.values:
            read = value.of(payload)
            is_number = isinstance(read, int) and abs(read) < MOST_EXACT and not value.is_pointer
            found[value.name] = read if is_number else value.text(payload)
        return found

    def label(self, fields):
        """What a span is called: what lasts, and its number where it has one."""
        return next((f"{self.what} {fields[key]}" for key in ("name", "id", "irq", "vec") if key in fields), self.what)


class Timeline:
    """Makes the events of the viewer from those of a recording, which come by time."""

    def __init__(self, contents):
        names = {format.name for format in contents.formats}
        self.kinds = {format.layout.number: Kind(format, names) for format in contents.formats}
        self.start, self.end = contents.start, contents.end
        self.running = {}
        self.switched = set()
        self.open = {}
        self.cut_short = set()
        self.requests = {}
        self.threads = {}
        self.tracks = {}

    def spelled(self, phase, track, time, name, system="", fields=None, more=""):
        """An event of the viewer."""
        return (f'{{"ph":"{phase}","pid":{track[0]},"tid":{track[1]},"ts":{microseconds(time - self.start)},"name":{json.dumps(name)},'
                f'"cat":"{system}"{more},"args":{json.dumps(fields or {})}}}')

    def span(self, track, begin, end, name, system, fields):
        """Something that lasts."""
        return self.spelled("X", track, begin, name, system, fields, f',"dur":{microseconds(end - begin)}')

    def track_of(self, kind, event):
        """Where an event stands: at its CPU's interrupts, or at its thread. Idle threads all have the number 0, so theirs is the CPU."""
        if kind.is_of_cpu or event.thread == 0:
            track = CPUS, 2 * event.cpu + 2
            self.tracks[track] = f"cpu {event.cpu} interrupts"
            return track
        self.threads[event.process, event.thread] = event.name
        return event.process, event.thread

    def take(self, event, payload):
        """The events of the viewer that an event of the recording makes."""
        kind = self.kinds[payload[0] | payload[1] << 8]
        fields = kind.fields(payload)
        if kind.is_switch and "next_pid" in fields and "next_comm" in fields:
            yield from self.switch(event, fields)
        elif kind.request and "sector" in fields and isinstance(fields.get("dev"), int) and fields["dev"] >= 0:
            yield from self.request(kind, event, fields)
        elif kind.is_begin:
            track = self.track_of(kind, event)
            self.open.setdefault(track, []).append((self.key(kind, fields), event.time, kind.label(fields), kind.system, fields))
        elif kind.is_end:
            yield from self.close(self.track_of(kind, event), self.key(kind, fields), kind, event, fields)
        else:
            yield self.spelled("i", self.track_of(kind, event), event.time, kind.name, kind.system, fields, ',"s":"t"')

    def lost(self, mark):
        """What tells of lost events, at the CPU that lost them."""
        track = CPUS, 2 * mark.cpu + 1
        self.tracks[track] = f"cpu {mark.cpu}"
        count = mark.count if mark.count < MOST_EXACT else str(mark.count)
        return self.spelled("i", track, mark.time, "lost events", "btrecord", {"count": count}, ',"s":"t"')

    def key(self, kind, fields):
        """What both ends of a span have in common."""
        return kind.system, kind.what, next((fields[key] for key in KEYS if key in fields), None)

    def close(self, track, key, kind, event, fields):
        """Ends a span, and with it those that began in it and did not end: a viewer wants spans one in the other."""
        stack = self.open.get(track, [])
        if not any(open_key == key for open_key, *_ in stack):
            if (track, key) not in self.cut_short:
                yield self.spelled("i", track, event.time, kind.name, kind.system, fields, ',"s":"t"')
            self.cut_short.discard((track, key))
            return
        while stack:
            found, begin, name, system, first = stack.pop()
            if found == key:
                last = {field if field not in first else f"end {field}": value for field, value in fields.items() if field not in KEYS}
                yield self.span(track, begin, event.time, name, system, {**first, **last})
                return
            self.cut_short.add((track, found))
            yield self.span(track, begin, event.time, name, system, first)

    def switch(self, event, fields):
        """A CPU runs another thread."""
        track = CPUS, 2 * event.cpu + 1
        self.tracks[track] = f"cpu {event.cpu}"
        yield from self.stop(event.cpu, event.time, fields)
        if fields["next_pid"]:
            self.running[event.cpu] = event.time, str(fields["next_comm"]), fields["next_pid"]

    def stop(self, cpu, time, fields):
        """What a CPU ran until now. The one that it ran from the start on is known by the switch away from it."""
        begin, name, thread = self.running.pop(cpu, (None, None, None))
        if begin is None and cpu not in self.switched and fields.get("prev_pid") and "prev_comm" in fields:
            begin, name, thread = self.start, str(fields["prev_comm"]), fields["prev_pid"]
        self.switched.add(cpu)
        if begin is not None:
            ends = {key: fields[key] for key in ("prev_state", "prev_prio") if key in fields}
            yield self.span((CPUS, 2 * cpu + 1), begin, time, name, "sched", {"tid": thread, **ends})

    def request(self, kind, event, fields):
        """A block request goes to its device, or comes back from it."""
        key = fields["dev"], fields["sector"]
        track = DEVICES, fields["dev"]
        self.tracks[track] = f"block device {fields['dev'] >> 20}:{fields['dev'] & 0xFFFFF}"
        opened = self.requests.pop(key, None)
        if kind.request == "block_rq_issue":
            if len(self.requests) == MOST_REQUESTS:
                del self.requests[next(iter(self.requests))]
            self.requests[key] = name, _ = str(fields.get("rwbs", "request")), event.time
            yield self.spelled("b", track, event.time, name, "block", fields, f',"id":"{key[0]}:{key[1]}:{event.time}"')
        elif opened:
            name, begin = opened
            yield self.spelled("e", track, event.time, name, "block", fields, f',"id":"{key[0]}:{key[1]}:{begin}"')

    def finish(self):
        """What lasts at the end of the recording, and the names of all tracks."""
        for cpu in list(self.running):
            yield from self.stop(cpu, self.end, {})
        for track, stack in self.open.items():
            for _, begin, name, system, fields in stack:
                yield self.span(track, begin, self.end, name, system, {**fields, "end": "not in the recording"})
        for process, name in [(CPUS, "CPUs"), (DEVICES, "block devices")]:
            yield named("process", process, 0, name)
        for (process, place), name in sorted(self.tracks.items()):
            yield named("thread", process, place, name)
        processes = {}
        for (process, thread), name in sorted(self.threads.items()):
            yield named("thread", process, thread, shown(name))
            if process == thread or process not in processes:
                processes[process] = shown(name)
        for process, name in processes.items():
            yield named("process", process, 0, name)


def named(what, process, thread, name):
    """The name of a track or of a group of tracks."""
    return f'{{"ph":"M","pid":{process},"tid":{thread},"name":"{what}_name","args":{{"name":{json.dumps(name)}}}}}'


def timeline(data, contents, selection):
    """The text of the whole timeline, part by part."""
    made = Timeline(contents)
    made.start, made.end = selection.start, selection.end
    yield f'{{"displayTimeUnit":"ns","otherData":{{"start_ns":"{selection.start}","end_ns":"{selection.end}"}},"traceEvents":[\n'
    between = ""
    for event in by_time(data, contents):
        if isinstance(event, Mark):
            if selection.takes_mark(event):
                yield between + made.lost(event)
                between = ",\n"
        elif selection.takes(data, event):
            for spelled in made.take(event, data[event.payload:event.end]):
                yield between + spelled
                between = ",\n"
    for spelled in made.finish():
        yield between + spelled
        between = ",\n"
    yield "\n]}\n"
