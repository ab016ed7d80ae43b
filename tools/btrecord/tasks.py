"""Whose a thread is and what it is called, at each time of a recording.

What is known comes from /proc, looked at before and while the events are recorded, and from the kernel's own events: `task_newtask` and
`task_rename`, which tell of threads that lived only between two looks, and those of the calls that change a user or a group.
"""
from typing import NamedTuple

import users
from container import WHO
from users import CALLS, COMPAT, EXEC, NEW_NAMESPACE, UNKNOWN, Call

THREAD_OF_PROCESS = 0x10000  # CLONE_THREAD
NO_NAME = b"<...>"


class Task(NamedTuple):
    """A thread as an event shows it."""

    process: int
    user: int
    group: int
    name: bytes
    is_initial: bool = True

    def head(self, thread):
        """What of an event tells its thread, which has this number."""
        return WHO.pack(self.process, thread, self.user, self.group, self.name)


class Change(NamedTuple):
    """At this time a thread began, was renamed, was looked at, or called what may change its user. Parts that are None stay as they were."""

    time: int
    thread: int
    process: int = None
    user: int = None
    group: int = None
    name: bytes = None
    parent: int = None
    is_initial: bool = None
    call: Call = None


def text_of(field):
    """A name as a field of a record holds it: what stands before the first zero byte."""
    return field.split(b"\0", 1)[0]


class Tasks:
    """Threads as they were at a time. The changes come by time, and times are asked for in rising order.

    Whose user is not known has `nobody` as user and group.
    """

    def __init__(self, changes, nobody=UNKNOWN):
        self.changes = iter(changes)
        self.nobody = nobody
        self.next = next(self.changes, None)
        self.now = {}
        self.heads = {}
        self.unknown = set()
        self.without_user = set()

    def until(self, time):
        """The last time up to this one at which no thread has changed since now."""
        return min(time, self.next.time - 1) if self.next else time

    def go_to(self, time):
        """Takes all changes up to this time."""
        while self.next and self.next.time <= time:
            self.take(self.next)
            self.next = next(self.changes, None)

    def take(self, change):
        """Takes a change. A new thread has what its parent has, where nothing else is told."""
        old = self.now.get(change.thread if change.parent is None else change.parent)
        if change.call:
            self.take_call(change.call, old)
            return
        process = change.process
        if process is None:
            process = old.process if old else change.thread
        self.now[change.thread] = Task(
            process,
            change.user if change.user is not None else old.user if old else self.nobody,
            change.group if change.group is not None else old.group if old else self.nobody,
            change.name if change.name is not None else old.name if old else NO_NAME,
            change.is_initial if change.is_initial is not None else old.is_initial if old else True,
        )
        self.heads.pop(change.thread, None)

    def take_call(self, call, old):
        """Takes a call that may have changed a thread's user. A thread that execs has the number of its process from then on."""
        self.heads.pop(call.thread, None)
        if call.name == EXEC:
            before = self.now.get(call.argument)
            if before and old and call.argument != call.thread:
                self.now[call.thread] = old._replace(user=before.user, group=before.group, is_initial=before.is_initial)
            return
        old = old or Task(call.thread, self.nobody, self.nobody, NO_NAME)
        user, group, is_initial = users.after(old.user, old.group, old.is_initial, call)
        self.now[call.thread] = old._replace(user=user, group=group, is_initial=is_initial)

    def at(self, thread, cpu):
        """The thread now; of an idle CPU the kernel's `swapper`."""
        if thread == 0:
            return Task(0, 0, 0, b"swapper/%d" % cpu)
        if thread not in self.now:
            self.unknown.add(thread)
            return Task(thread, self.nobody, self.nobody, NO_NAME)
        found = self.now[thread]
        if self.nobody == UNKNOWN and UNKNOWN in (found.user, found.group):
            self.without_user.add(thread)
        return found

    def head(self, thread, cpu):
        """The thread now, as it stands in an event."""
        # Only idle threads differ by their CPU, and are kept under a number that no thread has.
        key = thread or -1 - cpu
        found = self.heads.get(key)
        if not found:
            found = self.heads[key] = self.at(thread, cpu).head(thread)
        return found


class Part(NamedTuple):
    """Where a field of a record stands."""

    offset: int
    size: int

    def bytes(self, record):
        """The field's bytes."""
        return record[self.offset:self.offset + self.size]

    def number(self, record):
        """The number that the field holds."""
        return int.from_bytes(self.bytes(record), "little")


def parts_of(format):
    """Where the fields of a format's records stand, by their names."""
    return {field.name: Part(field.offset, field.size) for field in format.layout.fields}


def task_changes(formats, windows):
    """What the events `task_newtask` and `task_rename` tell, by time. `windows` has their records.

    A new name holds behind the event that tells it.
    """
    by_id = {format.layout.number: (format.layout.name, parts_of(format)) for format in formats}
    for _, window in windows:
        found = []
        for when, record in in_order(window):
            name, parts = by_id.get(int.from_bytes(record[:2], "little"), (None, None))
            if name == b"task_newtask":
                thread, flags = parts[b"pid"].number(record), parts[b"clone_flags"].number(record)
                own = None if flags & THREAD_OF_PROCESS else thread
                found.append(Change(when, thread, own, name=text_of(parts[b"comm"].bytes(record)), parent=parts[b"common_pid"].number(record),
                                    is_initial=False if flags & NEW_NAMESPACE else None))
            elif name == b"task_rename":
                found.append(Change(when + 1, parts[b"pid"].number(record), name=text_of(parts[b"newcomm"].bytes(record))))
        yield from sorted(found, key=lambda change: change.time)


def in_order(window):
    """The records of a window by time, each a time and bytes; those of one time by their CPUs, and those of a CPU as they stand."""
    found = [(when, cpu, record) for cpu, of in window for when, record in zip(of.times, of.payloads)]
    return [(when, record) for when, _, record in sorted(found, key=lambda entry: entry[:2])]


def call_changes(formats, windows, looks):
    """What the events of calls that may change a user tell, by time, with the looks that came right behind them."""
    calls = Calls(formats)
    found = [call for _, window in windows for call in calls.of(in_order(window))]
    return [Change(call.time, call.thread, call=call) for call in users.with_looks(found, looks)]


class Renaming:
    """The event `task_rename` where it is among the recorded ones: itself it has the old name, and the entries of its CPU behind it the new."""

    def __init__(self, formats):
        found = next((format for format in formats if format.name == "task:task_rename"), None)
        self.number = found.layout.number.to_bytes(2, "little") if found else None
        self.parts = parts_of(found) if found else {}

    def heads(self, tasks, cpu, of):
        """What of each of a CPU's events tells its thread."""
        if self.number is None or not any(payload[:2] == self.number for payload in of.payloads):
            return [tasks.head(thread, cpu) for thread in of.threads]
        heads, renamed = [], {}
        for thread, payload in zip(of.threads, of.payloads):
            found = renamed.get(thread)
            if payload[:2] != self.number:
                heads.append(found.head(thread) if found else tasks.head(thread, cpu))
                continue
            heads.append(self.own(found or tasks.at(thread, cpu), thread, payload).head(thread))
            which = self.parts[b"pid"].number(payload)
            renamed[which] = (renamed.get(which) or tasks.at(which, cpu))._replace(name=text_of(self.parts[b"newcomm"].bytes(payload)))
        return heads

    def own(self, task, thread, payload):
        """The thread of an event: of one that tells its new name it has the old one."""
        if payload[:2] == self.number and b"oldcomm" in self.parts and self.parts[b"pid"].number(payload) == thread:
            return task._replace(name=text_of(self.parts[b"oldcomm"].bytes(payload)))
        return task


class Calls:
    """The events of calls that may change a thread's user, as calls."""

    def __init__(self, formats):
        self.by_id = {}
        for format in formats:
            name = format.layout.name.decode()
            kind, _, call = name.partition("_")[2].partition("_")
            if name in ("sched_process_exec", "sys_exit") or name.startswith("sys_") and call in CALLS:
                self.by_id[format.layout.number] = (name, kind, call, parts_of(format))
        self.open = {}

    def of(self, records):
        """The calls that came back well, of records that come by time: each a time and bytes."""
        for when, record in records:
            name, kind, call, parts = self.by_id.get(int.from_bytes(record[:2], "little"), (None, None, None, None))
            if name is None:
                continue
            thread = int.from_bytes(record[4:8], "little")
            if name == "sched_process_exec":
                yield Call(when, when, parts[b"pid"].number(record), EXEC, parts[b"old_pid"].number(record))
            elif kind == "enter":
                self.open[thread] = when, argument(parts, record)
            else:
                began, first = self.open.pop(thread, (when, None))
                found = Call(began, when, thread, call or COMPAT, first)
                if parts[b"ret"].number(record) == 0 and not users.leaves_all(found):
                    yield found


def argument(parts, record):
    """The first argument of a call, in 32 bits, or none where the call has none."""
    first = next((part for name, part in parts.items() if not name.startswith(b"common_") and name != b"__syscall_nr"), None)
    return first.number(record) & 0xFFFFFFFF if first else None
