"""Instances of tracefs: rings and enabled events of our own, which other users of tracefs don't notice."""
import os
import re
import time

from faults import WORDS, Refused
from spool import Spool

PREFIX = "btrecord-"
# The bits of an event's common_flags that tell of an interrupt: a hard one, a soft one, and one that can't be masked.
INTERRUPTS = 0x08 | 0x10 | 0x40
# Where the flags stand in a record.
FLAGS_AT = 2
# What happens between the thread that runs and another one.
BETWEEN_THREADS = {("sched", event) for event in ("sched_switch", "sched_waking", "sched_wakeup", "sched_wakeup_new")}
# The process, when it started (earlier versions left this out), and which of its two instances it is.
OWN_NAME = re.compile(r"btrecord-(\d+)(?:-(\d+))?(?:-tasks)?")
DEAD_STATES = "ZX"


def write(path, text, more=os.O_TRUNC):
    """Writes to a file of tracefs, or behind what it has where `more` is 0."""
    try:
        with open(os.open(path, os.O_WRONLY | os.O_CREAT | more), "w") as file:
            file.write(text)
    except OSError as error:
        raise Refused(f"{path}: {error.strerror}") from error


def contents(path):
    """A file of tracefs."""
    try:
        with open(path, "rb") as file:
            return file.read()
    except OSError as error:
        raise Refused(f"{path}: {error.strerror}") from error


def started(process, proc="/proc"):
    """When a process that lives started, in the kernel's ticks since it booted, or none where it is dead."""
    try:
        with open(f"{proc}/{process}/stat") as file:
            fields = file.read().rpartition(")")[2].split()
    except (FileNotFoundError, ProcessLookupError):
        return None
    return None if fields[0] in DEAD_STATES else int(fields[19])


def own_filter():
    """The expression that leaves out what this thread does, and keeps what interrupts it."""
    return f"common_pid != {os.getpid()} || common_flags & {INTERRUPTS}"


def own_name():
    """The name of this process's instance. With its start no later process has the same."""
    return f"{PREFIX}{os.getpid()}-{started(os.getpid())}"


def is_left(name, proc="/proc"):
    """Whether an instance of this name is btrecord's, and of a process that is dead."""
    found = OWN_NAME.fullmatch(name)
    if not found:
        return False
    start = started(found[1], proc)
    return start is None or found[2] is not None and int(found[2]) != start


def remove_left(top, proc="/proc"):
    """Removes the instances that dead btrecords left, and answers what is to be told of it. The kernel keeps one that is in use."""
    told = []
    for name in sorted(os.listdir(f"{top}/instances")):
        if is_left(name, proc):
            try:
                os.rmdir(f"{top}/instances/{name}")
                told.append(f"removed {top}/instances/{name}, which a btrecord that is dead left")
            except OSError as error:
                told.append(f"{top}/instances/{name}: {error.strerror}")
    return told


class Ring:
    """The ring of a CPU, and what was read of it."""

    def __init__(self, path, page_bytes, spool):
        self.pipe = os.open(f"{path}/trace_pipe_raw", os.O_RDONLY | os.O_NONBLOCK)
        self.stats = f"{path}/stats"
        self.page_bytes = page_bytes
        self.spool = spool

    def read(self, shape, is_tracing=False, most=None, due=float("inf")):
        """Keeps the pages that are there.

        While tracing is on, a page that is less than half full is the last one: the next would be as empty, and there would always be
        one more. The first is taken in any case, since it may be the rest of one that was read before. `most` pages are read, and none
        after `due`, for where the ring is filled as fast as it is read. Answers how many pages were read.
        """
        pages = 0
        while pages != most:
            try:
                page = os.read(self.pipe, self.page_bytes)
            except BlockingIOError:
                break
            if not page:
                break
            self.spool.add(page, lambda: self.counts()[2])
            pages += 1
            if is_tracing and (pages > 1 and 2 * shape.end(page) < len(page) or time.monotonic() >= due):
                break
        return pages

    def counts(self):
        """What the kernel counted: how many events were read, are still there, and were thrown away since there was no room."""
        found = self.found()
        return found.get("read events", 0), found.get("entries", 0), sum(found.get(label, 0) for label in ("overrun", "commit overrun", "dropped events"))

    def overwritten(self):
        """How many events the kernel wrote others over."""
        return self.found().get("overrun", 0)

    def found(self):
        """The numbers that the kernel shows of the ring."""
        return {label: int(number) for label, number in re.findall(r"^([a-z ]+): +(\d+)$", contents(self.stats).decode(), re.MULTILINE)}


class Instance:
    """An instance with some events, which goes away with its block; `stays` tells where it could not.

    Events that may not be enabled stand in `left_out`, with the cause. Each page that is read is shown to `see`.
    """

    def __init__(self, path, shape, page_bytes, see=lambda page: None):
        self.path = path
        self.see = see
        self.shape = shape
        self.page_bytes = page_bytes
        self.rings = {}
        self.left_out = {}
        self.stays = None

    def __enter__(self):
        try:
            os.mkdir(self.path)
        except OSError as error:
            raise Refused(f"{self.path}: {error.strerror}") from error
        return self

    def set_up(self, kilobytes, folder):
        """Makes the rings."""
        write(f"{self.path}/tracing_on", "0")
        write(f"{self.path}/trace_clock", "mono")
        try:
            write(f"{self.path}/buffer_size_kb", str(kilobytes))
        except Refused as refused:
            raise Refused(f"{refused}; ask for less by --buffer-kb") from refused
        for cpu in self.cpus():
            self.rings[cpu] = Ring(f"{self.path}/per_cpu/cpu{cpu}", self.page_bytes, Spool(folder, self.shape, self.see))
        self.most = kilobytes * 1024 // self.page_bytes + 2

    def follow(self, threads_of):
        """Has only those threads recorded that `threads_of` answers, and what they start. They are asked for until no more come."""
        write(f"{self.path}/options/event-fork", "1")
        done = set()
        while new := threads_of() - done:
            write(f"{self.path}/set_event_pid", " ".join(map(str, sorted(new))) + "\n", 0)
            done |= new

    def filter(self, pairs, expression):
        """Has the kernel keep only those events for which an expression holds. What it says against one is told."""
        for system, event in pairs:
            path = f"{self.path}/events/{system}/{event}/filter"
            try:
                write(path, expression)
            except Refused as refused:
                told = contents(path).decode(errors="replace").rstrip() if "parse_error" in contents(path).decode(errors="replace") else str(refused)
                raise Refused(f"--filter {system}:{event}: the kernel does not take it:\n{told}", WORDS) from refused

    def filter_own(self, pairs, expressions):
        """Has the kernel leave out what this thread does, and keep what interrupts it, beside the expression of a tracepoint where it has one.

        What happens between this thread and others is kept. Where the kernel does not take a filter, such events are left out later.
        """
        for system, event in pairs:
            if (system, event) in BETWEEN_THREADS:
                continue
            path, expression = f"{self.path}/events/{system}/{event}/filter", expressions.get((system, event))
            try:
                write(path, f"({expression}) && ({own_filter()})" if expression else own_filter())
            except Refused:
                # The kernel keeps no filter where it does not take one.
                write(path, expression) if expression else None

    def enable(self, pairs, go_on=lambda: None):
        """Enables events, and asks between two whether to go on. Answers those that are enabled."""
        done = []
        for system, event in pairs:
            go_on()
            try:
                with open(f"{self.path}/events/{system}/{event}/enable", "w") as file:
                    file.write("1")
                done.append((system, event))
            except OSError as error:
                self.left_out[f"{system}:{event}"] = error.strerror
        return done

    def cpus(self):
        """The numbers of the CPUs."""
        return sorted(int(entry[3:]) for entry in os.listdir(f"{self.path}/per_cpu") if re.fullmatch(r"cpu\d+", entry))

    def switch(self, on):
        """Begins or ends tracing."""
        write(f"{self.path}/tracing_on", "1" if on else "0")

    def drain(self, is_tracing=False, due=float("inf")):
        """Keeps what the rings hold; while tracing is on, at most as much as they can hold. Answers the most pages that one had."""
        return max(ring.read(self.shape, is_tracing, self.most if is_tracing else None, due) for ring in self.rings.values())

    def counts(self):
        """How many events of all CPUs were read, are still there, and were lost."""
        return [sum(counts) for counts in zip(*self.counts_of_cpus().values())] or [0, 0, 0]

    def counts_of_cpus(self):
        """The same of each CPU."""
        return {cpu: ring.counts() for cpu, ring in self.rings.items()}

    def overwritten(self):
        """How many events of all CPUs the kernel wrote others over."""
        return sum(self.overwritten_of_cpus().values())

    def overwritten_of_cpus(self):
        """The same of each CPU."""
        return {cpu: ring.overwritten() for cpu, ring in self.rings.items()}

    def spools(self):
        """What was kept of each CPU."""
        return {cpu: ring.spool for cpu, ring in self.rings.items()}

    def __exit__(self, *_):
        for ring in self.rings.values():
            os.close(ring.pipe)
        try:
            os.rmdir(self.path)
        except OSError as error:
            self.stays = f"the instance stays ({error.strerror}); remove it by: rmdir {self.path}"
