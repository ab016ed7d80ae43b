"""Recording: what comes goes to files without names, and is put together when the time is over."""
import contextlib
import heapq
import os
import resource
import sys
import tempfile
import time
from bisect import bisect_left
from collections import Counter
from dataclasses import dataclass, field

import container
from assembly import Assembly
from behind import Behind
from command import Command
from container import Lost, format_of, test_formats
from faults import WORDS, WRITE, Ended, Refused, of_file
from instance import FLAGS_AT, INTERRUPTS, Instance, contents, own_name, remove_left, started, write
from latest import RollingLooks, fits_from, whole_from
from life import Silence, Signs, told_growing, told_rolling, told_start
from looks import Looks
from ring import Losses, Records, page_shape
from signals import Signals, name_of
from spool import windows
from tasks import Renaming, Tasks, call_changes, task_changes
from tracepoints import chosen, matching
from users import CALLS, COMPAT_FILTER, COMPAT_SETTINGS, UNKNOWN

PLACES = ["/sys/kernel/tracing", "/sys/kernel/debug/tracing"]
# What tells of threads: their beginnings and names, their execs, and the calls that may change their users.
TASK_EVENTS = [("task", "task_newtask"), ("task", "task_rename"), ("sched", "sched_process_exec")]
CALL_EVENTS = [("syscalls", f"sys_{side}_{call}") for call in CALLS for side in ("enter", "exit")]
COMPAT_EVENT = ("raw_syscalls", "sys_exit")
TASK_KILOBYTES = 1024
LEAST_KILOBYTES, MOST_KILOBYTES = 64, 1_048_576
ROUND_SECONDS = 0.025
LOOK_SECONDS = 0.25
# Where a round finds more than this part of a ring filled, the next one follows at once.
PRESSING = 8
# A look at /proc takes at most this share of the time.
LOOK_SHARE = 1 / 20
# A ring has at least so many bytes for an event, and a recording so many more than the ring's records have in all.
LEAST_RING_BYTES = 12
MORE_BYTES = 24


def nanoseconds():
    """The clock of the instances."""
    return time.clock_gettime_ns(time.CLOCK_MONOTONIC)


def tracefs():
    """Where tracefs is."""
    if os.geteuid() != 0:
        raise Refused("recording needs root")
    for place in PLACES:
        if os.path.exists(f"{place}/instances"):
            return place
    raise Refused(f"there is no tracefs: mount -t tracefs nodev {PLACES[0]}")


def page_bytes(top):
    """How long a page of the ring buffer is."""
    path = f"{top}/buffer_subbuf_size_kb"
    kilobytes = int(contents(path)) if os.path.exists(path) else 0
    return max(os.sysconf("SC_PAGE_SIZE"), 1024 * kilobytes)


def test_kilobytes(kilobytes):
    """Refuses rings that would take more than half of the memory that is free."""
    with open("/proc/meminfo") as file:
        free = next(int(line.split()[1]) for line in file if line.startswith("MemAvailable:"))
    most = min(MOST_KILOBYTES, free // 2 // os.cpu_count())
    if kilobytes > most:
        raise Refused(f"--buffer-kb {kilobytes}: from {LEAST_KILOBYTES} to {most} for each of {os.cpu_count()} CPUs, half of the free memory", WORDS)


@dataclass
class Recorded:
    """What is known of a recording when its time is over. Times are in nanoseconds; `full_at` is when nothing more was kept.

    Of each CPU it is known how many events were read, were lost, and came when nothing more was kept.
    """

    start: int = 0
    end: int = 0
    full_at: int = None
    read: dict = field(default_factory=dict)
    lost: dict = field(default_factory=dict)
    uncounted: dict = field(default_factory=dict)
    tasks_lost: int = 0
    overwritten: int = 0
    signal: int = None
    cause: str = None


class Recorder:
    """Keeps what an instance with the wanted events holds, and one with the events of tasks beside it."""

    def __init__(self, main, tasks, looks, signals, target=None, signs=None):
        self.main = main
        self.tasks = tasks
        self.looks = looks
        self.behind = None
        self.tell_start = lambda: None
        self.signals = signals
        self.target = target or Target()
        self.signs = signs or Silence()
        self.done = Recorded()
        self.is_enough = False
        self.is_pressed = False
        self.next_look = 0

    def go_on(self):
        """Ends here where a signal came."""
        came = self.signals.wait(0)
        if came:
            raise Ended(came, name_of(came))

    def run(self, seconds, steps):
        """Records for so many seconds, until a signal comes, or until the target has ended.

        Once nothing more is kept, steps of what is to be done then are made.
        """
        self.tasks.switch(True)
        self.looks.look_first()
        self.done.start = nanoseconds()
        began = time.monotonic()
        due = began + seconds if seconds else float("inf")
        self.main.switch(True)
        self.tell_start()
        self.target.begin()
        while not self.done.signal and not self.done.cause and time.monotonic() < due:
            is_busy = next(steps, None) if self.done.full_at else self.is_pressed
            self.done.cause = self.target.ended()
            self.done.signal = self.signals.wait(0 if is_busy or self.done.cause else min(ROUND_SECONDS, due - time.monotonic()))
            if not self.done.full_at and not self.done.signal:
                self.round(due)
        self.main.switch(False)
        self.signs.close()
        self.done.end = nanoseconds()
        self.tasks.switch(False)
        self.target.end()
        if not self.done.full_at:
            self.main.drain()
            self.drain_tasks()
        self.count()

    def round(self, due):
        """Keeps what is there now. Where the last round left more than a recording holds, this one has all from before it, and is the last."""
        now = nanoseconds()
        self.is_pressed = self.main.drain(True, due) > self.main.most / PRESSING
        if sum(ring.spool.bytes for ring in self.tasks.rings.values()) < container.MOST_BYTES:
            self.drain_tasks(True, due)
        self.look(due)
        if self.signs.is_due():
            self.show()
        if self.is_enough:
            self.signs.close()
            self.done.full_at = now
            self.done.lost = {cpu: lost for cpu, (_, _, lost) in self.main.counts_of_cpus().items()}
            self.tasks.switch(False)
            self.drain_tasks()
            print(f"btrecord: the recording is full after {(now - self.done.start) / 1e9:.3f} s; what comes now is only counted", file=sys.stderr)
        self.is_enough = self.holds_enough()

    def drain_tasks(self, is_tracing=False, due=float("inf")):
        """Keeps what is told of threads, and looks right behind the calls that may have changed their users."""
        self.tasks.drain(is_tracing, due)
        if self.behind:
            until = min(due, time.monotonic() + LOOK_SECONDS)
            self.behind.look(lambda: time.monotonic() >= until)

    def look(self, due):
        """Looks at the threads that live, where it is time to: at those that are new, or at all where no events tell of their users."""
        if time.monotonic() >= self.next_look:
            began = time.monotonic()
            if not self.behind:
                self.looks.known = set()
            self.looks.look(None, min(due, began + LOOK_SECONDS))
            self.next_look = time.monotonic() + max(LOOK_SECONDS, (time.monotonic() - began) / LOOK_SHARE)

    def show(self):
        """Shows how far the recording is."""
        read, entries, lost = self.main.counts()
        kept = sum(ring.spool.bytes for ring in self.main.rings.values())
        self.signs.show(told_growing(read + entries, kept + MORE_BYTES * read, lost))

    def holds_enough(self):
        """Whether what is kept so far is all that a recording holds."""
        kept = sum(ring.spool.bytes for ring in self.main.rings.values())
        if kept < min(LEAST_RING_BYTES * container.MOST_ENTRIES, container.MOST_BYTES // 4):
            return False
        events = self.main.counts()[0]
        return events >= container.MOST_ENTRIES or kept + MORE_BYTES * events >= container.MOST_BYTES

    def count(self):
        """What the kernel counted; behind the time at which the recording was full nothing is lost, but not kept."""
        counts = self.main.counts_of_cpus()
        self.done.tasks_lost = self.tasks.counts()[2]
        self.done.read = {cpu: read for cpu, (read, _, _) in counts.items()}
        if self.done.full_at:
            self.done.uncounted = {cpu: entries + lost - self.done.lost[cpu] for cpu, (_, entries, lost) in counts.items()}
        else:
            self.done.lost = {cpu: lost for cpu, (_, _, lost) in counts.items()}

    def losses(self):
        """What each CPU lost; from now on its records have marks of it."""
        found = {}
        for cpu, spool in self.main.spools().items():
            spool.has_marks, found[cpu] = True, spool.losses
            spool.losses.settle(self.done.lost[cpu])
        return found


class LatestRecorder(Recorder):
    """Leaves what comes in the kernel's rings, where later events overwrite earlier ones, and keeps what is there at the end."""

    def round(self, due):
        """Looks at the threads alone."""
        self.look(due)
        if self.signs.is_due():
            self.show()

    def show(self):
        """Shows what there is."""
        _, entries, lost = self.main.counts()
        overwritten = self.main.overwritten()
        self.signs.show(told_rolling(entries, overwritten, lost - overwritten))

    def count(self):
        """What the kernel counted. What was overwritten is not lost, since later events were wanted."""
        counts, overwritten = self.main.counts_of_cpus(), self.main.overwritten_of_cpus()
        self.done.tasks_lost = self.tasks.counts()[2] - self.tasks.overwritten()
        self.done.read = {cpu: read for cpu, (read, _, _) in counts.items()}
        self.done.overwritten = sum(overwritten.values())
        self.done.lost = {cpu: lost - overwritten[cpu] for cpu, (_, _, lost) in counts.items()}

    def losses(self):
        """What each CPU lost. Its pages tell of events that later ones overwrote, which is no loss."""
        return {cpu: Losses(counted=lost) for cpu, lost in self.done.lost.items()}


class Target:
    """Whose end is also the recording's: of a command, of some processes, or nobody's."""

    def __init__(self, command=None, processes=()):
        self.command = command
        self.starts = {process: started(process) for process in processes}
        for process, start in self.starts.items():
            if start is None:
                raise Refused(f"--pid {process}: there is no such process", WORDS)

    def threads(self):
        """The threads that are recorded, where not all are."""
        if self.command:
            return {self.command.process}
        found = set()
        for process in self.starts:
            with contextlib.suppress(FileNotFoundError, ProcessLookupError):
                found |= set(map(int, os.listdir(f"/proc/{process}/task")))
        return found

    def begin(self):
        """Begins the command."""
        if self.command:
            self.command.go()

    def ended(self):
        """How it ended, or nothing while it lives."""
        if self.command:
            return self.command.told() if self.command.has_ended() else None
        if self.starts and all(started(process) != start for process, start in self.starts.items()):
            return "all of its processes ended" if len(self.starts) > 1 else f"process {next(iter(self.starts))} ended"
        return None

    def end(self):
        """Has the command end."""
        if self.command:
            self.command.end()


@dataclass
class Asked:
    """What to record.

    Patterns of tracepoints, for how many seconds (none: until a signal comes), with rings of so many kilobytes; only what some processes
    or a command do, but for a command with `is_all`; only events for which the expression of a pattern holds; and of all events the latest.
    Marks of lost events are made unless `with_marks` is not set.
    """

    patterns: list
    seconds: float
    kilobytes: int
    top: str = None
    processes: list = ()
    command: list = ()
    is_all: bool = False
    filters: list = ()
    keeps_latest: bool = False
    with_marks: bool = True
    tell: object = None

    @property
    def is_of_some(self):
        """Whether only some threads are recorded."""
        return bool(self.processes or self.command and not self.is_all)


@dataclass
class Made:
    """What stands in the output, what is told of it, and the status that the program ends with."""

    assembly: Assembly
    lost: int
    notes: list
    status: int = 0
    signal: int = None


class Joining:
    """Puts the events into an assembly, with what is known of their threads when they came."""

    def __init__(self, recorder, texts, formats, folder, with_marks=True):
        self.recorder = recorder
        self.texts = texts
        self.formats = formats
        self.folder = folder
        self.with_marks = with_marks
        self.assembly = None
        self.own = 0
        self.renaming = Renaming(formats)
        self.handled = Counter()
        self.begin = 0
        self.before = Counter()

    def keep_latest(self):
        """Leaves out what is before the time from which on all events of all CPUs are there, and fit."""
        main = self.recorder.main
        cpus = len(cpus_of(main))
        room = container.MOST_BYTES - container.head_bytes(self.formats, cpus)
        marks = cpus if self.with_marks and any(self.recorder.done.lost.values()) else 0
        self.begin = max(whole_from(main), fits_from(main.spools(), room, self.recorder.go_on, marks))

    def later(self, window):
        """Of the events of some CPUs those that are not left out."""
        if not self.begin:
            return window
        found = []
        for cpu, of in window:
            first = bisect_left(of.times, self.begin)
            self.before[cpu] += first
            found.append((cpu, Records(of.times[first:], of.threads[first:], of.payloads[first:])))
        return [(cpu, of) for cpu, of in found if of.times]

    def steps(self):
        """Puts the events of a short span of time into it, and answers that there may be more, until all are in it that fit."""
        done, main = self.recorder.done, self.recorder.main
        self.assembly = Assembly(self.formats, cpus_of(main), self.folder, self.with_marks)
        self.losses = self.recorder.losses()
        of_tasks, looks = self.recorder.tasks.spools(), self.recorder.looks
        of_calls = call_changes(self.texts, windows(of_tasks), looks.behind)
        self.tasks = Tasks(heapq.merge(looks.changes(), task_changes(self.texts, windows(of_tasks)), of_calls, key=lambda change: change.time))
        latest = done.full_at or float("inf")
        for until, found in windows(main.spools(), lambda time: self.tasks.until(min(time, latest))):
            found = self.later(found)
            self.assembly.take_window([(cpu, of.times, self.renaming.heads(self.tasks, cpu, of), of.payloads) for cpu, of in found])
            for cpu, of in found:
                self.handled[cpu] += len(of.times) - sum(isinstance(payload, Lost) for payload in of.payloads)
            self.own += sum(own_events(of) for _, of in found)
            if until == latest or self.assembly.is_full:
                return
            self.tasks.go_to(until + 1)
            yield True

    def finish(self, steps):
        """Does what is left of the steps. Answers what is to be told."""
        for _ in steps:
            self.recorder.go_on()
        done, end = self.recorder.done, self.recorder.done.full_at or self.recorder.done.end
        for cpu, losses in self.losses.items():
            if losses.at_end:
                self.assembly.lose(cpu, max(end, self.assembly.last or 0), losses.at_end)
        if done.full_at or self.assembly.is_full:
            for cpu, read in done.read.items():
                self.assembly.miss(cpu, max(read - self.handled[cpu] - self.before[cpu], 0) + done.uncounted.get(cpu, 0), end)
        handled = sum(self.handled.values())
        share = f"{self.own:,} of the {handled:,} ({100 * self.own / max(handled, 1):.1f} %) are btrecord's own"
        notes = [share] if self.own else []
        notes += [f"nothing is known of {len(self.tasks.unknown):,} threads"] if self.tasks.unknown else []
        notes += [told_without_user(self.tasks)] if self.tasks.without_user else []
        return notes + ([f"{done.tasks_lost:,} events that tell of threads and their users were lost"] if done.tasks_lost else [])


def own_events(of):
    """How many events of a CPU are this thread's own, without those that interrupt it."""
    own = os.getpid()
    if own not in of.threads:
        return 0
    return sum(thread == own and not payload[FLAGS_AT] & INTERRUPTS for thread, payload in zip(of.threads, of.payloads))


def told_without_user(tasks):
    """That users are not known, which are UNKNOWN in the recording."""
    return f"for a time the users of {len(tasks.without_user):,} threads are not known, and are {UNKNOWN} there"


def record(asked, open_output):
    """Records events of all CPUs, and writes them to what `open_output` answers."""
    top = asked.top or tracefs()
    test_kilobytes(asked.kilobytes)
    notes = remove_left(top)
    wanted = chosen(top, asked.patterns)
    test_formats(wanted.formats)
    filters = [(filtered(pattern, wanted.pairs), expression) for pattern, expression in asked.filters]
    limits = resource.getrlimit(resource.RLIMIT_NOFILE)
    resource.setrlimit(resource.RLIMIT_NOFILE, (limits[1], limits[1]))
    with open_output() as output, Signals() as signals, contextlib.ExitStack() as stack:
        command = stack.enter_context(Command(asked.command, signals, output.is_standard)) if asked.command else None
        target = Target(command, asked.processes)
        try:
            made = recorded(top, asked, wanted, filters, output, signals, target, notes)
        except OSError as error:
            raise of_file(error.filename or output.folder or tempfile.gettempdir(), error, WRITE) from error
        if command and not command.wait():
            made.notes.append(f"{asked.command[0]} was told to end, and still runs as process {command.process}")
        made.status = command.exit_status(made.signal) if command else 0
        return made


def filtered(pattern, pairs):
    """The tracepoints that an expression is for."""
    found = matching(pattern, pairs)
    if not found:
        raise Refused(f"--filter {pattern}: no tracepoint of this name is recorded", WORDS)
    return found


def recorded(top, asked, wanted, filters, output, signals, target, notes):
    """Records, and writes the recording once its instances are gone."""
    shape = page_shape(contents(f"{top}/events/header_page").decode())
    size = page_bytes(top)
    watched = watched_in(top)
    texts = [format_of(system.encode(), contents(f"{top}/events/{system}/{event}/format")) for system, event in watched]
    path = f"{top}/instances/{own_name()}"
    looks = (RollingLooks if asked.keeps_latest else Looks)(output.folder, clock=nanoseconds)
    behind = Behind(texts, shape, looks)
    main, tasks = Instance(path, shape, size), Instance(f"{path}-tasks", shape, size, behind.see)
    recorder = (LatestRecorder if asked.keeps_latest else Recorder)(main, tasks, looks, signals, target, Signs(is_shared=bool(asked.command)) if asked.tell else None)
    recorder.behind = behind if behind.numbers else None
    with contextlib.ExitStack() as stack:
        # The instance of tasks is the first: so what a call changes is known when the same event comes to the other one.
        for instance, kilobytes, pairs in [(tasks, TASK_KILOBYTES, watched), (main, asked.kilobytes, wanted.pairs)]:
            stack.enter_context(instance).set_up(kilobytes, output.folder)
            if instance is main:
                narrow(main, asked, filters, target, wanted.pairs)
            elif COMPAT_EVENT in watched:
                write(f"{tasks.path}/events/raw_syscalls/sys_exit/filter", COMPAT_FILTER)
            enabled = set(instance.enable(pairs, recorder.go_on))
        formats = [format for pair, format in zip(wanted.pairs, wanted.formats) if pair in enabled]
        if not formats:
            raise Refused(told_left_out({**wanted.left_out, **main.left_out}))
        joining = Joining(recorder, texts, formats, output.folder, asked.with_marks)
        steps = joining.steps()
        if asked.tell:
            recorder.tell_start = lambda: asked.tell([told_start(asked, len(formats), len(online() & set(main.rings)), output.name)])
        recorder.run(asked.seconds, steps)
        if asked.keeps_latest:
            joining.keep_latest()
    notes += [instance.stays for instance in (main, tasks) if instance.stays]
    notes += [told_left_out({**wanted.left_out, **main.left_out})] if wanted.left_out or main.left_out else []
    return written(recorder.done, joining, steps, output, asked, notes)


def watched_in(top):
    """The tracepoints that tell of threads, of those that a kernel has."""
    found = [(system, event) for system, event in TASK_EVENTS + CALL_EVENTS if os.path.exists(f"{top}/events/{system}/{event}")]
    has_calls = any(pair in CALL_EVENTS for pair in found) and os.path.exists(f"{top}/events/{'/'.join(COMPAT_EVENT)}")
    return found + ([COMPAT_EVENT] if has_calls and runs_32_bit_programs() else [])


def runs_32_bit_programs(machine=os.uname().machine, path="/proc/sys/abi"):
    """Whether a 64-bit kernel also runs 32-bit programs: it has a setting for them then, whose name is its machine's."""
    return machine in COMPAT_SETTINGS and any(os.path.exists(f"{path}/{name}") for name in COMPAT_SETTINGS[machine])


def narrow(main, asked, filters, target, pairs):
    """Has the kernel keep only what is asked for, and of this thread what interrupts it."""
    expressions = {}
    for of, expression in filters:
        main.filter(of, expression)
        expressions.update(dict.fromkeys(of, expression))
    if asked.is_of_some:
        main.follow(target.threads)
    else:
        main.filter_own(pairs, expressions)


def written(done, joining, steps, output, asked, notes):
    """Writes the recording, and answers what is to be told."""
    notes = joining.finish(steps) + notes
    start, end = joining.assembly.span(max(done.start, joining.begin), done.full_at or done.end)
    with output.writing() as file:
        joining.assembly.write(file, start, end)
    if asked.keeps_latest:
        notes = told_before(done, joining) + notes
    lost = sum(losses.total + losses.at_end for losses in joining.losses.values())
    return Made(joining.assembly, lost, [told_span(done, asked, end - start)] + notes, signal=done.signal)


def told_before(done, joining):
    """What came before a recording that keeps the latest events."""
    told = [f"{done.overwritten:,} earlier events were overwritten"]
    before = sum(joining.before.values())
    return told + ([f"{before:,} more were left out, so that it has all events of all CPUs from its start on"] if before else [])


def told_left_out(left_out):
    """Which tracepoints are left out, by the cause."""
    causes = {}
    for name, cause in left_out.items():
        causes.setdefault(cause, []).append(name)
    return f"{len(left_out)} tracepoints left out: " + "; ".join(f"{' '.join(names)} ({cause})" for cause, names in causes.items())


def told_span(done, asked, covered):
    """Which part of the asked time the recording covers."""
    span = f" of the {asked.seconds:g} s asked" if asked.seconds else ""
    why = f"; {done.cause}" if done.cause else f"; {name_of(done.signal)} ended it" if done.signal else ""
    if asked.keeps_latest:
        return f"it covers the last {covered / 1e9:.3f} s of {(done.end - done.start) / 1e9:.3f} s{why}"
    why = "; the recording is full" if covered < done.end - done.start else why
    return f"it covers the first {covered / 1e9:.3f} s{span}{why}"


def online(path="/sys/devices/system/cpu/online"):
    """The CPUs that are on, as the kernel lists them: `0-3,8`."""
    found = set()
    for part in contents(path).decode().strip().split(","):
        first, _, last = part.partition("-")
        found |= set(range(int(first), int(last or first) + 1))
    return found


def cpus_of(instance):
    """The CPUs that the recording has: those with events, and then those that are on, as many as there is room for."""
    busy = [cpu for cpu, ring in instance.rings.items() if ring.spool.bytes]
    idle = sorted(online() & set(instance.rings) - set(busy))
    return (busy + idle)[:max(container.MOST_CPUS, len(busy))]
