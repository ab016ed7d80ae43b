"""True accounts, worked out by hand: the script, the recording, what each actor asks, in which turn the CPUs take their steps, and the text.

A program of an actor yields the steps that its part of the script asks for: expressions from left to right, the key of a map before its value;
`++` gets and sets; a map that is printed, cleared or set to zero is swept part by part, or table by table where it is an aggregation, and a
print then emits. Where the script has an exit there is a check before each event and tick, and at the first that finds a stop the CPU is done.
"""
from collections.abc import Callable
from dataclasses import dataclass

from .layout import ADD, CALL_TEXT, CHECK, CLEAR, CLEAR_OF, CROSS, DELETE, EMIT, GET, NUMBER, PARTS, READ, READ_ALL, SET, STOP, STRING, ZERO
from .layout import ZERO_OF, Map, Step, account_bytes, event, mark, recording
from .rules import Run, in_order

SERIAL = ["account", "--serial", "s.bt", "r.bin"]
THREADS = ["account", "s.bt", "r.bin"]


def nothing(*_):
    """A program that asks nothing."""
    yield from ()


def emits():
    """One item is emitted."""
    yield Step(0, EMIT)


@dataclass(frozen=True)
class Account:
    """A script over a recording with one run of it: the CPUs take their steps in these turns. `written_by` has the commands of which each
    run writes this account."""

    name: str
    script: str
    recording: bytes
    maps: tuple
    text: bytes
    cpus: int = 1
    ticks: int = 0
    begin: Callable = nothing
    cpu: Callable = nothing
    end: Callable = nothing
    turns: tuple = ()
    text_of: Callable | None = None
    written_by: tuple = ()

    def made(self):
        """The steps of the run, in the order of an account."""
        run, steps = Run(self), []

        def take(actor):
            """The actor takes its next step. Stamps are those that are due, and order comes later."""
            run.last = None
            step = run.program_of(actor).next.at(actor=actor)
            step = step.at(stamp=run.stamp_of(step))
            assert run.follows(step)
            steps.append(step)

        while run.begin.next is not None:
            take(self.cpus)
        for actor in self.turns:
            take(actor)
        while run.program_of(self.cpus).next is not None:
            take(self.cpus)
        return in_order(steps)

    def data(self):
        """The bytes of the account."""
        return account_bytes(self.made(), self.text)

    def printed(self, objects):
        """What a run prints that leaves the objects so."""
        return self.text_of(objects) if self.text_of else self.text


def one_cpu(_):
    """`@ = count()` at one event."""
    yield Step(0, ADD, value=1)


ONE = Account(
    "one", "tracepoint:raw_syscalls:sys_enter { @ = count(); }", recording([[event(1, 0, number=21)]], b"raw_syscalls", CALL_TEXT),
    (Map((), None),), b"@: 1\n\n", cpu=one_cpu, turns=(0,), written_by=(SERIAL, THREADS))


def main_begin():
    """BEGIN of `main`: `@ = count()`."""
    yield Step(0, ADD, value=1)


def main_end():
    """END of `main`: `@ = count(); print(@)`. The main actor has the last table."""
    yield Step(0, ADD, value=1)
    for table in (0, 1):
        yield Step(0, READ, place=table)
    yield Step(0, EMIT)


MAIN = Account(
    "main", "BEGIN { @ = count(); } END { @ = count(); print(@); }", recording([[]]), (Map((), None),), b"@: 2\n\n@: 2\n\n",
    begin=main_begin, end=main_end, written_by=(SERIAL, THREADS))


def lost_cpu(_):
    """`@x++` at one event."""
    old = yield Step(0, GET)
    yield Step(0, SET, value=old + 1)


def lost_text(objects):
    """What `@x` is at the end."""
    return b"@x: %d\n\n" % objects.held[0, ()]


LOST = Account(
    "lost", "tracepoint:t:e { @x++; }", recording([[event(1, 0)], [event(1, 0)]]), (Map((), NUMBER),), b"@x: 1\n\n",
    cpus=2, cpu=lost_cpu, turns=(0, 1, 0, 1), text_of=lost_text)
FOUND = Account(
    "found", LOST.script, LOST.recording, LOST.maps, b"@x: 2\n\n", cpus=2, cpu=lost_cpu, turns=(0, 0, 1, 1), text_of=lost_text,
    written_by=(SERIAL,))

KEY = ("k", 1)


def sweeps_begin():
    """BEGIN of `sweeps`."""
    yield Step(0, SET, key=KEY, value="v")


def sweeps_cpu(_):
    """The event of `sweeps`, whose thread is called p."""
    yield Step(0, SET, key=KEY, value="p")


def sweeps_end():
    """END of `sweeps`: print, zero, delete, clear."""
    for part in range(PARTS):
        yield Step(0, READ_ALL, place=part)
    yield Step(0, EMIT)
    for part in range(PARTS):
        yield Step(0, ZERO, place=part)
    yield Step(0, DELETE, key=KEY)
    for part in range(PARTS):
        yield Step(0, CLEAR, place=part)


SWEEPS = Account(
    "sweeps", 'BEGIN { @s["k", 1] = "v"; } tracepoint:t:e { @s["k", 1] = comm; } '
    'END { print(@s); zero(@s); delete(@s["k", 1]); clear(@s); }', recording([[event(1, 0)]]), (Map((STRING, NUMBER), STRING),),
    b"@s[k, 1]: p\n\n", begin=sweeps_begin, cpu=sweeps_cpu, end=sweeps_end, turns=(0,), written_by=(SERIAL, THREADS))


def tables_cpu(cpu):
    """The event of a CPU of `tables`, with 5 and 7 as its number, and the tick, whose body is run by the last to cross it."""
    yield Step(0, ADD, 0, key=("p",), value=1)
    yield Step(0, ADD, 1, value=(5, 7)[cpu])
    last = yield Step(0, CROSS, place=0)
    if last:
        for table in range(3):
            yield Step(0, READ, 0, place=table)
        yield Step(0, EMIT)
        for table in range(3):
            yield Step(0, CLEAR_OF, 0, place=table)
        for table in range(3):
            yield Step(0, ZERO_OF, 1, place=table)


TABLES = Account(
    "tables", "tracepoint:t:e { @c[comm] = count(); @t = sum(args.v); } interval:s:1 { print(@c); clear(@c); zero(@t); }",
    recording([[event(1, 5)], [event(1, 7)]]), (Map((STRING,), None), Map((), None)), b"@c[p]: 2\n\n@t: 0\n\n", cpus=2, ticks=1,
    cpu=tables_cpu, turns=(0, 0, 1, 1, 0) + (1,) * 11, written_by=(SERIAL,))


def exit_cpu(_):
    """Two events of `exit`: the first makes @n 1, and stops."""
    for _ in range(2):
        stopped = yield Step(0, CHECK)
        if stopped:
            return
        old = yield Step(0, GET)
        yield Step(0, SET, value=old + 1)
        new = yield Step(0, GET)
        if new == 1:
            yield Step(0, STOP)


EXIT = Account(
    "exit", 'BEGIN { printf("go\\n"); } tracepoint:t:e { @n++; if (@n == 1) { exit(); } } END { printf("bye\\n"); }',
    recording([[event(1, 0), event(2, 0)]]), (Map((), NUMBER),), b"go\nbye\n@n: 1\n\n", begin=emits, cpu=exit_cpu, end=emits,
    turns=(0,) * 6, written_by=(SERIAL, THREADS))


def stops_cpu(_):
    """The one event of a CPU of `stops`."""
    stopped = yield Step(0, CHECK)
    if not stopped:
        yield Step(0, STOP)


STOPS = Account(
    "stops", 'tracepoint:t:e { exit(); } END { printf("end"); }', recording([[event(1, 0)], [event(1, 0)]]), (), b"end", cpus=2,
    cpu=stops_cpu, end=emits, turns=(0, 1, 0, 1))


def hit_cpu(_):
    """The one event of `hit`: @c is read over the tables of the CPU and of the main actor."""
    yield Step(0, ADD, 0, value=1)
    for table in range(2):
        yield Step(0, READ, 0, place=table)
    old = yield Step(0, GET, 1)
    yield Step(0, SET, 1, value=old + 1)


HIT = Account(
    "hit", "tracepoint:t:e { @c = count(); if (@c == 1) { @hit++; } }", recording([[event(1, 0)]]), (Map((), None), Map((), NUMBER)),
    b"@c: 1\n\n@hit: 1\n\n", cpu=hit_cpu, turns=(0,) * 5, written_by=(SERIAL, THREADS))


def marks_cpu(cpu):
    """An event, and on CPU 0 a mark of lost events behind it."""
    yield Step(0, ADD, value=1)
    if cpu == 0:
        yield Step(0, EMIT)


MARKS = Account(
    "marks", "tracepoint:t:e { @ = count(); }", recording([[event(1, 0), mark(5, 3)], [event(1, 0)]]), (Map((), None),),
    b"WARNING: 3 events lost on cpu 0\n@: 2\n\n", cpus=2, cpu=marks_cpu, turns=(0, 0, 1), written_by=(SERIAL, THREADS))


def below_begin():
    """BEGIN of `below`."""
    yield Step(0, SET, key=(-1,), value=-5)


def below_cpu(_):
    """The event of `below`, whose number is -1."""
    old = yield Step(0, GET, key=(-1,))
    yield Step(0, SET, key=(-1,), value=old - 2)
    yield Step(0, DELETE, key=(-1,))


def below_end():
    """END of `below`."""
    yield Step(0, SET, key=(0,), value=1)


BELOW = Account(
    "below", "BEGIN { @d[-1] = -5; } tracepoint:t:e { @d[args.v] -= 2; delete(@d[args.v]); } END { @d[0] = 1; }",
    recording([[event(1, -1)]]), (Map((NUMBER,), NUMBER),), b"@d[0]: 1\n\n", begin=below_begin, cpu=below_cpu, end=below_end,
    turns=(0,) * 3, written_by=(SERIAL, THREADS))


def ties_cpu(cpu):
    """An event of `ties`."""
    if cpu == 0:
        yield Step(0, SET, 0, value=1)
        yield Step(0, ADD, 1, value=1)
    else:
        yield Step(0, ADD, 1, value=1)
        yield Step(0, SET, 2, value=2)
        yield Step(0, EMIT)


TIES = Account(
    "ties", 'tracepoint:t:e { if (cpu == 0) { @a = 1; @c = count(); } else { @c = count(); @b = 2; printf("x\\n"); } }',
    recording([[event(1, 0)], [event(1, 0)]]), (Map((), NUMBER), Map((), None), Map((), NUMBER)),
    b"x\n@a: 1\n\n@c: 2\n\n@b: 2\n\n", cpus=2, cpu=ties_cpu, turns=(0, 0, 1, 1, 1), written_by=(SERIAL, THREADS))

ACCOUNTS = (ONE, MAIN, LOST, FOUND, SWEEPS, TABLES, EXIT, STOPS, HIT, MARKS, BELOW, TIES)
