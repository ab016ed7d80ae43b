"""What is right in an account, rule by rule.

1. The bytes have the layout of an account, and each entry names an actor, a map of the right kind, a part, a table and a tick that are there.
2. Each step is the one that its actor's program asks for next. The program of a CPU is what the script does at its events and ticks in order,
   that of the main actor is BEGIN and then END.
3. No CPU makes a step before BEGIN is done, and END makes none before each CPU is done.
4. A stamp is one more than the greater of two clocks. The actor's: of a CPU the greatest stamp of its own steps and the main actor's so far, of
   the main actor that of all steps so far. The object's: the greatest stamp at the same part of a map, table of an actor, clock, or output.
5. Steps stand in the order of their stamps, at equal stamps by their objects: parts of shared maps by map and part, then tables by actor, then
   the clock, then the output.
6. At the end all programs are done.
7. The text is what the steps print.

A program is a generator of Python: it yields steps, and is sent what the object answers.
"""
import struct

from .layout import ADD, CHECK, CLEAR, CLEAR_OF, CROSS, DELETE, EMIT, GET, KEYED, MAGIC, NUMBER, PARTS, READ, READ_ALL, SET, STOP, STRING
from .layout import SWEEPS, TABLE_SWEEPS, TEXT_BYTES, ZERO, ZERO_OF, Step, key_bytes


class Wrong(Exception):
    """What is wrong with an account, as the program tells it."""


class Reader:
    """Takes parts from the front of bytes, and is at the offset of the next. A part that is not there ends the reading."""

    def __init__(self, data):
        self.data, self.at = data, 0

    def take(self, count):
        """So many bytes."""
        part = self.data[self.at:self.at + count]
        if len(part) < count:
            raise ValueError
        self.at += count
        return part

    def number(self, count):
        """A number in so many bytes."""
        return int.from_bytes(self.take(count), "little")

    def below(self, count, limit):
        """A number in so many bytes that is below a limit."""
        number = self.number(count)
        if number >= limit:
            raise ValueError
        return number

    def value(self, kind):
        """A number with its sign, or a string with nothing but zeros behind it, of which there is one."""
        if kind == NUMBER:
            return struct.unpack("<q", self.take(8))[0]
        raw = self.take(TEXT_BYTES)
        text = raw.rstrip(b"\0")
        if len(text) == TEXT_BYTES or b"\0" in text:
            raise ValueError
        return text.decode("latin-1")

    def entry(self, account):
        """An entry."""
        actor, stamp = self.below(4, account.cpus + 1), self.number(8)
        kind = self.below(1, 15)
        if kind == 0:
            raise ValueError
        step = Step(actor, kind, stamp=stamp)
        if kind == CROSS:
            return step.at(place=self.below(4, account.ticks))
        if kind > CROSS:
            return step
        number = self.below(4, len(account.maps))
        named = account.maps[number]
        if (named.holds is None) != (kind in (ADD, *TABLE_SWEEPS)):
            raise ValueError
        step = step.at(map=number)
        if kind in SWEEPS + TABLE_SWEEPS:
            return step.at(place=self.below(4, PARTS if kind in SWEEPS else account.cpus + 1))
        step = step.at(key=tuple(map(self.value, named.keys)))
        return step.at(value=self.value(named.holds or NUMBER)) if kind in (SET, ADD) else step


def read(account, data):
    """The entries and the text of an account, by the first rule."""
    reader, start = Reader(data), 0
    try:
        if reader.take(8) != MAGIC:
            raise ValueError
        start = reader.at
        count, steps = reader.number(8), []
        while len(steps) < count:
            start = reader.at
            steps.append(reader.entry(account))
        start = reader.at
        size = reader.number(8)
        start = reader.at
        text = reader.take(size)
        start = reader.at
        if start < len(data):
            raise ValueError
    except ValueError:
        raise Wrong(f"N1 bad account at byte {start}") from None
    return steps, text


def object_of(step):
    """The object of a step, as it stands in the order of objects."""
    if step.kind in KEYED:
        return 0, step.map, sum(key_bytes(step.key)) % PARTS
    if step.kind in SWEEPS:
        return 0, step.map, step.place
    if step.kind in (ADD, *TABLE_SWEEPS):
        return 1, step.actor if step.kind == ADD else step.place
    return (3,) if step.kind == EMIT else (2,)


class Objects:
    """What objects hold, as far as answers tell it: maps, the tables' rows, the ticks that were crossed, and whether there was a stop."""

    def __init__(self, account):
        self.account, self.held, self.tables, self.crossed, self.stopped = account, {}, {}, [], False

    def answer(self, step):
        """What the object of a step answers to it."""
        if step.kind == GET:
            kept = self.account.maps[step.map].holds
            return self.held.get((step.map, step.key), "" if kept == STRING else 0)
        if step.kind == SET:
            self.held[step.map, step.key] = step.value
        elif step.kind == DELETE:
            self.held.pop((step.map, step.key), None)
        elif step.kind in (CLEAR, ZERO):
            self.sweep(step)
        elif step.kind == ADD:
            self.tables.setdefault((step.actor, step.map), []).append((step.key, step.value))
        elif step.kind == READ:
            return self.tables.get((step.place, step.map), [])
        elif step.kind in (CLEAR_OF, ZERO_OF):
            self.tables.pop((step.place, step.map), None)
        elif step.kind == CROSS:
            self.crossed.append(step.place)
            return self.crossed.count(step.place) == self.account.cpus
        elif step.kind == STOP:
            self.stopped = True
        return self.stopped if step.kind == CHECK else None

    def sweep(self, step):
        """Empties a part of a map, or sets it to zero."""
        for key in [key for key in self.held if key[0] == step.map and sum(key_bytes(key[1])) % PARTS == step.place]:
            if step.kind == CLEAR:
                del self.held[key]
            else:
                self.held[key] = "" if self.account.maps[step.map].holds == STRING else 0


class Program:
    """A program on its way: what it asks next, or None where it is done."""

    def __init__(self, generator):
        self.generator = generator
        self.next = next(generator, None)

    def go_on(self, answer):
        """Goes on with an answer."""
        try:
            self.next = self.generator.send(answer)
        except StopIteration:
            self.next = None


class Run:
    """The steps so far: what each program asks next, what the objects hold, and the clocks."""

    def __init__(self, account):
        self.account = account
        self.main = account.cpus
        self.begin, self.end = Program(account.begin()), Program(account.end())
        self.each = [Program(account.cpu(number)) for number in range(account.cpus)]
        self.objects = Objects(account)
        self.actors, self.stamps, self.last = [0] * (account.cpus + 1), {}, None

    def program_of(self, actor):
        """The program that goes on by a step of this actor, or None where it may make none now."""
        if actor != self.main:
            return self.each[actor] if self.begin.next is None else None
        if self.begin.next is not None:
            return self.begin
        return self.end if all(program.next is None for program in self.each) else None

    def stamp_of(self, step):
        """The stamp that the step has to have."""
        clock = max(self.actors) if step.actor == self.main else max(self.actors[step.actor], self.actors[self.main])
        return 1 + max(clock, self.stamps.get(object_of(step), 0))

    def follows(self, step):
        """Whether the step can come next, by rules 2 to 5. Then it has come."""
        program = self.program_of(step.actor)
        order = step.stamp, object_of(step)
        if program is None or program.next is None or program.next.at(actor=step.actor, stamp=step.stamp) != step:
            return False
        if step.stamp != self.stamp_of(step) or self.last is not None and order < self.last:
            return False
        self.actors[step.actor] = self.stamps[object_of(step)] = step.stamp
        self.last = order
        program.go_on(self.objects.answer(step))
        return True

    def is_done(self):
        """Whether all programs are done."""
        return all(program.next is None for program in (self.begin, self.end, *self.each))


def stamped(account, steps):
    """The steps as they stand, each with the stamp that is due by rule 4, whatever else is wrong with them."""
    run, out = Run(account), []
    for step in steps:
        step = step.at(stamp=run.stamp_of(step))
        run.actors[step.actor] = run.stamps[object_of(step)] = step.stamp
        out.append(step)
    return out


def in_order(steps):
    """The steps in the order of rule 5."""
    return sorted(steps, key=lambda step: (step.stamp, object_of(step)))


def first_difference(one, other):
    """The first place where two texts differ, or the length of the shorter one."""
    return next((place for place, (a, b) in enumerate(zip(one, other)) if a != b), min(len(one), len(other)))


def judge(account, data):
    """What is wrong with an account, as the program tells it, or None; and how many steps it has. The text of a true account is the one that
    was worked out by hand, or that `printed` says of these steps."""
    try:
        steps, text = read(account, data)
        run = Run(account)
        for number, step in enumerate(steps):
            if not run.follows(step):
                raise Wrong(f"N2 wrong step {number}")
        if not run.is_done():
            raise Wrong("N3 unfinished")
        printed = account.printed(run.objects)
        if text != printed:
            raise Wrong(f"N4 wrong text at byte {first_difference(text, printed)}")
    except Wrong as wrong:
        return str(wrong), None
    return None, len(steps)
