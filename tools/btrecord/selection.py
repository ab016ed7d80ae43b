"""Which events of a recording are meant: by time, thread's name, process, tracepoint and CPU."""
import os
import re
from dataclasses import dataclass, field

from faults import WORDS, Refused

KINDS = ("tracepoint:", "t:")
SECOND = 1_000_000_000
SECONDS = re.compile(r"(\+?)([0-9]{1,12})(?:\.([0-9]{1,9}))?s?")
NANOSECONDS = re.compile(r"(\+?)([0-9]{1,20})ns")


@dataclass(frozen=True)
class Moment:
    """A time as it was written, in nanoseconds: of the recording's clock, or behind the recording's start."""

    word: str
    nanoseconds: int
    is_behind_start: bool

    def at(self, start):
        """The time of the recording's clock, for a recording that starts at this one."""
        return start + self.nanoseconds if self.is_behind_start else self.nanoseconds


def moment(word):
    """The time that a word spells: seconds as `dump` shows them, or nanoseconds as scripts do, with `+` before what counts from the start."""
    found = SECONDS.fullmatch(word)
    if found:
        return Moment(word, int(found[2]) * SECOND + int((found[3] or "").ljust(9, "0")), bool(found[1]))
    found = NANOSECONDS.fullmatch(word)
    if not found:
        raise ValueError(word)
    return Moment(word, int(found[2]), bool(found[1]))


def told_time(nanoseconds):
    """A time as `dump` shows it: seconds, to the nanosecond."""
    return f"{nanoseconds // SECOND}.{nanoseconds % SECOND:09}"


def pattern(word, spelled=str):
    """A regular expression for a word in which `*` stands for any letters, of texts or of bytes."""
    return re.compile(spelled(".*").join(re.escape(spelled(part)) for part in word.split("*")), re.DOTALL)


def without_kind(word):
    """The name of a tracepoint without the kind of probe before it."""
    for kind in KINDS:
        if word.startswith(kind):
            return word[len(kind):]
    return word


def fits(word):
    """Whether the tracepoint of a format fits a pattern: by SYSTEM:EVENT, or where the pattern has no colon also by its event alone."""
    found = pattern(word)
    return lambda format: bool(found.fullmatch(format.name) or ":" not in word and found.fullmatch(format.layout.name.decode()))


@dataclass(frozen=True)
class Asked:
    """What words ask for. Each that says nothing asks for all."""

    begin: Moment = None
    end: Moment = None
    names: list = field(default_factory=list)
    processes: list = field(default_factory=list)
    events: list = field(default_factory=list)
    cpus: list = field(default_factory=list)


class Selection:
    """The events of a recording that are asked for, the formats that can have some, and the span."""

    def __init__(self, asked, path, contents):
        self.start, self.end = span(asked, contents)
        self.formats = chosen(asked.events, path, contents.formats)
        self.numbers = {format.layout.number for format in self.formats} if asked.events else None
        self.processes = set(asked.processes)
        self.cpus = chosen_cpus(asked.cpus, path, contents)
        self.names = [pattern(word, os.fsencode) for word in asked.names]
        self.is_name = {}

    def takes(self, data, event):
        """Whether an event is asked for."""
        if not self.start <= event.time <= self.end or self.processes and event.process not in self.processes or event.cpu not in self.cpus:
            return False
        if self.numbers is not None and data[event.payload] | data[event.payload + 1] << 8 not in self.numbers:
            return False
        return not self.names or self.takes_name(event.name)

    def takes_mark(self, mark):
        """Whether a mark is asked for: by its time and CPU alone, since nobody knows what the lost events were."""
        return self.start <= mark.time <= self.end and mark.cpu in self.cpus

    def marks(self, marks):
        """How many of a recording's marks are asked for."""
        return sum(self.start <= time <= self.end and cpu in self.cpus for time, cpu in zip(marks.times, marks.cpus))

    def takes_name(self, name):
        """Whether a thread's name is asked for. Each name is looked at once."""
        found = self.is_name.get(name)
        if found is None:
            text = name.split(b"\0", 1)[0]
            found = self.is_name[name] = any(pattern.fullmatch(text) for pattern in self.names)
        return found


def span(asked, contents):
    """From when to when events are asked for, in the recording's span."""
    begin = asked.begin.at(contents.start) if asked.begin else contents.start
    end = asked.end.at(contents.start) if asked.end else contents.end
    if begin > end and asked.begin and asked.end:
        raise Refused(f"--from {asked.begin.word} is after --to {asked.end.word}", WORDS)
    if begin > contents.end or end < contents.start:
        word = f"--from {asked.begin.word}" if begin > contents.end else f"--to {asked.end.word}"
        raise Refused(f"{word} is outside of the recording, which goes from {told_time(contents.start)} to {told_time(contents.end)}, "
                      f"or from +0 to +{told_time(contents.end - contents.start)}", WORDS)
    return max(begin, contents.start), min(end, contents.end)


def chosen(words, path, formats):
    """The formats that fit one of the patterns, or all where there is none."""
    tests = {word: fits(without_kind(word)) for word in words}
    for word, test in tests.items():
        if not any(map(test, formats)):
            raise Refused(f"{path}: no tracepoint of the recording fits {word}")
    return [format for format in formats if not tests or any(test(format) for test in tests.values())]


def chosen_cpus(asked, path, contents):
    """The numbers of the CPUs that are asked for, which the recording has, or of all where none is asked for."""
    known = [number for number, _ in contents.cpus]
    for number in asked:
        if number not in known:
            raise Refused(f"{path}: the recording has no CPU {number}; it has {', '.join(map(str, known))}")
    return set(asked or known)
