"""Puts a recording together, from events and marks of lost events that come by time: what fits is kept, in files without names, and the
rest is counted."""
import itertools
import mmap
import shutil
from array import array
from dataclasses import dataclass, field

import container
from container import CPU, EVENT, EVENT_BYTE, HEADER, LENGTH, MAGIC, MARK, MARKED_MAGIC, MOST_COUNT, TIME, Lost, head_bytes, spelled_format
from output import nameless

NO_FORMAT = "of no format that is there"
TOO_SHORT = "shorter than their format"
FURTHER_CPU = f"of CPUs past the {container.MOST_CPUS}th"
PAST_LIMITS = "past the container's limits"

NO_SIZE = float("inf")
COPIED = 1 << 20
PIECES_AT_ONCE = 4096


@dataclass
class Part:
    """The entries of a CPU: its events as they stand in a recording without marks, and its marks, each with the place before which it stands.

    `missing` is how many of its events came after the last one that is kept. While `grows` is set no event came after the last mark, which
    tells of events that were left out, and one more that is left out makes it greater.
    """

    file: object
    events: int = 0
    bytes: int = 0
    missing: int = 0
    grows: bool = False
    places: array = field(default_factory=lambda: array("Q"))
    times: array = field(default_factory=lambda: array("Q"))
    counts: array = field(default_factory=lambda: array("Q"))

    def write(self, contents, events):
        """Adds so many events."""
        self.file.write(contents)
        self.bytes += len(contents)
        self.events += events
        self.grows = False

    def mark(self, lost):
        """Adds a mark."""
        self.places.append(self.bytes)
        self.times.append(lost.time)
        self.counts.append(min(lost.count, MOST_COUNT))

    def grow(self, time):
        """Has the last mark tell of one more event."""
        self.times[-1] = max(self.times[-1], time)
        self.counts[-1] = min(self.counts[-1] + 1, MOST_COUNT)

    def marks(self):
        """The marks in their order, each with the place before which it stands."""
        return zip(self.places, map(Lost, self.times, self.counts))

    def cut_back(self, events, size):
        """Takes away what came after so many events of so many bytes, and answers how many events that were."""
        dropped = self.events - events
        self.file.seek(size)
        self.file.truncate()
        self.events, self.bytes = events, size
        return dropped

    def entries(self):
        """The bytes of its entries in a recording with marks, some of them at a time."""
        self.file.flush()
        data = mmap.mmap(self.file.fileno(), 0, access=mmap.ACCESS_READ) if self.bytes else b""
        at, group, size_at = 0, [], EVENT.size - LENGTH.size
        for place, lost in itertools.chain(self.marks(), [(self.bytes, None)]):
            while at < place:
                end = at + EVENT.size + LENGTH.unpack_from(data, at + size_at)[0]
                group += EVENT_BYTE, data[at:end]
                at = end
                if len(group) >= PIECES_AT_ONCE:
                    yield b"".join(group)
                    group.clear()
            group += [lost.spelled()] if lost else []
            if len(group) >= PIECES_AT_ONCE:
                yield b"".join(group)
                group.clear()
        yield b"".join(group)


@dataclass(frozen=True)
class Border:
    """Up to where events fit into a recording with marks: how many of each CPU and their bytes, and when the last one and the next one came."""

    parts: dict
    last: int
    next: int


@dataclass
class Assembly:
    """The events and marks that are kept, and how many events were not, by the cause.

    The earliest events of all CPUs are kept: once one does not fit, no later one is. A recording with marks has a byte more for each event,
    and ends with a mark for each CPU of which events came later; a recording without any has room for more events. So a border is noted
    where the events do not fit any more if a mark comes, and where one does come behind it, what is past the border goes. Unless
    `with_marks` holds, marks are only counted.
    """

    formats: list
    cpus: list
    folder: str
    with_marks: bool = True
    events: int = 0
    bytes: int = 0
    marks: int = 0
    unmarked: int = 0
    first: int = None
    last: int = None
    is_full: bool = False
    full_at: int = None
    border: Border = None
    left_out: dict = field(default_factory=dict)

    def __post_init__(self):
        self.cpus = sorted(self.cpus)[:container.MOST_CPUS] or [0]
        self.sizes = {format.layout.number.to_bytes(2, "little"): format.layout.size for format in self.formats}
        self.parts = {cpu: Part(nameless(self.folder)) for cpu in self.cpus}
        self.room = container.MOST_BYTES - head_bytes(self.formats, len(self.cpus))

    def leave_out(self, cause, count=1):
        """Counts events that are not kept."""
        if count:
            self.left_out[cause] = self.left_out.get(cause, 0) + count

    def fits(self, events, size):
        """Whether so many more events fit, of so many bytes, in a recording without marks."""
        return self.events + events <= container.MOST_ENTRIES and self.bytes + size <= self.room

    def fits_marked(self, events, size, marks=0):
        """Whether so many more events and marks fit in a recording with marks, and behind them one of each CPU."""
        events, marks = self.events + events, self.marks + marks + len(self.parts)
        return events + marks <= container.MOST_ENTRIES and self.bytes + size + len(EVENT_BYTE) * events + MARK.size * marks <= self.room

    def has_room(self, size, time):
        """Whether an event of so many bytes fits that came at a time. Where it would not with a mark, and there is none yet, the border is noted."""
        if self.is_full:
            return False
        if self.border is None and self.with_marks:
            if self.fits_marked(1, size):
                return True
            if self.marks:
                return False
            self.border = Border({cpu: (part.events, part.bytes) for cpu, part in self.parts.items()}, self.last, time)
        return self.fits(1, size)

    def fill(self, time):
        """Has nothing more kept, from a time on; of what is kept so far goes what is past the border."""
        if self.is_full:
            return
        self.is_full, self.full_at = True, max(time, self.last or 0)
        if self.border and self.with_marks:
            self.full_at, self.last = max(self.border.next, self.border.last or 0), self.border.last
            for cpu, part in self.parts.items():
                dropped = part.cut_back(*self.border.parts[cpu])
                self.events -= dropped
                self.leave_out(PAST_LIMITS, dropped)
                part.missing += dropped
            self.bytes = sum(part.bytes for part in self.parts.values())
            self.first = self.first if self.events or self.marks else None

    def miss(self, cpu, count, time):
        """Counts events of a CPU for which there is no room, the first of them at a time."""
        if count > 0:
            if self.with_marks:
                self.fill(time)
            self.leave_out(PAST_LIMITS, count)
            if cpu in self.parts:
                self.parts[cpu].missing += count

    def lose(self, cpu, time, count):
        """Takes a mark: that so many events of a CPU were lost, as is known at a time."""
        part = self.parts.get(cpu)
        if not self.with_marks:
            self.unmarked += 1
        if part is None or not self.with_marks:
            return
        if self.border or not self.fits_marked(0, 0, 1):
            self.fill(time)
        if self.is_full:
            part.missing += count
            return
        part.mark(Lost(time, count))
        part.grows = False
        self.marks += 1
        self.reach(time, time)

    def drop(self, cpu, time, cause):
        """Counts an event that can't stand in a recording, and marks it as lost; those between two events of a CPU share a mark."""
        self.leave_out(cause)
        part = self.parts.get(cpu)
        if part is not None and part.grows and not self.is_full:
            part.grow(time)
            self.reach(time, time)
        elif part is not None and self.with_marks:
            self.lose(cpu, time, 1)
            part.grows = not self.is_full

    def take(self, cpu, time, head, payload):
        """Takes the next event, and tells whether it is kept. `head` tells its thread."""
        part = self.parts.get(cpu)
        size = self.sizes.get(payload[:2])
        if size is None or len(payload) < size or part is None:
            self.drop(cpu, time, NO_FORMAT if size is None else FURTHER_CPU if part is None else TOO_SHORT)
            return False
        if not self.has_room(EVENT.size + len(payload), time):
            self.fill(time)
            self.miss(cpu, 1, time)
            return False
        self.keep(part, TIME.pack(time) + head + LENGTH.pack(len(payload)) + payload, 1, time, time)
        return True

    def keep(self, part, contents, events, first, last):
        """Keeps events."""
        part.write(contents, events)
        self.events += events
        self.bytes += len(contents)
        self.reach(first, last)

    def reach(self, first, last):
        """Notes that something kept is from the one time to the other."""
        self.first = first if self.first is None else min(self.first, first)
        self.last = last if self.last is None else max(self.last, last)

    def take_window(self, window):
        """Takes the next entries of some CPUs: the number of each, their times, heads and payloads. All come by time.

        A mark stands among them with itself in place of a payload.
        """
        count = sum(len(times) for _, times, _, _ in window)
        # A mark takes less than is counted for it here.
        size = sum(EVENT.size * len(payloads) + sum(map(len, payloads)) for _, _, _, payloads in window)
        fits = self.fits_marked if self.with_marks else self.fits
        if not self.is_full and self.border is None and fits(count, size):
            for cpu, times, heads, payloads in window:
                self.take_all(cpu, times, heads, payloads)
            return
        for time, cpu, place, k in sorted((time, cpu, place, k) for k, (cpu, times, _, _) in enumerate(window) for place, time in enumerate(times)):
            _, _, heads, payloads = window[k]
            if isinstance(payloads[place], Lost):
                self.lose(cpu, time, payloads[place].count)
            else:
                self.take(cpu, time, heads[place], payloads[place])

    def take_all(self, cpu, times, heads, payloads):
        """Takes entries of a CPU for which there is room."""
        part = self.parts.get(cpu)
        if part is None:
            self.leave_out(FURTHER_CPU, sum(not isinstance(payload, Lost) for payload in payloads))
            return
        sizes, pack_time, pack_length, spelled = self.sizes, TIME.pack, LENGTH.pack, []
        for time, head, payload in zip(times, heads, payloads):
            size = len(payload)
            if sizes.get(payload[:2], NO_SIZE) <= size:
                spelled += pack_time(time), head, pack_length(size), payload
                continue
            self.keep_all(part, spelled)
            spelled = []
            if isinstance(payload, Lost):
                self.lose(cpu, time, payload.count)
            else:
                self.drop(cpu, time, TOO_SHORT if payload[:2] in sizes else NO_FORMAT)
        self.keep_all(part, spelled)

    def keep_all(self, part, spelled):
        """Keeps events, of each of which four pieces are there: its time, its thread, its length and its payload."""
        if spelled:
            self.keep(part, b"".join(spelled), len(spelled) // 4, *(TIME.unpack(spelled[k])[0] for k in (0, -4)))

    def span(self, start, end):
        """When the recording starts and ends: as asked, unless it is full, so that it holds its events and marks."""
        if self.is_full:
            last = start if self.last is None else self.last
            end = max(last, self.full_at) if self.with_marks else last
        if self.first is not None:
            start, end = min(start, self.first), max(end, self.last)
        return start, max(start, end)

    def has_marks(self):
        """Whether the recording has marks."""
        return self.with_marks and (self.marks > 0 or any(part.missing for part in self.parts.values()))

    def finish(self):
        """Sets the marks that tell what came after the last events that are kept."""
        for part in self.parts.values():
            if part.missing and self.with_marks:
                part.mark(Lost(self.full_at, part.missing))
                self.marks += 1
            part.missing = 0

    def write(self, file, start, end):
        """Writes the whole recording, from the one time to the other."""
        is_marked = self.has_marks()
        self.finish()
        file.write(HEADER.pack(MARKED_MAGIC if is_marked else MAGIC, len(self.parts), len(self.formats), start, end))
        for format in self.formats:
            file.write(spelled_format(format))
        for cpu, part in self.parts.items():
            file.write(CPU.pack(cpu, part.events + len(part.times)))
            if is_marked:
                for entries in part.entries():
                    file.write(entries)
            else:
                part.file.seek(0)
                shutil.copyfileobj(part.file, file, COPIED)
            part.file.close()
