"""The pages of the kernel's ring buffers, as trace_pipe_raw gives them.

`events/header_page` and `events/header_event` of tracefs describe them.
"""
import re
from array import array
from dataclasses import dataclass, field

from container import MOST_COUNT, Lost
from faults import Refused

PADDING = 29
TIME_EXTEND = 30
TIME_STAMP = 31

# The upper bits of a page's `commit` tell that events before it were lost, and that their number stands behind its records.
COMMIT_BITS = 0xFFFFF
MISSED_EVENTS, MISSED_STORED = 1 << 31, 1 << 30
NUMBER_BYTES = 8
UNKNOWN = 0
CUT = "a page of the kernel's ring buffer has a record that doesn't end in it"


@dataclass(frozen=True)
class PageShape:
    """Where the parts of a page stand: the bytes of its `commit`, and where its records begin."""

    commit_size: int
    data: int

    def end(self, page):
        """Where the records of a page end."""
        return min(self.data + (self.commit(page) & COMMIT_BITS), len(page))

    def commit(self, page):
        """The number that tells where the records of a page end, with what its upper bits tell."""
        return int.from_bytes(page[8:8 + self.commit_size], "little")

    def whole(self, page):
        """A page up to where its records end, or the number behind them."""
        return page[:self.end(page) + (NUMBER_BYTES if self.commit(page) & MISSED_STORED else 0)]

    def lost_before(self, page):
        """How many events were lost before a page, or None where none were. Where nobody knows how many, it is UNKNOWN."""
        if not self.commit(page) & MISSED_EVENTS:
            return None
        end = self.end(page)
        if not self.commit(page) & MISSED_STORED or end + NUMBER_BYTES > len(page):
            return UNKNOWN
        return int.from_bytes(page[end:end + NUMBER_BYTES], "little")


def page_shape(header_page):
    """The shape that the file `events/header_page` tells."""
    fields = {name: (int(offset), int(size)) for name, offset, size in
              re.findall(r"field:[^;]*?(\w+);\s*offset:(\d+);\s*size:(\d+);", header_page)}
    if fields.get("timestamp") != (0, 8) or fields.get("commit", (0, 0))[0] != 8 or fields.get("data", (1, 0))[0] % 4:
        raise Refused("the kernel's ring buffer has pages of another form")
    return PageShape(fields["commit"][1], fields["data"][0])


@dataclass
class Losses:
    """What the ring of a CPU lost: how many events its pages tell, how many those are taken to have lost that tell no number, in their order
    and together, and how many the kernel counted in all."""

    told: int = 0
    shares: array = field(default_factory=lambda: array("Q"))
    shared: int = 0
    counted: int = 0

    def see(self, lost, so_far=lambda: 0):
        """Notes what a page tells. Where it tells no number, that is what the kernel had counted so far beyond what is known, and one at least."""
        if lost:
            self.told += lost
        elif lost == UNKNOWN:
            self.shares.append(min(max(so_far() - self.total, 1), MOST_COUNT))
            self.shared += self.shares[-1]

    def settle(self, counted):
        """Has the shares make up what the kernel counted in all: what is left over is the last one's, and what is too much the last ones'."""
        self.counted = counted
        beyond = self.total - counted
        if self.shares and beyond < 0:
            self.shares[-1] = min(self.shares[-1] - beyond, MOST_COUNT)
        for place in reversed(range(len(self.shares))):
            if beyond <= 0:
                break
            less = min(self.shares[place] - 1, beyond)
            self.shares[place] -= less
            beyond -= less
        self.shared = sum(self.shares)

    @property
    def total(self):
        """How many events the pages tell of."""
        return self.told + self.shared

    @property
    def at_end(self):
        """How many were lost of which no page tells."""
        return max(self.counted - self.total, 0)


@dataclass
class Records:
    """Records in their order: when each came, its thread (which stands in its bytes from 4 to 8), and its bytes.

    What was lost between two stands among them, with a mark in place of bytes and the thread 0.
    """

    times: list
    threads: list
    payloads: list


def take_mark(found, page, count):
    """Adds a mark of events that were lost before a page."""
    time = max(int.from_bytes(page[:8], "little"), found.times[-1] if found.times else 0)
    found.times.append(time)
    found.threads.append(0)
    found.payloads.append(Lost(time, count))


def take_records(found, page, shape):
    """Adds the records of a page to those that were found. Times never fall: a clock that went back counts as if it had stood still."""
    now = int.from_bytes(page[:8], "little")
    end = shape.end(page) & ~3
    words = memoryview(page)[:end].cast("I")
    latest = found.times[-1] if found.times else 0
    at = shape.data
    while at < end:
        word = words[at >> 2]
        kind, delta = word & 31, word >> 5
        if kind <= 28:
            now += delta
            first = at + 4 if kind else at + 8
            size = 4 * kind if kind else size_at(words, at) - 4
            at = first + size
            if size < 0 or at > end:
                raise Refused(CUT)
            if now > latest:
                latest = now
            found.times.append(latest)
            found.threads.append(words[(first >> 2) + 1] if size >= 8 else 0)
            found.payloads.append(page[first:at])
            at = at + 3 & ~3
        elif kind == PADDING:
            if delta == 0:
                return
            now += delta
            at += 4 + (size_at(words, at) + 3 & ~3)
        else:
            whole = delta + (size_at(words, at) << 27)
            # A stamp has the lower 59 bits of the time.
            now = (now & ~((1 << 59) - 1)) + whole if kind == TIME_STAMP else now + whole
            at += 8


def size_at(words, at):
    """The number that stands behind the first word of a record."""
    place = (at >> 2) + 1
    if place >= len(words):
        raise Refused(CUT)
    return words[place]
