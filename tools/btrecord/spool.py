"""What comes while a recording is made, in files without names: the pages of rings."""
import itertools
import struct
from bisect import bisect_right

from output import nameless
from ring import Losses, Records, take_mark, take_records

LENGTH = struct.Struct("<I")
PAGES_AT_ONCE = 16


class Spool:
    """The pages of one CPU's ring, in the order in which they were read, each of which is shown to `see`. Marks stand among its records where
    `has_marks` holds."""

    def __init__(self, folder, shape, see=lambda page: None):
        self.see = see
        self.file = nameless(folder)
        self.shape = shape
        self.bytes = 0
        self.losses = Losses()
        self.has_marks = False

    def add(self, page, so_far=lambda: 0):
        """Keeps a page up to where its records end. `so_far` answers how many events the kernel counted as lost so far."""
        end = self.shape.end(page)
        if end > self.shape.data:
            whole = self.shape.whole(page)
            self.file.write(LENGTH.pack(len(whole)) + whole)
            self.bytes += end - self.shape.data
            self.see(whole)
            self.losses.see(self.shape.lost_before(page), so_far)

    def pages(self):
        """The pages that were kept, in their order."""
        self.file.seek(0)
        while head := self.file.read(LENGTH.size):
            yield self.file.read(LENGTH.unpack(head)[0])

    def chunks(self):
        """All records, those of some pages at a time."""
        return chunks_of(self.pages(), self.shape, self.losses if self.has_marks else None)


def chunks_of(pages, shape, losses=None):
    """The records of a CPU's pages, those of some pages at a time, with marks of what it lost where that is given."""
    latest = gaps = 0
    while True:
        found, count = Records([latest], [0], [b""]), 0
        for page in itertools.islice(pages, PAGES_AT_ONCE):
            lost = shape.lost_before(page) if losses else None
            if lost is not None:
                take_mark(found, page, lost or losses.shares[gaps])
                gaps += not lost
            take_records(found, page, shape)
            count += 1
        if not count:
            return
        latest = found.times[-1]
        yield Records(found.times[1:], found.threads[1:], found.payloads[1:])


class Stream:
    """The records of a CPU that are still to be taken."""

    def __init__(self, cpu, spool):
        self.cpu = cpu
        self.chunks = spool.chunks()
        self.chunk = Records([], [], [])
        self.at = 0

    def has_more(self):
        """Whether there are records; reads on where those at hand were taken."""
        while self.chunk and self.at == len(self.chunk.times):
            self.chunk, self.at = next(self.chunks, None), 0
        return self.chunk is not None

    def take(self, time):
        """The records up to a time."""
        begin, self.at = self.at, bisect_right(self.chunk.times, time, self.at)
        return Records(self.chunk.times[begin:self.at], self.chunk.threads[begin:self.at], self.chunk.payloads[begin:self.at])


def windows(spools, split=lambda time: time):
    """The records of all CPUs, those of a span of time at once: when it ends, and the CPUs with the records of each.

    The spans follow one another. `split` answers where one that could be so long has to end.
    """
    streams = [Stream(cpu, spool) for cpu, spool in sorted(spools.items())]
    while True:
        streams = [stream for stream in streams if stream.has_more()]
        if not streams:
            return
        until = split(min(stream.chunk.times[-1] for stream in streams))
        yield until, [(stream.cpu, found) for stream in streams for found in [stream.take(until)] if found.times]
