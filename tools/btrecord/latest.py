"""A recording that keeps the latest events: the kernel overwrites its rings, and what they hold at the end is written."""
import time
from array import array
from collections import deque

import container
from container import EVENT, EVENT_BYTE, MARK
from looks import Looks, changes_in
from output import nameless
from spool import windows

AGAIN_SECONDS = 10
MOST_ROLLING = 1 << 23


class RollingLooks(Looks):
    """Looks at threads without an end: who did not change is not written again, and of what was written the latest part is kept."""

    def __init__(self, folder, proc="/proc", clock=lambda: 0):
        super().__init__(folder, proc, clock)
        self.folder = folder
        self.older = None
        self.last = {}
        self.again = 0

    def look(self, now=None, due=float("inf")):
        """Looks at new threads, and every few seconds at all, since the kernel's word of a new name may be overwritten."""
        if self.bytes > MOST_ROLLING:
            self.older, self.file, self.bytes = self.file, nameless(self.folder), 0
            self.last, self.again = {}, 0
        if time.monotonic() >= self.again:
            self.known, self.again = set(), time.monotonic() + AGAIN_SECONDS
        super().look(now, due)
        self.last = {thread: self.last[thread] for thread in self.known if thread in self.last}

    def keep(self, thread, look):
        """Writes a look that shows something else than the last one did."""
        if self.last.get(thread) != look[8:]:
            super().keep(thread, look)
            self.last[thread] = look[8:]

    def changes(self):
        """What was found, by time."""
        if self.older:
            yield from changes_in(self.older)
            yield from changes_in(self.file)
        else:
            yield from super().changes()


def whole_from(main):
    """From when on the rings have all events of all CPUs: behind the time up to which one was overwritten."""
    latest = 0
    for ring in main.rings.values():
        first = next(ring.spool.chunks(), None) if ring.overwritten() else None
        latest = max(latest, first.times[0] if first else 0)
    return latest


def fits_from(spools, room, go_on=lambda: None, marks=0):
    """From when on all events fit into a recording that has room for so many bytes of them and of so many marks. Asks now and then whether to
    go on."""
    events = size = 0
    most, room, each = container.MOST_ENTRIES - marks, room - MARK.size * marks, EVENT.size + (len(EVENT_BYTE) if marks else 0)
    held = deque()
    for until, found in windows(spools):
        go_on()
        times = array("Q", (time for _, of in found for time in of.times))
        sizes = array("I", (each + len(payload) for _, of in found for payload in of.payloads))
        held.append((until, times, sizes, sum(sizes)))
        events, size = events + len(times), size + held[-1][3]
        while len(held) > 1 and (events - len(held[0][1]) > most or size - held[0][3] > room):
            _, times, _, bytes_of_first = held.popleft()
            events, size = events - len(times), size - bytes_of_first
    if not held or events <= most and size <= room:
        return 0
    # The first that is held is where the limit lies: what is behind it fits, and of it the latest.
    until, times, sizes, bytes_of_first = held[0]
    return border(until, zip(times, sizes), most - events + len(times), room - size + bytes_of_first)


def border(until, pairs, events, room):
    """Of events up to a time, each with its bytes, from when on they fit. Those of one time stay together."""
    begin, by_time = until + 1, {}
    for time, size in pairs:
        count, whole = by_time.get(time, (0, 0))
        by_time[time] = count + 1, whole + size
    for time in sorted(by_time, reverse=True):
        events, room = events - by_time[time][0], room - by_time[time][1]
        if events < 0 or room < 0:
            break
        begin = time
    return begin
