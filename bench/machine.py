"""Whether this machine had all its processors to itself, which a virtual one mostly has not: its host keeps them for others now and then, and
a processor is half as fast while other work runs on the same core."""
import os
import struct
import time

# Turns of the loop by which the speed is told: some hundredths of a second.
TURNS = 400_000
# So many times the least that the loop ever took, at most, takes it on a processor at full speed. On a core that is shared it takes 1.7 to 2.
MOST = 1.25


def stolen():
    """Hundredths of a second for which the host kept processors, of all together since the system started; 0 where the system tells nothing."""
    try:
        with open("/proc/stat") as file:
            figures = file.readline().split()[1:]
    except OSError:
        return 0
    return int(figures[7]) if len(figures) > 7 else 0


def answer(asked, told):
    """Runs the loop whenever a byte comes, and tells how long it took."""
    while os.read(asked, 1):
        began = time.perf_counter()
        for _ in range(TURNS):
            pass
        os.write(told, struct.pack("<d", time.perf_counter() - began))


class Machine:
    """A process for each processor, which stays on it and waits, and the least that the loop took on one."""

    def __init__(self):
        self.ends = []
        for processor in sorted(os.sched_getaffinity(0)):
            asked, ask = os.pipe()
            tell, told = os.pipe()
            if os.fork() == 0:
                os.sched_setaffinity(0, {processor})
                os.close(ask)
                for other, _ in self.ends:
                    os.close(other)
                answer(asked, told)
                os._exit(0)
            os.close(asked)
            os.close(told)
            self.ends.append((ask, tell))
        self.least = min(min(self.seconds()) for _ in range(50))

    def seconds(self):
        """What the loop takes on each processor, on all at once."""
        for ask, _ in self.ends:
            os.write(ask, b".")
        return [struct.unpack("<d", os.read(tell, 8))[0] for _, tell in self.ends]

    def is_fast(self):
        """Whether each processor is at full speed."""
        seconds = self.seconds()
        self.least = min(self.least, *seconds)
        return max(seconds) <= MOST * self.least

    def watched(self, run):
        """What a run gives, and whether each processor was at full speed right before and right behind it and none was stolen meanwhile."""
        was_fast, before = self.is_fast(), stolen()
        figures = run()
        return figures, stolen() == before and was_fast and self.is_fast()
