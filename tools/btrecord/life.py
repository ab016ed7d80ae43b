"""What is told while a recording is made: a line at the start, and signs of life."""
import sys
import time

import container

# On a terminal one line is written again and again; elsewhere lines come seldom.
TERMINAL_SECONDS, OTHER_SECONDS = 1, 30
CLEAR = "\r\x1b[K"


def told_start(asked, formats, cpus, output):
    """The line at the start: what is recorded, where to, and what ends it."""
    who = f"on {cpus} CPU{'' if cpus == 1 else 's'}"
    if asked.command and not asked.is_all:
        who = f"of {asked.command[0]} and what it starts (-a records all)"
    elif asked.processes:
        one = len(asked.processes) == 1
        who = f"of {'process' if one else 'processes'} {', '.join(map(str, asked.processes))} and what {'it starts' if one else 'they start'}"
    until = [f"{asked.seconds:g} s are over"] if asked.seconds else []
    until += [f"{asked.command[0]} ends"] if asked.command else ["it ends" if one else "they end"] if asked.processes else []
    kept = ", of which the latest events are kept" if asked.keeps_latest else ""
    return (f"recording {formats:,} tracepoint{'' if formats == 1 else 's'} {who} into {output}{kept}, until "
            + ", ".join(until + ["Ctrl-C comes"]).replace(", Ctrl-C", " or Ctrl-C"))


class Signs:
    """Signs of life on a stream, each after so many seconds. A stream that a command shares has no line that is written again."""

    def __init__(self, stream=None, is_shared=False):
        self.stream = stream or sys.stderr
        self.is_terminal = self.stream.isatty() and not is_shared
        self.began = time.monotonic()
        self.seconds = TERMINAL_SECONDS if self.is_terminal else OTHER_SECONDS
        self.next = self.began + self.seconds
        self.is_open = False

    def is_due(self):
        """Whether it is time for one."""
        return time.monotonic() >= self.next

    def show(self, text):
        """Shows one."""
        now = time.monotonic()
        self.next = now + self.seconds
        line = f"btrecord: {now - self.began:.0f} s: {text}"
        self.stream.write(CLEAR + line if self.is_terminal else f"{line}\n")
        self.stream.flush()
        self.is_open = self.is_terminal

    def close(self):
        """Takes the line away, so that what comes next stands alone."""
        if self.is_open:
            self.stream.write(CLEAR)
            self.stream.flush()
            self.is_open = False


class Silence:
    """No signs of life."""

    def is_due(self):
        """Never."""
        return False

    def close(self):
        """There is nothing to take away."""


def told_growing(events, size, lost):
    """How far a recording is that keeps the earliest events: how many there are, which share of the limits, and how many were lost."""
    share = max(events / container.MOST_ENTRIES, size / container.MOST_BYTES)
    return f"{events:,} events, {min(100 * share, 100):.0f} % of what a recording holds, {lost:,} lost"


def told_rolling(entries, overwritten, lost):
    """What a recording has that keeps the latest events."""
    return f"{entries:,} events, {overwritten:,} earlier ones overwritten, {lost:,} lost"
