"""How far it is: on a terminal one line that is written again and again, and for what takes long a line of its own."""
import sys
import time

CLEAR = "\r\x1b[K"
WIDTH = 20
FIRST_SECONDS, TELL_SECONDS = 5, 30
MOST_NAMED = 5


def named(names):
    """Some names, and how many there are beside them."""
    return ", ".join(names[:MOST_NAMED]) + (f" and {len(names) - MOST_NAMED:,} more" if len(names) > MOST_NAMED else "")


class Progress:
    """What is told while one waits. On what is no terminal there is no line that is written again."""

    TURN = 0.2

    def __init__(self, stream=None):
        self.stream = stream or sys.stderr
        self.count, self.answered, self.failed, self.note = 0, 0, 0, ""
        self.began = time.monotonic()
        self.is_shown = self.stream.isatty()
        self.told = {}

    def show(self):
        """Writes the line: a bar of what has answered, and what is waited for."""
        if not self.is_shown or not self.count:
            return
        failed = f", {self.failed:,} failed" if self.failed else ""
        bar = "#" * (WIDTH * self.answered // self.count)
        text = f"[{bar:{WIDTH}}] {time.monotonic() - self.began:.0f} s: {self.answered:,} of {self.count:,} recordings answered{failed}{self.note}"
        self.stream.write(f"{CLEAR}btfleet: {text}")
        self.stream.flush()
        self.note = ""

    def tell(self, what, text, seconds):
        """Tells something that takes long: when it has taken some seconds, and then from time to time."""
        if self.is_shown:
            self.note = f"; {text}"
        if seconds >= self.told.get(what, FIRST_SECONDS):
            self.told[what] = seconds + TELL_SECONDS
            self.line(text)

    def line(self, text):
        """Writes a line that stays."""
        self.stream.write(f"{CLEAR if self.is_shown else ''}btfleet: {text}\n")
        self.stream.flush()

    def waits(self, hosts):
        """The hosts that have not told what lies there."""
        if hosts:
            self.tell("hosts", f"waiting for {named(hosts)} to tell which recordings are there", time.monotonic() - self.began)

    def silent(self, host, seconds):
        """A host that has not answered for so many seconds."""
        self.tell((host, "silent"), f"{host} has not answered for {seconds:.0f} seconds", seconds)

    def slow(self, word, seconds):
        """A recording that is asked for so many seconds."""
        if seconds >= FIRST_SECONDS:
            self.tell((word, "slow"), f"waiting for {word}, for {seconds:.0f} seconds now", seconds)

    def close(self):
        """Takes the line away, so that what comes next stands alone."""
        if self.is_shown:
            self.stream.write(CLEAR)
            self.stream.flush()
