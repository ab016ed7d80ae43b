"""How far work is: on a terminal a bar that is drawn anew, elsewhere a line for each step."""
import contextlib
import sys
import threading
import time
from dataclasses import dataclass

WIDTH = 30
EVERY = 0.5


@dataclass(frozen=True)
class Step:
    """A step of the work: what is done, and for about how many seconds."""

    name: str
    seconds: float


class Progress:
    """The progress of steps of work, told on standard error."""

    def __init__(self, steps):
        self.steps, self.at, self.begun = steps, -1, 0.0
        self.is_terminal = sys.stderr.isatty()
        self.ended, self.drawing = threading.Event(), None

    def left(self):
        """About how many seconds are left, and which share of the work is done."""
        whole = sum(step.seconds for step in self.steps)
        step = self.steps[self.at]
        in_step = min(time.monotonic() - self.begun, step.seconds)
        done = sum(step.seconds for step in self.steps[:self.at]) + in_step
        return whole - done, done / whole

    def line(self):
        """What is done, and how long is left."""
        seconds, _ = self.left()
        last = f"about {max(round(seconds), 1)} seconds left" if seconds >= 1 else "nearly there"
        return f"{self.steps[self.at].name} ({self.at + 1} of {len(self.steps)}), {last}"

    def draw(self):
        """Draws the bar anew until the work ends."""
        while not self.ended.wait(EVERY):
            share = round(self.left()[1] * WIDTH)
            self.write(f"\r\033[Kbtreplay: [{'#' * share}{'.' * (WIDTH - share)}] {self.line()}")
        self.write("\r\033[K")

    def write(self, text):
        """Writes to standard error, where that can be written to."""
        with contextlib.suppress(OSError, ValueError):
            sys.stderr.write(text)
            sys.stderr.flush()

    def next(self):
        """The next step begins."""
        self.at, self.begun = self.at + 1, time.monotonic()
        if not self.is_terminal:
            self.write(f"btreplay: {self.line()}\n")
        elif not self.drawing:
            self.drawing = threading.Thread(target=self.draw, daemon=True)
            self.drawing.start()

    def end(self):
        """The work has ended, well or not: the bar is taken away."""
        self.ended.set()
        if self.drawing:
            self.drawing.join()


@contextlib.contextmanager
def told(steps):
    """The progress of steps, which ends with the block."""
    progress = Progress(steps)
    try:
        yield progress
    finally:
        progress.end()
