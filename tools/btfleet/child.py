"""A run of the program as a child with limits: of memory, of time, and of what it may print."""
import contextlib
import os
import resource
import selectors
import signal
import subprocess
import threading
import time
from dataclasses import dataclass

PIECE = 1 << 16
MOST_TOLD = 1 << 16
TURN_SECONDS = 0.5
KILL_SECONDS = 5
OOM_COUNT = "oom_kill "


@dataclass(frozen=True)
class Limits:
    """What a run may take: bytes of memory, where it is not 0, seconds, and bytes that it prints."""

    memory: int = 0
    seconds: float = 3600
    printed: int = 256 << 20


@dataclass(frozen=True)
class Ended:
    """How a run ended: its status, what it printed and told, and why this ended it, if it did."""

    status: int
    printed: bytes
    told: bytes
    why: str = ""


class Child:
    """A run that goes on in the thread that called `ended`, and can be ended from another one."""

    def __init__(self, words, limits, handles=()):
        self.words, self.limits, self.handles = words, limits, handles
        self.process, self.why, self.lock = None, "", threading.Lock()

    def end(self, why):
        """Ends it, for a reason; also where it has not begun."""
        with self.lock:
            self.why = self.why or why
            if self.process and self.process.returncode is None:
                self.kill()

    def kill(self):
        """Kills it with all that it began."""
        with contextlib.suppress(ProcessLookupError):
            os.killpg(self.process.pid, signal.SIGKILL)

    def begin(self):
        """Begins the run, where it was not ended before."""
        with self.lock:
            if not self.why:
                self.process = subprocess.Popen(self.words, stdin=subprocess.DEVNULL, stdout=subprocess.PIPE, stderr=subprocess.PIPE,
                                                pass_fds=self.handles, start_new_session=True)

    def limit(self):
        """Sets the limits that the system holds. The one of processor seconds ends a run whose parent is gone."""
        seconds = int(self.limits.seconds) + 1
        try:
            resource.prlimit(self.process.pid, resource.RLIMIT_CPU, (seconds, seconds + 1))
            resource.prlimit(self.process.pid, resource.RLIMIT_CORE, (0, 0))
            if self.limits.memory:
                resource.prlimit(self.process.pid, resource.RLIMIT_AS, (self.limits.memory, self.limits.memory))
        except ProcessLookupError:
            pass

    def read(self):
        """What it prints and tells, as far as its limits go."""
        printed, told, until = bytearray(), bytearray(), time.monotonic() + self.limits.seconds
        with selectors.DefaultSelector() as streams:
            streams.register(self.process.stdout, selectors.EVENT_READ, (printed, self.limits.printed))
            streams.register(self.process.stderr, selectors.EVENT_READ, (told, MOST_TOLD))
            while streams.get_map():
                for key, _ in streams.select(TURN_SECONDS):
                    piece = os.read(key.fd, PIECE)
                    into, most = key.data
                    into += piece[:most - len(into)]
                    if not piece:
                        streams.unregister(key.fileobj)
                    elif into is printed and len(into) >= most:
                        self.end(f"it printed more than {most:,} bytes")
                if time.monotonic() > until:
                    self.end(f"its run took more than {self.limits.seconds:g} seconds")
                if self.why and time.monotonic() > until + KILL_SECONDS:
                    break
        return bytes(printed), bytes(told)

    def ended(self):
        """Runs it, and gives how it ended."""
        before = killed_for_memory()
        self.begin()
        if not self.process:
            return Ended(-signal.SIGKILL, b"", b"", self.why)
        try:
            self.limit()
            with self.process.stdout, self.process.stderr:
                printed, told = self.read()
            status = self.process.wait(KILL_SECONDS)
        except subprocess.TimeoutExpired:
            return Ended(-signal.SIGKILL, b"", told, f"{self.why}, and it cannot be ended, as where a disk does not answer")
        except BaseException:
            self.kill()
            raise
        why = self.why
        if status == -signal.SIGKILL and not why and killed_for_memory() > before:
            why = "its run was killed for want of memory"
        return Ended(status, printed, told, why)


def killed_for_memory():
    """How many processes this kernel has killed for want of memory."""
    try:
        with open("/proc/vmstat") as file:
            return next((int(line[len(OOM_COUNT):]) for line in file if line.startswith(OOM_COUNT)), 0)
    except OSError:
        return 0
