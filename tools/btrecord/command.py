"""A command that runs while it is recorded: it is there, with its number, before it begins, and begins when it is told to."""
import contextlib
import os
import resource
import shutil
import signal
import sys
import time

from faults import WORDS, Refused

GO = b"g"
LAST_SECONDS = 5
# Python ignores these; programs that it starts expect them as they are by default.
OF_PYTHON = (signal.SIGPIPE, signal.SIGXFSZ)


class Command:
    """The command in a process of its own. Where its block ends by a fault, the command ends too."""

    # How many files a process may have open, before that is raised for the rings.
    limits = resource.getrlimit(resource.RLIMIT_NOFILE)

    def __init__(self, words, signals, is_output_taken):
        self.words = words
        self.path = shutil.which(words[0])
        if not self.path:
            raise Refused(f"{words[0]}: there is no such command", WORDS)
        self.signals = signals
        self.is_output_taken = is_output_taken
        self.process = None
        self.status = None
        self.was_ended = False

    def __enter__(self):
        wait, self.gate = os.pipe()
        self.answer, fault = os.pipe()
        sys.stdout.flush()
        sys.stderr.flush()
        self.process = os.fork()
        if self.process == 0:
            os.close(self.gate)
            self.begin(wait, fault)
        os.close(wait)
        os.close(fault)
        return self

    def begin(self, wait, fault):
        """What the command's process does: it waits, and becomes the command. It never returns."""
        try:
            if self.is_output_taken:
                os.dup2(2, 1)
            resource.setrlimit(resource.RLIMIT_NOFILE, self.limits)
            for number in OF_PYTHON:
                signal.signal(number, signal.SIG_DFL)
            self.signals.give_back(OF_PYTHON)
            if os.read(wait, 1) == GO:
                os.execv(self.path, self.words)
        except OSError as error:
            os.write(fault, str(error.errno).encode())
        finally:
            os._exit(127)

    def go(self):
        """Begins the command, unless a signal ended its process before."""
        with contextlib.suppress(BrokenPipeError):
            os.write(self.gate, GO)
        fault = os.read(self.answer, 16)
        if fault:
            raise Refused(f"{self.path}: {os.strerror(int(fault))}", WORDS)

    def has_ended(self):
        """Whether the command has ended."""
        if self.status is None:
            process, status = os.waitpid(self.process, os.WNOHANG)
            if process:
                self.status = -os.WTERMSIG(status) if os.WIFSIGNALED(status) else os.WEXITSTATUS(status)
        return self.status is not None

    def end(self):
        """Has the command end that did not yet."""
        if not self.has_ended():
            self.was_ended = True
            os.kill(self.process, signal.SIGTERM)

    def wait(self):
        """Waits for a command that was told to end, for some seconds or until a signal comes. Answers whether it has ended."""
        due = time.monotonic() + LAST_SECONDS
        while not self.has_ended() and time.monotonic() < due and not self.signals.wait(0.02):
            pass
        return self.has_ended()

    def told(self):
        """How it ended."""
        if self.status < 0:
            return f"{self.words[0]} was ended by signal {-self.status}"
        return f"{self.words[0]} ended" + (f" with status {self.status}" if self.status else "")

    def exit_status(self, was_signalled):
        """The status of the command as the shell tells it; 0 where a signal ended it that was meant to end the recording."""
        if self.status is None or self.status < 0 and (was_signalled or self.was_ended):
            return 0
        return self.status if self.status >= 0 else 128 - self.status

    def __exit__(self, kind, *_):
        os.close(self.gate)
        os.close(self.answer)
        if kind is not None:
            self.end()
            self.wait()
