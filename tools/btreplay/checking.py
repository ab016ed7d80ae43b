"""Asks the program again and again whether it refuses a script, over the head of a recording alone.

What refuses a script is in the recording's head: its formats, its span and its CPUs. So a recording without events, with the same head, is put
into a file without a name, and each check takes some milliseconds, however long the recording is.
"""
import os
import subprocess

from btreplay.recorded import head_of, mapped
from btreplay.refusal import refusal_in
from container import CPU, HEADER, MAGIC

SECONDS = 10
SCRIPT = "script"


def without_entries(data, head):
    """The bytes of a recording with the formats and the span of another, and none of its events."""
    _, _, formats, start, end = HEADER.unpack_from(data)
    return HEADER.pack(MAGIC, head.cpus, formats, start, end) + bytes(data[HEADER.size:head.behind]) + b"".join(CPU.pack(cpu, 0) for cpu in range(head.cpus))


def in_memory(content):
    """A handle of a file without a name that holds these bytes."""
    handle = os.memfd_create("check", 0)
    with os.fdopen(os.dup(handle), "wb") as file:
        file.write(content)
    return handle


class Checks:
    """Checks of scripts by the program over one recording. The block ends with its file."""

    def __init__(self, program, recording):
        self.program = str(program)
        with mapped(recording) as data:
            self.head = head_of(data) if data is not None else None
            self.recording = in_memory(without_entries(data, self.head)) if self.head else None

    def __enter__(self):
        return self

    def refusal(self, text):
        """The first refusal of a script's text, or none: where it is accepted, and where the program cannot be asked."""
        if self.recording is None:
            return None
        script = in_memory(text.encode("latin-1"))
        try:
            names = [f"/dev/fd/{handle}" for handle in (script, self.recording)]
            done = subprocess.run([self.program, "check", *names], stdin=subprocess.DEVNULL, stdout=subprocess.DEVNULL, stderr=subprocess.PIPE,
                                  pass_fds=(script, self.recording), timeout=SECONDS)
        except (OSError, subprocess.TimeoutExpired):
            return None
        finally:
            os.close(script)
        return refusal_in(done.stderr, names[:1])

    def __exit__(self, *_):
        if self.recording is not None:
            os.close(self.recording)
