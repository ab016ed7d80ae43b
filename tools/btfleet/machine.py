"""Which machine this is, as far as files are concerned: two processes for which all of it is one see the same files by the same paths."""
import contextlib
import os
import socket
from dataclasses import asdict, dataclass

MACHINE, BOOT, MOUNTS = "/etc/machine-id", "/proc/sys/kernel/random/boot_id", "/proc/self/ns/mnt"


@dataclass(frozen=True)
class Machine:
    """The machine's id, the id of this boot of it, the view of its mounts, and its name. What is not known is empty."""

    machine: str
    boot: str
    mounts: str
    name: str

    def fields(self):
        """It as fields of a message."""
        return asdict(self)

    @property
    def kernel(self):
        """What tells one running kernel from another."""
        return self.machine, self.boot

    def place(self):
        """What tells apart those who see other files by one path."""
        return self.machine, self.boot, self.mounts


def first_line(path):
    """The first line of a file, or nothing where it cannot be read."""
    with contextlib.suppress(OSError):
        with open(path, encoding="ascii", errors="replace") as file:
            return file.readline().strip()
    return ""


def this_machine():
    """The machine that this process runs on. A root folder of its own is a view of its own."""
    mounts = ""
    with contextlib.suppress(OSError):
        root = os.stat("/")
        mounts = f"{os.readlink(MOUNTS)} {root.st_dev}:{root.st_ino}"
    return Machine(first_line(MACHINE), first_line(BOOT), mounts, socket.gethostname())


def machine_of(fields):
    """The machine that fields of a message tell; none where they tell none."""
    names = ("machine", "boot", "mounts", "name")
    if not isinstance(fields, dict) or not all(isinstance(fields.get(name), str) for name in names):
        return None
    return Machine(*(fields[name] for name in names))
