"""What a recording is: a regular file, known by its device and number, its size and time, and the checksum of its head and its end.

It is looked at before it is opened, and opened so that nothing waits for a writer: a pipe or a device is told, and not read.
"""
import hashlib
import os
import stat
from dataclasses import asdict, dataclass

HEAD = 65_536
NOT_THERE = "there is no such file there that can be read"
NOT_REGULAR = "it is no regular file there"


class NoRecording(Exception):
    """Why there is no recording at a path."""


@dataclass(frozen=True)
class Recording:
    """A file as it was seen: the device and the number in it, the size in bytes, the time when it was written in nanoseconds, and a checksum."""

    device: int
    number: int
    size: int
    written: int
    checksum: str

    def fields(self):
        """It as fields of a message."""
        return asdict(self)

    def alike(self):
        """What a file on a shared disk has alike on each host that sees it."""
        return self.number, self.size, self.written, self.checksum


def is_within(path, folders):
    """Whether a path, links followed, is in one of the folders, or there are none."""
    whole = os.path.realpath(path)
    return not folders or any(os.path.commonpath([whole, os.path.realpath(folder)]) == os.path.realpath(folder) for folder in folders)


def checksum_of(handle, size):
    """The checksum of a file's first bytes and of its last."""
    found = hashlib.sha256(os.pread(handle, HEAD, 0))
    found.update(os.pread(handle, HEAD, max(size - HEAD, 0)))
    return found.hexdigest()


def look(path, folders=()):
    """The recording at a path; NoRecording where there is none, or where it lies outside of the folders, if there are some."""
    try:
        if not stat.S_ISREG(os.stat(path).st_mode):
            raise NoRecording(NOT_REGULAR)
        if not is_within(path, folders):
            raise NoRecording(f"the host lets recordings be read from {', '.join(folders)} alone")
        handle = os.open(path, os.O_RDONLY | os.O_NONBLOCK | os.O_NOCTTY | os.O_CLOEXEC)
        try:
            found = os.fstat(handle)
            if not stat.S_ISREG(found.st_mode):
                raise NoRecording(NOT_REGULAR)
            return Recording(found.st_dev, found.st_ino, found.st_size, found.st_mtime_ns, checksum_of(handle, found.st_size))
        finally:
            os.close(handle)
    except (OSError, ValueError) as error:
        raise NoRecording(NOT_THERE) from error


def recording_of(fields):
    """The recording that fields of a message tell; none where they tell none."""
    kinds = {"device": int, "number": int, "size": int, "written": int, "checksum": str}
    if not isinstance(fields, dict) or any(type(fields.get(name)) is not kind for name, kind in kinds.items()):
        return None
    return Recording(**{name: fields[name] for name in kinds})
