"""Where a recording goes: tested before there is one, and written whole or not at all where that can be."""
import contextlib
import os
import stat
import sys
import tempfile

from faults import WRITE, WORDS, Refused, of_file


def nameless(folder):
    """A file without a name, which is gone with the program, however that ends."""
    return tempfile.TemporaryFile(prefix=".btrecord-", dir=folder)


class Output:
    """A file, a device, a pipe, or standard output.

    A regular file and a new name are replaced at once, by a file that is written beside them; of a link it is the file that it
    leads to. What else is there already is opened here and written into. `folder` is where the program's own files go meanwhile.
    """

    def __init__(self, path):
        self.path = path
        self.is_standard = path == "-"
        self.name = "standard output" if self.is_standard else path
        self.old = None
        self.stream = None
        self.folder = None
        try:
            self.open()
        except OSError as error:
            raise of_file(path, error, WRITE) from error

    def open(self):
        """Looks at what the name stands for."""
        if self.is_standard:
            if not sys.stdout:
                raise Refused("standard output is closed", WRITE)
            if sys.stdout.isatty():
                raise Refused("standard output is a terminal, and a recording is no text: name a file by -o", WORDS)
            self.stream = os.fdopen(os.dup(sys.stdout.fileno()), "wb")
            return
        try:
            self.old = os.stat(self.path)
        except FileNotFoundError:
            pass
        if self.old and stat.S_ISDIR(self.old.st_mode):
            raise Refused(f"{self.path} is a folder", WRITE)
        if self.old and not stat.S_ISREG(self.old.st_mode):
            self.stream = os.fdopen(os.open(self.path, os.O_WRONLY), "wb")
            return
        self.target = os.path.realpath(self.path)
        self.folder = os.path.dirname(self.target)
        if not os.path.basename(self.path) or not os.path.isdir(self.folder):
            raise Refused(f"{self.path}: there is no folder {self.folder if os.path.basename(self.path) else self.path}", WRITE)
        if self.old:
            os.close(os.open(self.target, os.O_WRONLY))
        nameless(self.folder).close()

    def scratch(self):
        """A file for what is not yet whole: beside the output, or where the system has such files."""
        return nameless(self.folder)

    @contextlib.contextmanager
    def writing(self):
        """The open file that takes the recording, from its first byte to its last. It is in its place where the block ends well."""
        try:
            if self.stream:
                yield self.stream
                self.stream.flush()
            else:
                with self.replacing() as file:
                    yield file
        except OSError as error:
            raise of_file(self.path, error, WRITE) from error

    @contextlib.contextmanager
    def replacing(self):
        """A file beside the target that takes its place at once, with the mode and the owner of the one that was there."""
        handle, name = tempfile.mkstemp(prefix=".btrecord-", dir=self.folder)
        try:
            with os.fdopen(handle, "wb") as file:
                yield file
                file.flush()
                if self.old and os.geteuid() == 0:
                    os.chown(handle, self.old.st_uid, self.old.st_gid)
                os.chmod(handle, self.old.st_mode & 0o777 if self.old else 0o666 & ~mask())
                os.fsync(handle)
            os.replace(name, self.target)
        except BaseException:
            os.unlink(name)
            raise

    def __enter__(self):
        return self

    def __exit__(self, kind, *_):
        if self.stream:
            try:
                self.stream.close()
            except OSError as error:
                # What could not be written was told already, where the block ends by it.
                if kind is None:
                    raise of_file(self.path, error, WRITE) from error


def mask():
    """The bits that new files lack."""
    found = os.umask(0o077)
    os.umask(found)
    return found
