"""What the tests make: formats, pages of rings, recordings, and a tree of files that stands for tracefs."""
import contextlib
import importlib.util
import os
import re
import struct
import sys
import unittest.mock

HERE = os.path.dirname(os.path.abspath(__file__))
TOP = os.path.dirname(os.path.dirname(os.path.dirname(HERE)))
sys.path.insert(0, os.path.dirname(HERE))

from container import Lost, format_of  # noqa: E402
from reading import Mark, entries_of, read_recording  # noqa: E402
from tasks import Task  # noqa: E402

TEXT = b"name: tick\nID: 300\nformat:\n\tfield:int n;\toffset:8;\tsize:4;\tsigned:1;\n"
DEMO = format_of(b"demo", TEXT)
OTHER_TEXT = TEXT.replace(b"tick", b"tock").replace(b"300", b"301")
CLOCK = Task(1234, 1000, 100, b"clock").head(1235)
HEADER_PAGE = ("\tfield: u64 timestamp;\toffset:0;\tsize:8;\tsigned:0;\n\tfield: local_t commit;\toffset:8;\tsize:8;\tsigned:1;\n"
               "\tfield: int overwrite;\toffset:8;\tsize:1;\tsigned:1;\n\tfield: char data;\toffset:16;\tsize:4080;\tsigned:0;\n")
NEWTASK = (b"name: task_newtask\nID: 205\nformat:\n\tfield:unsigned short common_type;\toffset:0;\tsize:2;\tsigned:0;\n"
           b"\tfield:int common_pid;\toffset:4;\tsize:4;\tsigned:1;\n\n\tfield:pid_t pid;\toffset:8;\tsize:4;\tsigned:1;\n"
           b"\tfield:char comm[16];\toffset:12;\tsize:16;\tsigned:0;\n\tfield:unsigned long clone_flags;\toffset:32;\tsize:8;\tsigned:0;\n")
RENAME = (b"name: task_rename\nID: 204\nformat:\n\tfield:pid_t pid;\toffset:8;\tsize:4;\tsigned:1;\n"
          b"\tfield:char newcomm[16];\toffset:28;\tsize:16;\tsigned:0;\n")


def __getattr__(name):
    """The program itself, whose module has the name of the one that runs. It is loaded where a test asks for it."""
    if name != "program":
        raise AttributeError(name)
    if "btrecord" not in sys.modules:
        spec = importlib.util.spec_from_file_location("btrecord", f"{os.path.dirname(HERE)}/__main__.py")
        sys.modules["btrecord"] = importlib.util.module_from_spec(spec)
        spec.loader.exec_module(sys.modules["btrecord"])
    return sys.modules["btrecord"]


def payload(thread=1235, number=300, n=-2):
    """A raw record of DEMO."""
    return struct.pack("<HBBii", number, 0, 0, thread, n)


def word(kind, delta):
    """The first word of a record in a ring."""
    return struct.pack("<I", kind | delta << 5)


def page(time, *parts):
    """A page of these parts, in a buffer of 4,096 bytes."""
    data = b"".join(parts)
    return (struct.pack("<QQ", time, len(data)) + data).ljust(4096, b"\xee")


def missed(contents, count=None):
    """A page before which events were lost: so many, which stands behind its records, or nobody knows how many."""
    commit = struct.unpack_from("<Q", contents, 8)[0]
    number = b"" if count is None else struct.pack("<Q", count)
    whole = contents[:8] + struct.pack("<Q", commit | 1 << 31 | (0 if count is None else 1 << 30)) + contents[16:16 + commit] + number
    return whole + contents[len(whole):]


def lost(time, count):
    """A mark."""
    return Lost(time, count)


def entries(contents):
    """The entries of each CPU of a recording: an event as its time, and a mark."""
    found = read_recording(contents)
    return {number: [lost(entry.time, entry.count) if isinstance(entry, Mark) else entry.time for entry in entries_of(contents, found, place)]
            for place, (number, _) in enumerate(found.cpus)}


def ticks(time, *payloads):
    """A page with these records of 12 bytes, the first at a time and each 1 nanosecond behind the one before it."""
    return page(time, *(word(3, min(k, 1)) + record for k, record in enumerate(payloads)))


def rust_bytes(literal):
    """The bytes that a literal b"..." of a crate's source spells."""
    plain = re.sub(r"\\\n\s*", "", literal)
    escapes = {"n": "\n", "t": "\t", "r": "\r", "0": "\0", "\\": "\\", '"': '"'}
    return re.sub(r"\\(x[0-9a-f]{2}|.)", lambda m: chr(int(m[1][1:], 16)) if m[1][0] == "x" else escapes[m[1]], plain, flags=re.DOTALL).encode("latin-1")


LITERAL = r'b"((?:[^"\\]|\\[\s\S])*)"'


def rust_table(path, name):
    """The text of a table of a crate's source: what stands between its name and the line `];`."""
    with open(os.path.join(TOP, path)) as file:
        return re.search(rf"^const {name}: .*?= \[$(.*?)^\];$", file.read(), re.DOTALL | re.MULTILINE)[1]


class Kernel:
    """A tree of files that stands for a tracefs with the tracepoint demo:tick, and with pages in the rings of its instances."""

    def __init__(self, top, pages=None, stats=""):
        self.top = top
        self.pages = pages or {0: []}
        self.stats = stats
        self.refused = set()
        self.removed = {}
        self.real = os.mkdir, os.rmdir
        self.put("events/header_page", HEADER_PAGE.encode())
        self.add("demo", "tick", TEXT)
        os.makedirs(f"{top}/instances", exist_ok=True)

    def put(self, path, contents=b""):
        """Makes a file of the tree."""
        path = os.path.join(self.top, path)
        os.makedirs(os.path.dirname(path), exist_ok=True)
        with open(path, "wb") as file:
            file.write(contents)

    def add(self, system, event, text):
        """Adds a tracepoint."""
        self.put(f"events/{system}/{event}/format", text)
        self.put(f"events/{system}/{event}/enable", b"0")

    def mkdir(self, path, *rest, **named):
        """Makes a folder; an instance comes with its files."""
        self.real[0](path, *rest, **named)
        if os.path.dirname(path) != f"{self.top}/instances":
            return
        inside = os.path.relpath(path, self.top)
        for cpu, pages in self.pages.items():
            self.put(f"{inside}/per_cpu/cpu{cpu}/trace_pipe_raw", b"" if path.endswith("-tasks") else b"".join(pages))
            self.put(f"{inside}/per_cpu/cpu{cpu}/stats", (self.stats if isinstance(self.stats, str) else self.stats[cpu]).encode())
        for folder, _, files in os.walk(f"{self.top}/events"):
            if "enable" in files and folder not in self.refused:
                self.put(f"{inside}/{os.path.relpath(folder, self.top)}/enable", b"0")
        self.put(f"{inside}/set_event_pid")
        self.put(f"{inside}/options/event-fork", b"0")

    def rmdir(self, path, *rest, **named):
        """Removes a folder; an instance goes with its files, whose contents are kept for the test."""
        if os.path.dirname(path) == f"{self.top}/instances":
            kept = self.removed[os.path.basename(path)] = {}
            for folder, _, files in os.walk(path, topdown=False):
                for name in files:
                    with open(f"{folder}/{name}", "rb") as file:
                        kept[os.path.relpath(f"{folder}/{name}", path)] = file.read()
                    os.unlink(f"{folder}/{name}")
                if folder != path:
                    self.real[1](folder)
        self.real[1](path, *rest, **named)

    @contextlib.contextmanager
    def running(self):
        """Has the recorder find this tree's instances."""
        with unittest.mock.patch("os.mkdir", self.mkdir), unittest.mock.patch("os.rmdir", self.rmdir):
            yield self
