"""Files that trace-cmd writes, as trace.dat: of its versions 6 and 7, also where they are compressed.

The pages trace-cmd.dat.v6(5) and trace-cmd.dat.v7(5) describe them.
"""
import re
from dataclasses import dataclass, field

from assembly import Assembly
from container import Lost, format_of, test_formats
from faults import Ended, Refused
from perfdata import Reader
from record import Made
from ring import Losses, page_shape
from signals import Signals, name_of
from spool import chunks_of, windows
from tasks import Change, Renaming, Tasks, task_changes
from unpacking import Packing, blocks_of_cpu

MAGIC = b"\x17\x08\x44tracing"
OPTIONS, FLYRECORD = b"options  \0", b"flyrecord\0"
OPTION_DONE, OPTION_CPUSTAT, OPTION_BUFFER, OPTION_CLOCK = 0, 2, 3, 4
OPTION_HEADER, OPTION_EVENTS, OPTION_NAMES = 16, 18, 21
COMPRESSED = 1
MOST_PAGE = 1 << 20
MOST_TIME = (1 << 64) - 1
# The clocks whose times are in nanoseconds.
CLOCKS = {"local", "global", "mono", "mono_raw", "boot", "tai", "perf"}
LOST = re.compile(r"^(?:overrun|commit overrun|dropped events): (\d{1,20})$", re.MULTILINE)
NO_PROCESSES = "the file does not tell processes: each thread counts as one, but for threads whose task:task_newtask is among the events"


class Pages:
    """The data of a CPU: pages of the kernel's ring. Where they are compressed they stand in blocks, which are to be unpacked first."""

    def __init__(self, data, at, size, page_bytes, packing=None):
        self.data, self.at, self.size, self.page_bytes = data, at, size, page_bytes
        self.shape, self.packing, self.blocks, self.losses = None, packing, (), None
        if at + size > len(data):
            raise Refused(f"the data of a CPU ends too soon, at byte {len(data)}")
        if packing and size:
            self.blocks = blocks_of_cpu(data, at)

    def unpack(self, folder):
        """Puts the pages into a file without a name, where they are compressed."""
        if self.packing:
            self.data, self.packing = self.packing.plain_file(self.data, self.blocks, folder), None
            self.at, self.size = 0, len(self.data)

    def pages(self):
        """The pages, in their order."""
        return (self.data[at:at + self.page_bytes] for at in range(self.at, self.at + self.size, self.page_bytes))

    def find_losses(self, counted):
        """Finds what the pages tell of losses, of which the kernel counted so many events. From now on marks stand among the records."""
        self.losses = Losses()
        for page in self.pages():
            self.losses.see(self.shape.lost_before(page))
        self.losses.settle(counted)

    def chunks(self):
        """All records, those of some pages at a time."""
        for found in chunks_of(self.pages(), self.shape, self.losses):
            if found.times and found.times[-1] > MOST_TIME:
                raise Refused("a page of the kernel's ring buffer has a time that no clock has")
            yield found


@dataclass
class Found:
    """What a file holds."""

    header_page: str = ""
    texts: list = field(default_factory=list)
    names: bytes = b""
    clock: str = "local"
    cpus: dict = field(default_factory=dict)
    lost: dict = field(default_factory=dict)
    others: int = 0

    def take_option(self, kind, value):
        """Notes an option that versions 6 and 7 have alike."""
        text = value.rstrip(b"\0").decode("utf-8", "replace")
        if kind == OPTION_CPUSTAT:
            self.lost.setdefault(text.partition("\n")[0], sum(map(int, LOST.findall(text))))
        elif kind == OPTION_CLOCK:
            self.clock = (re.findall(r"\[(\S+)\]", text) or [self.clock])[0]


def read_headers(r, found):
    """The description of pages; that of records is passed over."""
    for name in (b"header_page", b"header_event"):
        if r.text() != name:
            raise Refused("the file has no description of the kernel's pages")
        text = r.take(r.number(8))
        if name == b"header_page":
            found.header_page = text.decode("utf-8", "replace")


def read_systems(r, found):
    """The texts of all formats, each with its system."""
    for _ in range(r.number(4)):
        system = r.text()
        found.texts += [(system, r.take(r.number(8))) for _ in range(r.number(4))]


def page_bytes(size):
    """The size of a page, where it can be one."""
    if not 64 <= size <= MOST_PAGE:
        raise Refused(f"the file's pages have {size} bytes")
    return size


def read_version_6(r, size):
    """The contents of a file of version 6, one part behind the other."""
    found = Found()
    read_headers(r, found)
    for _ in range(r.number(4)):
        r.take(r.number(8))
    read_systems(r, found)
    for _ in range(2):
        r.take(r.number(4))
    found.names = r.take(r.number(8))
    cpus = r.number(4)
    part = r.take(len(FLYRECORD))
    if part == OPTIONS:
        while kind := r.number(2):
            value = r.take(r.number(4))
            found.others += kind == OPTION_BUFFER
            found.take_option(kind, value)
        part = r.take(len(FLYRECORD))
    if part != FLYRECORD:
        raise Refused("the file holds text and no events (trace-cmd's latency format)")
    for cpu in range(cpus):
        found.cpus[cpu] = Pages(r.data, r.number(8), r.number(8), page_bytes(size))
    return found


def read_version_7(r, path):
    """The contents of a file of version 7, which stand where its options say."""
    found, seen, packing = Found(), set(), Packing(r.text(), path)
    r.text()
    at = r.number(8)
    while at and at not in seen:
        seen.add(at)
        options, end = section(r.data, at, packing)
        at = 0
        while options.at < end:
            kind, value = options.number(2), options.take(options.number(4))
            if kind == OPTION_DONE:
                at = int.from_bytes(value, "little")
                break
            take_option_7(found, kind, value, r.data, packing)
    return found


def section_head(data, at):
    """The head of a section of version 7: a reader of what stands behind it, its size, and whether that is compressed."""
    r = Reader(data, at, "a section")
    _, flags, _, size = r.number(2), r.number(2), r.number(4), r.number(8)
    return r, size, bool(flags & COMPRESSED)


def section(data, at, packing):
    """A section of version 7: a reader of it, and where it ends."""
    r, size, is_packed = section_head(data, at)
    if is_packed:
        plain = packing.plain_block(data, r.at)
        return Reader(plain, 0, "a section"), len(plain)
    return r, min(r.at + size, len(data))


def take_option_7(found, kind, value, data, packing):
    """Notes an option of version 7, and what stands where it says."""
    r = Reader(value, 0, "an option")
    if kind == OPTION_BUFFER:
        take_buffer(found, r, data, packing)
    elif kind == OPTION_HEADER:
        read_headers(section(data, r.number(8), packing)[0], found)
    elif kind == OPTION_EVENTS:
        read_systems(section(data, r.number(8), packing)[0], found)
    elif kind == OPTION_NAMES:
        names = section(data, r.number(8), packing)[0]
        found.names = names.take(names.number(8))
    else:
        found.take_option(kind, value)


def take_buffer(found, r, data, packing):
    """Notes where the data of the CPUs stands, of the buffer that is no instance's."""
    at, name, clock, size = r.number(8), r.text(), r.text(), r.number(4)
    if name:
        found.others += 1
        return
    is_packed = section_head(data, at)[2]
    found.clock = clock.decode("utf-8", "replace") or found.clock
    for _ in range(r.number(4)):
        cpu = r.number(4)
        found.cpus[cpu] = Pages(data, r.number(8), r.number(8), page_bytes(size), packing if is_packed else None)


def read(data, path):
    """What a file holds."""
    r = Reader(data, len(MAGIC), "the file")
    version = r.text()
    if r.number(1):
        raise Refused("the file was written on a big-endian machine, whose records can't be replayed")
    r.take(1)
    size = r.number(4)
    if version not in (b"6", b"7"):
        raise Refused(f"the file is of version {version.decode(errors='replace')}, and 6 and 7 can be converted")
    found = read_version_6(r, size) if version == b"6" else read_version_7(r, path)
    if found.clock not in CLOCKS:
        raise Refused(f"its times are of the clock {found.clock}, and not in nanoseconds; record again by: trace-cmd record -C mono ..")
    if not found.cpus:
        raise Refused("the file has no events of the top instance" + ("; those of other instances can't be converted" if found.others else ""))
    shape = page_shape(found.header_page)
    for pages in found.cpus.values():
        pages.shape = shape
    return found


def formats_of(found):
    """The formats of a file, and why some can't stand in a recording."""
    formats, notes = [], []
    for system, text in found.texts:
        try:
            formats.append(format_of(system, bytes(text)))
        except Refused as refused:
            notes.append(str(refused))
    test_formats(formats)
    return formats, notes


def names_in(lines):
    """The names of threads as the kernel saved them, as what is known from the start on."""
    for line in lines.split(b"\n"):
        number, _, name = line.partition(b" ")
        if number.isdigit() and len(number) < 10:
            yield Change(0, int(number), name=name[:15])


def assemble(found, formats, assembly, signals):
    """Puts the events into the assembly, and answers for how many threads nothing is known."""
    texts = [format for format in formats if format.name in ("task:task_newtask", "task:task_rename")]
    tasks, renaming = Tasks([*names_in(found.names), *(task_changes(texts, windows(found.cpus)) if texts else ())], 0), Renaming(formats)
    # What tells of tasks was read before there are marks among the records.
    for cpu, pages in found.cpus.items():
        pages.find_losses(found.lost.get(f"CPU: {cpu}", 0))
    for until, window in windows(found.cpus, tasks.until):
        came = signals.wait(0)
        if came:
            raise Ended(came, name_of(came))
        if assembly.is_full:
            pass_over(window, assembly)
        else:
            assembly.take_window([(cpu, of.times, renaming.heads(tasks, cpu, of), of.payloads) for cpu, of in window])
        tasks.go_to(until + 1)
    for cpu, pages in found.cpus.items():
        if pages.losses.at_end:
            assembly.lose(cpu, assembly.last or 0, pages.losses.at_end)
    return len(tasks.unknown)


def pass_over(window, assembly):
    """Counts what comes once the assembly is full."""
    for cpu, of in window:
        marks = [payload for payload in of.payloads if isinstance(payload, Lost)]
        assembly.miss(cpu, len(of.times) - len(marks), of.times[0])
        for lost in marks:
            assembly.lose(cpu, lost.time, lost.count)


def convert_trace(data, path, open_output, with_marks=True):
    """Makes a recording of a file of trace-cmd, and writes it to what `open_output` answers."""
    found = read(data, path)
    formats, notes = formats_of(found)
    with open_output() as output:
        for pages in found.cpus.values():
            pages.unpack(output.folder)
        with Signals() as signals:
            assembly = Assembly(formats, found.cpus, output.folder, with_marks)
            unknown = assemble(found, formats, assembly, signals)
            start, end = assembly.span(assembly.first or 0, assembly.last or 0)
            with output.writing() as file:
                assembly.write(file, start, end)
    notes = [NO_PROCESSES] + ([f"nothing is known of {unknown:,} threads"] if unknown else []) + notes
    if found.clock == "local":
        notes.append("its clock is local: times of different CPUs may differ a little (trace-cmd record -C mono has one for all)")
    if found.others:
        notes.append(f"{found.others} other instances of the file are left out")
    without_pages = sum(lost for name, lost in found.lost.items() if name not in {f"CPU: {cpu}" for cpu in found.cpus})
    return Made(assembly, sum(pages.losses.total + pages.losses.at_end for pages in found.cpus.values()) + without_pages, notes)
