"""Tests of the converter of trace-cmd's files, which are made here from what trace-cmd.dat.v6(5) and trace-cmd.dat.v7(5) say."""
import contextlib
import io
import os
import pathlib
import shutil
import struct
import subprocess
import tempfile
import unittest
import unittest.mock
import zlib

from made import HEADER_PAGE, NEWTASK, OTHER_TEXT, RENAME, TEXT, entries, lost, missed, page, payload, program, ticks, word

import unpacking
from faults import REFUSED, Refused
from reading import read_recording
from tracedat import read

CLOCK = b"local global [mono] boot\n\0"
STATS = b"CPU: 0\nentries: 0\noverrun: 3\ncommit overrun: 1\nbytes: 9\noldest event ts: 7.5\ndropped events: 2\nread events: 9\n\0"
NAMES = b"1235 clock\n77 two words\n<...> x\n9 \n"
PAGES = {0: [ticks(100, payload(77), payload()), ticks(200, payload(5))], 1: [], 2: [ticks(150, payload(0), payload(1235))]}
# What the pages hold: CPU, time, process, ID, name.
EVENTS = [(0, 100, 77, b"two words", 300), (0, 101, 1235, b"clock", 300), (0, 200, 5, b"<...>", 300),
          (2, 150, 0, b"swapper/2", 300), (2, 151, 1235, b"clock", 300)]


def long(contents):
    """Bytes with their size of 8 bytes before them."""
    return struct.pack("<Q", len(contents)) + contents


def headers():
    """The description of pages and of records."""
    return b"header_page\0" + long(HEADER_PAGE.encode()) + b"header_event\0" + long(b"# compressed entry header\n")


def systems(texts):
    """The formats of one system, and one without any."""
    return struct.pack("<I", 2) + b"demo\0" + struct.pack("<I", len(texts)) + b"".join(map(long, texts)) + b"task\0" + struct.pack("<I", 0)


def option(kind, value):
    """An option."""
    return struct.pack("<HI", kind, len(value)) + value


def placed(head, table_size, table, parts):
    """A file: its head, a table that tells where each CPU's data stands, and the data, aligned to the size of pages."""
    at = -(-(len(head) + table_size) // 4096) * 4096
    entries, body = [], b""
    for cpu, part in parts.items():
        entries.append((cpu, at + len(body), len(part)))
        body += part.ljust(-(-len(part) // 4096) * 4096, b"\0")
    return (head + table(entries)).ljust(at, b"\0") + body


def version_6(pages=PAGES, texts=(TEXT, OTHER_TEXT), options=((4, CLOCK), (2, STATS), (99, b"new")), part=b"flyrecord\0", number=b"6", big=0):
    """A file of version 6."""
    head = b"\x17\x08\x44tracing" + number + b"\0" + bytes([big, 8]) + struct.pack("<I", 4096) + headers()
    head += struct.pack("<I", 1) + long(b"name: print\nID: 5\nformat:\n") + systems(texts)
    head += struct.pack("<I", 3) + b"sym" + struct.pack("<I", 2) + b"pr" + long(NAMES) + struct.pack("<I", len(pages))
    if options:
        head += b"options  \0" + b"".join(option(*one) for one in options) + b"\0\0"
    return placed(head + part, 16 * len(pages), lambda entries: b"".join(struct.pack("<QQ", at, size) for _, at, size in entries),
                  {cpu: b"".join(of) for cpu, of in pages.items()})


def zstd(contents):
    """What the program zstd makes of bytes."""
    return subprocess.run(["zstd", "-cq"], input=contents, stdout=subprocess.PIPE, check=True).stdout


def block(contents, pack):
    """Bytes as a block that is compressed."""
    packed = pack(contents)
    return struct.pack("<II", len(packed), len(contents)) + packed


def packed_cpu(pages, pack):
    """The pages of a CPU, two in a block; a CPU without pages has none."""
    blocks = [block(b"".join(pages[at:at + 2]), pack) for at in range(0, len(pages), 2)]
    return struct.pack("<I", len(blocks)) + b"".join(blocks) if blocks else b""


def version_7(pages=PAGES, texts=(TEXT, OTHER_TEXT), clock=b"mono", name=b"", packing=b"none", pack=None):
    """A file of version 7, with two sections of options. Where it is compressed, that is what `pack` makes, under a name."""
    head = b"\x17\x08\x44tracing7\0\0\x08" + struct.pack("<I", 4096) + packing + b"\x001.5\0"
    at, out = {}, b""

    def section(kind, body, is_packed=False):
        nonlocal out
        at[kind] = len(head) + 8 + len(out)
        body = block(body, pack) if is_packed and body else body
        out += struct.pack("<HHIQ", kind, is_packed, 0, len(body)) + body
    section(16, headers(), bool(pack))
    section(18, systems(texts), bool(pack))
    section(21, long(NAMES), bool(pack))
    section(3, b"", bool(pack))
    first = b"".join(option(kind, struct.pack("<Q", at[kind])) for kind in (16, 18, 21)) + option(2, STATS) + option(99, b"new")
    # The second section stands behind the first one, whose end is an option of 14 bytes.
    section(0, first + option(0, struct.pack("<Q", len(head) + 8 + len(out) + 16 + len(first) + 14)))
    start = at[0]

    def buffer(entries):
        body = struct.pack("<Q", at[3]) + name + b"\0" + clock + b"\0" + struct.pack("<II", 4096, len(entries))
        body = option(3, body + b"".join(struct.pack("<IQQ", *entry) for entry in entries)) + option(0, bytes(8))
        return struct.pack("<HHIQ", 0, 0, 0, len(body)) + body
    return placed(head + struct.pack("<Q", start) + out, 200 + 20 * len(pages), buffer, {cpu: packed_cpu(of, pack) if pack else b"".join(of) for cpu, of in pages.items()})


class Files(unittest.TestCase):
    def setUp(self):
        folder = tempfile.TemporaryDirectory()
        self.addCleanup(folder.cleanup)
        self.path = pathlib.Path(folder.name, "trace.dat")
        self.out = pathlib.Path(folder.name, "r.btr")

    def convert(self, contents):
        """The status of the program and what it tells."""
        self.path.write_bytes(contents)
        self.out.unlink(missing_ok=True)
        with contextlib.redirect_stderr(io.StringIO()) as err:
            status = program.main(["convert", str(self.path), "-o", str(self.out)])
        return status, err.getvalue()

    def events(self, contents):
        """What is told, and the events of the recording that is made: CPU, time, process, name and ID of each."""
        status, told = self.convert(contents)
        self.assertEqual(status, 0, told)
        events = []
        self.contents = read_recording(self.out.read_bytes(), lambda cpu, time, process, name, number: events.append((cpu, time, process, name.rstrip(b"\0"), number)))
        return told, events

    def test_both_versions(self):
        for contents in (version_6(), version_7(), version_6(pages={**PAGES, 3: []})):
            told, events = self.events(contents)
            self.assertEqual(events, EVENTS)
            self.assertEqual((self.contents.start, self.contents.end, [format.name for format in self.contents.formats]), (100, 200, ["demo:tick", "demo:tock"]))
            self.assertIn("btrecord: 6 events lost while recording\nbtrecord: 0 events left out\n", told)
            self.assertIn("the file does not tell processes", told)
            self.assertIn("nothing is known of 1 threads", told)

    def test_threads_that_the_kernels_events_tell_of(self):
        begun = word(10, 1) + struct.pack("<HHIi16sIQ", 205, 0, 1235, 6, b"clock", 0, 0x10000)
        named = word(11, 1) + struct.pack("<HHII16s16s", 204, 0, 6, 6, b"clock", b"other")
        pages = {0: [page(100, word(3, 0) + payload(6), begun, word(3, 1) + payload(6), named, word(3, 1) + payload(6))]}
        # Formats of another system are not those of tasks.
        _, events = self.events(version_6(pages, [TEXT, NEWTASK, RENAME]))
        self.assertEqual([(process, name) for *_, process, name, number in events if number == 300], [(6, b"<...>"), (6, b"<...>"), (6, b"<...>")])
        contents = version_6(pages, [TEXT]).replace(b"task\0" + struct.pack("<I", 0), b"task\0" + struct.pack("<I", 2) + long(NEWTASK) + long(RENAME))
        # The formats moved the pages by as many bytes.
        moved = len(contents) - len(version_6(pages, [TEXT]))
        at = contents.index(b"flyrecord\0") + 10
        contents = contents[:at] + struct.pack("<Q", struct.unpack_from("<Q", contents, at)[0] + moved) + contents[at + 8:]
        _, events = self.events(contents)
        self.assertEqual([(process, name) for *_, process, name, number in events if number == 300], [(6, b"<...>"), (1235, b"clock"), (1235, b"other")])

    def test_what_has_no_format_and_what_is_past_the_limits(self):
        told, events = self.events(version_6({0: [ticks(5, payload(number=9), payload())]}))
        self.assertEqual(events, [(0, 6, 1235, b"clock", 300)])
        self.assertIn("1 event left out: 1 of no format that is there", told)
        with unittest.mock.patch("container.MOST_ENTRIES", 5):
            told, events = self.events(version_6())
        self.assertEqual(events, [EVENTS[0], EVENTS[1]])
        self.assertIn("3 events left out: 3 past the container's limits", told)
        self.assertEqual(entries(self.out.read_bytes()), {0: [100, 101, lost(150, 1 + 6)], 1: [], 2: [lost(150, 2)]})
        pages = {cpu: [ticks(100 * k + cpu, payload()) for k in range(1, 60)] for cpu in (0, 1)}
        with unittest.mock.patch("container.MOST_ENTRIES", 20):
            told, events = self.events(version_6({0: pages[0], 1: [*pages[1][:30], missed(pages[1][30], 4), *pages[1][31:]]}, options=()))
        self.assertEqual(entries(self.out.read_bytes()), {0: [*range(100, 1000, 100), lost(1000, 50)], 1: [*range(101, 1001, 100), lost(1000, 50 + 4)]})
        self.assertIn("100 events left out: 100 past the container's limits", told)

    def test_what_the_kernel_lost_is_marked(self):
        pages = {0: [ticks(100, payload(77)), missed(ticks(200, payload()), 4), missed(ticks(300, payload())), ticks(400, payload())],
                 1: [ticks(250, payload())], 2: [missed(ticks(150, payload()))]}
        packed = zlib.compress
        # The kernel counted 6 for CPU 0, and nothing is told of CPU 2.
        wanted = {0: [100, lost(200, 4), 200, lost(300, 2), 300, 400], 1: [250], 2: [lost(150, 1), 150]}
        for contents in (version_6(pages), version_7(pages), version_7(pages, packing=b"zlib", pack=packed)):
            told, events = self.events(contents)
            self.assertEqual((len(events), entries(self.out.read_bytes())), (6, wanted))
            self.assertIn("btrecord: 7 events lost while recording\nbtrecord: 0 events left out\n"
                          "btrecord: the recording has 3 marks of lost events, and is of version 2\n", told)
        _, events = self.events(version_6(pages, [TEXT, NEWTASK]))
        self.assertEqual(entries(self.out.read_bytes()), wanted)
        # What no page tells of is marked at the end.
        self.events(version_6())
        self.assertEqual(entries(self.out.read_bytes()), {0: [100, 101, 200, lost(200, 6)], 1: [], 2: [150, 151]})
        _, events = self.events(version_6(PAGES, options=()))
        self.assertEqual((self.out.read_bytes()[:8], len(events)), (b"BTRACE01", 5))
        with contextlib.redirect_stderr(io.StringIO()) as err:
            program.main(["convert", "--v1", str(self.path), "-o", str(self.out)])
        self.assertNotIn("mark", err.getvalue())
        self.path.write_bytes(version_6(pages))
        with contextlib.redirect_stderr(io.StringIO()) as err:
            program.main(["convert", "--v1", str(self.path), "-o", str(self.out)])
        self.assertIn("btrecord: 3 marks of lost events left out, since --v1 asks for version 1\n", err.getvalue())
        self.assertEqual(entries(self.out.read_bytes()), {0: [100, 200, 300, 400], 1: [250], 2: [150]})

    def test_clocks(self):
        told, _ = self.events(version_6(options=()))
        self.assertIn("its clock is local", told)
        for contents in (version_7(clock=b"x86-tsc"), version_6(options=[(4, b"local [x86-tsc]\0")])):
            status, told = self.convert(contents)
            self.assertEqual(status, REFUSED)
            self.assertIn("its times are of the clock x86-tsc, and not in nanoseconds; record again by: trace-cmd record -C mono", told)

    def test_other_instances(self):
        told, _ = self.events(version_6(options=[(4, CLOCK), (3, bytes(8) + b"mine\0")]))
        self.assertIn("1 other instances of the file are left out", told)
        status, told = self.convert(version_7(name=b"mine"))
        self.assertEqual(status, REFUSED)
        self.assertIn("no events of the top instance; those of other instances can't be converted", told)

    def test_what_is_refused(self):
        for contents, text in [(version_6(part=b"latency  \0"), "the file holds text and no events"), (version_6(number=b"8"), "of version 8"),
                               (version_6(big=1), "big-endian"), (version_6().replace(b"header_page", b"header_pagf"), "no description")]:
            status, told = self.convert(contents)
            self.assertEqual(status, REFUSED, told)
            self.assertIn(text, told)
            self.assertFalse(self.out.exists())

    def test_compressed(self):
        """By zlib, and by zstd where its program is there."""
        pages = {**PAGES, 2: PAGES[2] + [ticks(160, payload(5)), ticks(170, payload(5))]}
        _, wanted = self.events(version_7(pages))
        self.assertEqual(len(wanted), len(EVENTS) + 2)
        for name, pack in ((b"zlib", zlib.compress), (b"zstd", zstd)):
            if name == b"zstd" and not shutil.which("zstd"):
                continue
            told, events = self.events(version_7(pages, packing=name, pack=pack))
            self.assertEqual(events, wanted)
            self.assertIn("btrecord: 6 events lost while recording\nbtrecord: 0 events left out\n", told)
            self.assertEqual(sorted(os.listdir(self.path.parent)), ["r.btr", "trace.dat"])

    def test_compressed_by_what_is_not_there(self):
        make = f"make it plain by: trace-cmd convert -i {self.path} -o plain.dat --file-version 6 --compression none\n"
        with unittest.mock.patch("unpacking.module_for", lambda name: None), unittest.mock.patch("unpacking.shutil.which", lambda name: None):
            for name, why in ((b"zlib", "zlib; "), (b"zstd", "zstd, and the program zstd is not there; "), (b"new", "new; ")):
                self.assertEqual(self.convert(version_7(packing=name, pack=zlib.compress)), (REFUSED, f"btrecord: the file is compressed by {why}{make}"))
                self.assertFalse(self.out.exists())

    def test_compressed_and_not_whole(self):
        """What is not of its kind, ends too soon, goes on, or is not of the size that stands before it."""
        wrongs = [lambda part: b"x" * 20, lambda part: zlib.compress(part)[:-5], lambda part: zlib.compress(part) + b"x", lambda part: zlib.compress(part + b"x"),
                  lambda part: zlib.compress(part[:-1])]
        if shutil.which("zstd"):
            wrongs += [lambda part: b"x" * 20, lambda part: zstd(part)[:-5], lambda part: zstd(part + b"x" * (3 << 20)), lambda part: zstd(part[:-1])]
        for number, wrong in enumerate(wrongs):
            name, well = (b"zlib", zlib.compress) if number < 5 else (b"zstd", zstd)
            # The texts, and then the pages alone.
            for pack in (wrong, lambda part: wrong(part) if part[:8] == PAGES[0][0][:8] else well(part)):
                self.assertEqual(self.convert(version_7(packing=name, pack=pack)), (REFUSED, f"btrecord: {unpacking.BROKEN}\n"), number)
                self.assertEqual(os.listdir(self.path.parent), ["trace.dat"])

    def test_compressed_is_bounded(self):
        for limit in ("MOST_BLOCK", "MOST_PLAIN"):
            with unittest.mock.patch(f"unpacking.{limit}", 8191):
                status, told = self.convert(version_7(packing=b"zlib", pack=zlib.compress))
            self.assertEqual(status, REFUSED)
            self.assertIn(unpacking.BROKEN if limit == "MOST_BLOCK" else "the file holds more than 8,191 bytes for a CPU", told)

    def test_one_that_ends_anywhere(self):
        packed = version_7({0: PAGES[0]}, packing=b"zlib", pack=zlib.compress)
        end = packed.rindex(zlib.compress(b"".join(PAGES[0]))) + len(zlib.compress(b"".join(PAGES[0])))
        for size in range(10, end):
            with self.assertRaises(Refused, msg=size):
                read(packed[:size], "trace.dat")
        for whole in (version_6({0: PAGES[0]}), version_7({0: PAGES[0]})):
            for size in [*range(10, len(whole) - 8192), len(whole) - 4096, len(whole) - 1]:
                with self.assertRaises(Refused, msg=size):
                    read(whole[:size], "trace.dat")


if __name__ == "__main__":
    unittest.main()
