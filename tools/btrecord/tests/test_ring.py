"""Tests of pages of rings, of what is kept of them, and of threads, on bytes that they make."""
import os
import struct
import tempfile
import time
import unittest
import unittest.mock

from made import DEMO, HEADER_PAGE, NEWTASK, RENAME, lost, missed, page, payload, ticks, word

from container import format_of
from faults import Refused
from instance import Ring
from looks import Looks
from ring import UNKNOWN, Losses, Records, page_shape, take_records
from spool import Spool, windows
from tasks import Change, Task, Tasks, task_changes

SHAPE = page_shape(HEADER_PAGE)
FULL = ticks(1, *[payload()] * 200)
SMALL = ticks(1, payload())


def records(contents):
    """The records of a page, each with its time."""
    found = Records([], [], [])
    take_records(found, contents, SHAPE)
    return list(zip(found.times, found.payloads))


class Pages(unittest.TestCase):
    def test_records_with_their_times_and_threads(self):
        contents = page(1000, word(2, 5), b"abcd\x07\0\0\0", word(1, 7), b"wxyz")
        self.assertEqual(records(contents), [(1005, b"abcd\x07\0\0\0"), (1012, b"wxyz")])
        found = Records([], [], [])
        take_records(found, contents, SHAPE)
        self.assertEqual(found.threads, [7, 0])

    def test_a_long_record_has_its_size_in_front(self):
        long = bytes(range(116))
        self.assertEqual(records(page(1, word(0, 2), struct.pack("<I", 120), long, word(1, 1), b"next")), [(3, long), (4, b"next")])

    def test_time_that_does_not_fit_a_record(self):
        contents = page(10, word(30, 3), struct.pack("<I", 2), word(1, 1), b"aaaa", word(31, 9), struct.pack("<I", 3), word(1, 0), b"bbbb")
        self.assertEqual(records(contents), [(10 + 3 + (2 << 27) + 1, b"aaaa"), ((3 << 27) + 9, b"bbbb")])

    def test_a_clock_that_went_back_stood_still(self):
        contents = page(1 << 40, word(1, 0), b"aaaa", word(31, 9), struct.pack("<I", 1), word(1, 0), b"bbbb")
        self.assertEqual([when for when, _ in records(contents)], [1 << 40, 1 << 40])

    def test_padding_is_passed_over_and_ends_a_page(self):
        contents = page(0, word(29, 4), struct.pack("<I", 8), b"????", word(1, 1), b"kept", word(29, 0), b"rest")
        self.assertEqual(records(contents), [(5, b"kept")])

    def test_flags_of_lost_records_are_no_length(self):
        contents = page(0, word(1, 1), b"kept")
        self.assertEqual(records(contents[:8] + struct.pack("<Q", 8 | 1 << 31 | 1 << 30) + contents[16:]), [(1, b"kept")])

    def test_what_was_lost_before_a_page(self):
        contents = ticks(5, payload())
        full = page(5, *[word(3, 0) + payload()] * 255)
        for found, count in [(contents, None), (missed(contents), UNKNOWN), (missed(contents, 7), 7), (missed(contents, (1 << 64) - 1), (1 << 64) - 1),
                             (full, None), (missed(full), UNKNOWN), (missed(full, 0), UNKNOWN), (missed(full, 9)[:-8], UNKNOWN)]:
            self.assertEqual(SHAPE.lost_before(found), count)
            self.assertEqual(records(found), records(contents if SHAPE.end(found) == SHAPE.end(contents) else full))
        # A number that would run out of its page is none.
        wrong = full[:8] + struct.pack("<Q", 4080 | 1 << 31 | 1 << 30) + full[16:]
        self.assertEqual((SHAPE.lost_before(wrong), SHAPE.whole(wrong)), (UNKNOWN, wrong))
        self.assertEqual(SHAPE.whole(missed(contents, 7))[-8:], struct.pack("<Q", 7))
        self.assertEqual(len(SHAPE.whole(contents)), 32)

    def test_a_number_that_no_page_tells(self):
        """It is what the kernel counted so far, and what it counted in all has the last word; each such page lost one event at least."""
        told = (None, 3, UNKNOWN, UNKNOWN, 1, None, UNKNOWN)
        for so_far, counted, shares in [((0, 0, 0), 10, [1, 1, 4]), ((5, 9, 20), 20, [2, 4, 10]), ((5, 9, 20), 17, [2, 4, 7]), ((5, 9, 20), 9, [2, 2, 1]),
                                        ((5, 9, 20), 0, [1, 1, 1]), ((9, 9, 9), 30, [6, 1, 19]), ((3, 4, 4), 1 << 70, [1, 1, (1 << 64) - 1]),
                                        ((1 << 70, 0, 0), 12, [6, 1, 1])]:
            losses, counts = Losses(), iter(so_far)
            for lost_before in told:
                losses.see(lost_before, lambda: next(counts))
            losses.settle(counted)
            self.assertEqual((list(losses.shares), losses.told, losses.at_end), (shares, 4, max(counted - 4 - sum(shares), 0)))
        for told_number, counted, at_end in [(4, 9, 5), (9, 4, 0), (0, 7, 7), (0, 0, 0)]:
            losses = Losses()
            losses.see(told_number or None)
            losses.settle(counted)
            self.assertEqual((losses.total, losses.at_end), (told_number, at_end))

    def test_a_record_that_runs_out_of_its_page(self):
        for contents in [page(0, word(3, 1), b"12345678"), page(0, word(0, 1)), page(0, word(0, 1), struct.pack("<I", 2))]:
            with self.assertRaises(Refused):
                records(contents)

    def test_pages_of_another_form(self):
        with self.assertRaises(Refused):
            page_shape(HEADER_PAGE.replace("offset:8;", "offset:4;"))


class Rings(unittest.TestCase):
    def setUp(self):
        self.folder = tempfile.TemporaryDirectory()
        self.addCleanup(self.folder.cleanup)

    def ring(self, *pages):
        """A ring with these pages."""
        with open(f"{self.folder.name}/trace_pipe_raw", "wb") as file:
            file.write(b"".join(pages))
        ring = Ring(self.folder.name, 4096, Spool(self.folder.name, SHAPE))
        self.addCleanup(os.close, ring.pipe)
        return ring

    def test_a_page_that_is_not_full_ends_a_round(self):
        ring = self.ring(FULL, FULL, *[SMALL] * 50)
        self.assertEqual([ring.read(SHAPE, True) for _ in range(3)], [3, 2, 2])
        self.assertEqual(ring.read(SHAPE), 45)
        self.assertEqual(ring.read(SHAPE), 0)

    def test_the_rest_of_a_page_does_not_end_a_round(self):
        self.assertEqual(self.ring(SMALL, FULL, FULL, SMALL, SMALL).read(SHAPE, True), 4)

    def test_a_ring_that_is_filled_as_fast_as_it_is_read(self):
        ring = self.ring(*[FULL] * 30)
        self.assertEqual(ring.read(SHAPE, True, 10), 10)
        self.assertEqual(ring.read(SHAPE, True, 10, time.monotonic() - 1), 1)

    def test_what_was_lost_is_asked_where_a_page_does_not_tell_it(self):
        ring, counts = self.ring(FULL, missed(SMALL, 3), missed(SMALL), SMALL, missed(SMALL)), iter([(0, 0, 10), (0, 0, 14)])
        with unittest.mock.patch.object(Ring, "counts", lambda self: next(counts)):
            ring.read(SHAPE)
        self.assertEqual((ring.spool.losses.told, list(ring.spool.losses.shares), list(counts)), (3, [7, 4], []))

    def test_what_the_kernel_counted(self):
        ring = self.ring()
        with open(f"{self.folder.name}/stats", "w") as file:
            file.write("entries: 3\noverrun: 4\ncommit overrun: 50\nbytes: 7\noldest event ts:  1.5\ndropped events: 600\nread events: 9\n")
        self.assertEqual(ring.counts(), (9, 3, 654))

    def test_what_is_kept_comes_by_the_times_of_all_cpus(self):
        spools = {cpu: Spool(self.folder.name, SHAPE) for cpu in (0, 1)}
        spools[0].add(ticks(10, payload(1), payload(2)))
        spools[0].add(ticks(30, payload(3)))
        spools[1].add(ticks(20, payload(4)))
        self.assertEqual(spools[0].bytes, 3 * 16)
        found = [(when, cpu, thread) for _, window in windows(spools) for cpu, of in window for when, thread in zip(of.times, of.threads)]
        self.assertEqual(sorted(found), [(10, 0, 1), (11, 0, 2), (20, 1, 4), (30, 0, 3)])
        self.assertEqual(next(windows(spools, lambda time: min(time, 10)))[1], [(0, Records([10], [1], [payload(1)]))])


    def test_marks_stand_among_the_records(self):
        """At the times of their pages, which do not fall, and not before they are wanted."""
        spool = Spool(self.folder.name, SHAPE)
        pages = [missed(ticks(10, payload(1)), 5), ticks(20, payload(2)), missed(ticks(15, payload(3)), 6), missed(ticks(30), 8), missed(ticks(30, payload(4)))]
        for contents in pages:
            spool.add(contents)
        plain = [(10, payload(1)), (20, payload(2)), (20, payload(3)), (30, payload(4))]

        def found():
            return [pair for of in spool.chunks() for pair in zip(of.times, of.payloads)]
        self.assertEqual(found(), plain)
        spool.has_marks = True
        spool.losses.settle(20)
        # A page without records is not kept, so that its number is among the rest.
        marks = [(10, lost(10, 5)), *plain[:2], (20, lost(20, 6)), plain[2], (30, lost(30, 9)), plain[3]]
        for _ in range(2):
            self.assertEqual(found(), marks)
        self.assertEqual([of.threads for _, [(_, of)] in windows({0: spool})], [[0, 1, 2, 0, 3, 0, 4]])
        with unittest.mock.patch("spool.PAGES_AT_ONCE", 1):
            self.assertEqual(found(), marks)


class Threads(unittest.TestCase):
    def at(self, tasks, time, thread, cpu=0):
        """A thread at a time."""
        tasks.go_to(time)
        return tasks.at(thread, cpu)[:4]

    def test_names_change_with_time(self):
        tasks = Tasks([Change(0, 7, 5, 1000, 100, b"old"), Change(20, 7, name=b"new")])
        self.assertEqual(self.at(tasks, 19, 7), (5, 1000, 100, b"old"))
        self.assertEqual(tasks.until(50), 19)
        self.assertEqual(tasks.head(7, 0), struct.pack("<IIII16s", 5, 7, 1000, 100, b"old"))
        self.assertEqual(self.at(tasks, 20, 7), (5, 1000, 100, b"new"))
        self.assertEqual(tasks.head(7, 0), struct.pack("<IIII16s", 5, 7, 1000, 100, b"new"))
        self.assertEqual(tasks.until(50), 50)

    def test_a_new_thread_has_what_its_parent_has(self):
        tasks = Tasks([Change(0, 7, 5, 1000, 100, b"sh"), Change(10, 8, None, name=b"sh", parent=7), Change(11, 9, 9, name=b"sh", parent=7),
                       Change(30, 9, name=b"ls")])
        self.assertEqual(self.at(tasks, 12, 8), (5, 1000, 100, b"sh"))
        self.assertEqual(self.at(tasks, 40, 9), (9, 1000, 100, b"ls"))

    def test_idle_and_unknown_threads(self):
        tasks = Tasks([])
        self.assertEqual(tasks.at(0, 3)[:4], (0, 0, 0, b"swapper/3"))
        self.assertEqual([tasks.head(0, cpu)[16:25] for cpu in (0, 1)], [b"swapper/0", b"swapper/1"])
        self.assertEqual(tasks.at(77, 3)[:4], (77, 0xFFFFFFFF, 0xFFFFFFFF, b"<...>"))
        self.assertEqual(Tasks([], 0).at(77, 3)[:4], (77, 0, 0, b"<...>"))
        self.assertEqual(tasks.unknown, {77})

    def test_a_look_at_a_folder_like_proc(self):
        with tempfile.TemporaryDirectory() as folder:
            os.makedirs(f"{folder}/41/task/42")
            os.makedirs(f"{folder}/sys")
            for name, text in [("status", "Name:\tx\nUid:\t7\t8\t9\t9\nGid:\t6\t6\t6\t6\n"), ("comm", "a name\n")]:
                with open(f"{folder}/41/task/42/{name}", "w") as file:
                    file.write(text)
            looks = Looks(folder, proc=folder)
            looks.look(5)
            looks.look(6)
            self.assertEqual(list(looks.changes()), [Change(5, 42, 41, 7, 6, b"a name", is_initial=True)])
            looks = Looks(folder, proc=folder)
            looks.look(5, time.monotonic() - 1)
            self.assertEqual(list(looks.changes()), [])

    def test_the_kernel_tells_of_threads(self):
        process = struct.pack("<HBBii16s4xQ", 205, 0, 0, 7, 8, b"sh", 0x11)
        thread = struct.pack("<HBBii16s4xQ", 205, 0, 0, 7, 9, b"sh", 0x10f00)
        renamed = struct.pack("<HBBii16s16s", 204, 0, 0, 9, 9, b"sh", b"worker\0junk")
        formats = [format_of(b"task", text) for text in (NEWTASK, RENAME)] + [DEMO]
        window = [(0, Records([1, 3], [7, 9], [process, renamed])), (1, Records([2], [7], [thread]))]
        self.assertEqual(list(task_changes(formats, [(3, window)])), [
            Change(1, 8, 8, name=b"sh", parent=7), Change(2, 9, None, name=b"sh", parent=7), Change(4, 9, name=b"worker")])

    def test_a_thread_as_it_stands_in_an_event(self):
        self.assertEqual(Task(1, 2, 3, b"a name that is too long").head(4), struct.pack("<IIII", 1, 4, 2, 3) + b"a name that is t")


if __name__ == "__main__":
    unittest.main()
