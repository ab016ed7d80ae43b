"""Tests of examples/wide.btr, a recording of a machine with 16 CPUs: it has what tools/beside/wide.c does on each of them, and nothing else by its names."""
import contextlib
import io
import os
import pathlib
import tempfile
import unittest
from collections import Counter, defaultdict

from made import TOP, program

from instance import FLAGS_AT, INTERRUPTS
from reading import entries_of, opened
from tasks import parts_of, text_of

WIDE = pathlib.Path(TOP, "examples", "wide.btr")
CPUS, ROUNDS, CHILDREN = 16, 4, 4
GETPPID, SETUID, SETGID, EXECVE = 110, 105, 106, 59
BAD_NUMBER, NO_FILE = -9, -2
RECORDER = 216
MOST_BYTES = 1 << 20


def signed(number, size):
    """A number of so many bytes with its sign."""
    return number - (1 << 8 * size) if number >> (8 * size - 1) else number


def worker_reads(worker):
    """What the reads of a worker give: a turn each round, zeros of another length each round, and errors."""
    return Counter([1] * ROUNDS + [100 * (worker + 1) + turn for turn in range(ROUNDS)] + [BAD_NUMBER for turn in range(ROUNDS) if turn % 4 == worker % 4])


def worker_writes(worker):
    """What a worker asks to write: as many bytes as its number and the round say, and a turn for the next."""
    return Counter([1] * ROUNDS + [1000 * (turn + 1) + worker for turn in range(ROUNDS)])


class Wide(unittest.TestCase):
    @classmethod
    def setUpClass(cls):
        cls.data, cls.contents = opened(str(WIDE))
        cls.parts = {format.layout.number: (format.name, parts_of(format)) for format in cls.contents.formats}

    def events(self, wanted, field):
        """The events of a tracepoint: each with the number in one of its fields."""
        for place in range(len(self.contents.cpus)):
            for event in entries_of(self.data, self.contents, place):
                record = self.data[event.payload:event.end]
                name, parts = self.parts[int.from_bytes(record[:2], "little")]
                if name == wanted:
                    part = parts[field.encode()]
                    yield event, signed(part.number(record), part.size)

    def by_worker(self, wanted, field):
        """How often a worker's events of a tracepoint have a number, by its name and its CPU."""
        found = defaultdict(Counter)
        for event, number in self.events(wanted, field):
            name = event.name.rstrip(b"\0").decode()
            if name.startswith("wide-"):
                found[name, event.cpu][number] += 1
        return found

    def test_the_machine(self):
        self.assertEqual([number for number, _ in self.contents.cpus], list(range(CPUS)))
        self.assertTrue(all(count for _, count in self.contents.cpus))
        self.assertLess(len(self.data), MOST_BYTES)
        self.assertFalse(self.contents.marks)
        self.assertFalse(self.contents.without_user)

    def test_the_work_of_each_cpu(self):
        self.assertEqual(self.by_worker("syscalls:sys_exit_read", "ret"), {(f"wide-{worker}", worker): worker_reads(worker) for worker in range(CPUS)})
        self.assertEqual(self.by_worker("syscalls:sys_enter_write", "count"), {(f"wide-{worker}", worker): worker_writes(worker) for worker in range(CPUS)})
        opens = self.by_worker("syscalls:sys_exit_openat", "ret")
        self.assertEqual({who: sum(count for number, count in numbers.items() if number >= 0) for who, numbers in opens.items()},
                         {(f"wide-{worker}", worker): 2 for worker in range(CPUS)})
        self.assertEqual({numbers[NO_FILE] for numbers in opens.values()}, {len(range(0, ROUNDS, 3))})

    def test_the_users_of_each_child(self):
        """A child has its group from the end of one call on, its user from the end of the next, and its program has both."""
        ended, begun = Counter(), Counter()
        for event, number in self.events("raw_syscalls:sys_exit", "id"):
            if number in (SETUID, SETGID) and event.name.rstrip(b"\0") == b"wide":
                ended[number, event.user, event.group] += 1
        for event, number in self.events("raw_syscalls:sys_enter", "id"):
            if number in (SETUID, SETGID, GETPPID, EXECVE) and event.name.rstrip(b"\0") == b"wide":
                begun[number, event.user, event.group] += 1
        children = [(1000 + child, 100 + child) for child in range(CHILDREN)]
        self.assertEqual(ended, Counter([(SETGID, 0, group) for _, group in children] + [(SETUID, *both) for both in children]))
        wanted = [(SETGID, 0, 0)] * CHILDREN + [(SETUID, 0, group) for _, group in children]
        wanted += [(call, *both) for call in (GETPPID, EXECVE) for both in children]
        found = {key: count for key, count in begun.items() if key[0] != EXECVE or key[1]}
        self.assertEqual(found, Counter(wanted))
        programs = {(event.user, event.group) for event, _ in self.events("raw_syscalls:sys_enter", "id") if event.name.rstrip(b"\0") == b"true"}
        self.assertEqual(programs, set(children))

    def test_names_are_the_kernels(self):
        """Who is taken off a CPU has the name that the kernel tells of it, and who is renamed has the old one at that event."""
        compared = Counter()
        for place in range(len(self.contents.cpus)):
            for event in entries_of(self.data, self.contents, place):
                record = self.data[event.payload:event.end]
                name, parts = self.parts[int.from_bytes(record[:2], "little")]
                told = parts.get({"sched:sched_switch": b"prev_comm", "task:task_rename": b"oldcomm"}.get(name))
                if told and (name == "sched:sched_switch" or parts[b"pid"].number(record) == event.thread):
                    self.assertEqual(event.name.rstrip(b"\0"), text_of(told.bytes(record)), (name, event))
                    compared[name] += 1
                    compared["workers"] += event.name.startswith(b"kworker/")
        self.assertEqual(len(compared), 3)

    def test_what_interrupts_the_recorder_is_there(self):
        """Of the recorder's own thread it has the switches, and of what interrupts that thread all: a block request ends there, and threads are woken."""
        own, interrupts = set(), set()
        for place in range(len(self.contents.cpus)):
            for event in entries_of(self.data, self.contents, place):
                record = self.data[event.payload:event.end]
                if event.thread == RECORDER:
                    (interrupts if record[FLAGS_AT] & INTERRUPTS else own).add(self.parts[int.from_bytes(record[:2], "little")][0])
        self.assertEqual(own, {"sched:sched_switch"})
        self.assertLessEqual({"irq:softirq_entry", "irq:irq_handler_entry", "sched:sched_wakeup", "block:block_rq_complete"}, interrupts)

    def test_a_part_of_each_cpu(self):
        """The parts of all CPUs together have each event once."""
        counts = []
        with tempfile.TemporaryDirectory() as folder, contextlib.redirect_stderr(io.StringIO()):
            for cpu in range(CPUS):
                part = os.path.join(folder, "part.btr")
                self.assertEqual(program.main(["cut", str(WIDE), "--cpu", str(cpu), "-o", part]), 0)
                counts += [(number, count) for number, count in opened(part)[1].cpus if count]
        self.assertEqual(counts, self.contents.cpus)


if __name__ == "__main__":
    unittest.main()
