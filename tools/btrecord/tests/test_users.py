"""Tests of what a thread is at each of its events: its user, its group and its name, on bytes that they make."""
import contextlib
import io
import os
import pathlib
import signal
import struct
import subprocess
import sys
import tempfile
import time
import unittest
import unittest.mock

from made import HEADER_PAGE, NEWTASK, RENAME, TEXT, TOP, Kernel, page, payload, program, word

from behind import Behind
from container import format_of
from instance import INTERRUPTS, Instance
from looks import Looks, kernel_name
from output import Output
from reading import entries_of, read_recording
from record import Asked, record, runs_32_bit_programs, watched_in
from ring import Records, page_shape
from tasks import Change, Renaming, Tasks, call_changes, task_changes
from users import COMPAT, UNKNOWN, Call, Seen, after, with_looks

COMMON = b"\tfield:unsigned short common_type;\toffset:0;\tsize:2;\tsigned:0;\n\tfield:int common_pid;\toffset:4;\tsize:4;\tsigned:1;\n\n"


def call_format(number, name, *arguments):
    """The format of a system call's beginning, with these arguments, or of its end where there is none."""
    fields = "".join(f"\tfield:uid_t {argument};\toffset:{16 + 8 * place};\tsize:8;\tsigned:0;\n" for place, argument in enumerate(arguments))
    fields = fields or ("" if "enter" in name else "\tfield:long ret;\toffset:16;\tsize:8;\tsigned:1;\n")
    text = f"name: {name}\nID: {number}\nformat:\n{COMMON.decode()}\tfield:int __syscall_nr;\toffset:8;\tsize:4;\tsigned:1;\n{fields}"
    return format_of(b"syscalls", text.encode())


FORMATS = [call_format(1, "sys_enter_setuid", "uid"), call_format(2, "sys_exit_setuid"), call_format(3, "sys_enter_setresgid", "rgid", "egid", "sgid"),
           call_format(4, "sys_exit_setresgid"), call_format(5, "sys_enter_unshare", "unshare_flags"), call_format(6, "sys_exit_unshare"),
           format_of(b"raw_syscalls", b"name: sys_exit\nID: 7\nformat:\n" + COMMON + b"\tfield:long id;\toffset:8;\tsize:8;\tsigned:1;\n"
                     b"\tfield:long ret;\toffset:16;\tsize:8;\tsigned:1;\n"),
           format_of(b"sched", b"name: sched_process_exec\nID: 8\nformat:\n" + COMMON + b"\tfield:__data_loc char[] filename;\toffset:8;\tsize:4;\tsigned:0;\n"
                     b"\tfield:pid_t pid;\toffset:12;\tsize:4;\tsigned:1;\n\tfield:pid_t old_pid;\toffset:16;\tsize:4;\tsigned:1;\n"),
           format_of(b"task", NEWTASK), format_of(b"task", RENAME)]


def entered(number, thread, *arguments):
    """The record of a call's beginning."""
    return struct.pack("<HBBii4x", number, 0, 0, thread, 0) + struct.pack(f"<{len(arguments)}Q", *arguments)


def left(number, thread, result=0):
    """The record of a call's end."""
    return struct.pack("<HBBiqq", number, 0, 0, thread, 0, result)


def forked(parent, thread, flags=0x11):
    """The record of a new thread."""
    return struct.pack("<HBBii16s4xQ", 205, 0, 0, parent, thread, b"sh", flags)


def windows_of(*records):
    """Records with their times, as those of one CPU."""
    return [(records[-1][0], [(0, Records([when for when, _ in records], [0] * len(records), [record for _, record in records]))])]


class Users(unittest.TestCase):
    def users(self, records, looks=None, first=(0, 0)):
        """What the user and the group of the thread 7 are from when on, and of the thread 8."""
        changes = [Change(0, 7, 7, *first, b"a"), *task_changes(FORMATS, windows_of(*records)), *call_changes(FORMATS, windows_of(*records), looks or {})]
        self.tasks = Tasks(sorted(changes, key=lambda change: change.time))
        found = []
        for when in range(1, 60):
            self.tasks.go_to(when)
            now = [self.tasks.at(thread, 0)[1:3] for thread in (7, 8) if thread in self.tasks.now]
            if not found or found[-1][1] != now:
                found.append((when, now))
        return found

    def test_a_daemon_that_drops_root(self):
        """From the end of each call on, the arguments tell; what it starts later has the same."""
        found = self.users([(10, entered(3, 7, 100, 100, 100)), (12, left(4, 7)), (20, entered(1, 7, 1000)), (22, left(2, 7)), (30, forked(7, 8))])
        self.assertEqual(found, [(1, [(0, 0)]), (12, [(0, 100)]), (22, [(1000, 100)]), (30, [(1000, 100), (1000, 100)])])
        self.assertEqual(self.tasks.without_user, set())

    def test_one_that_fails_or_leaves_the_real_number_changes_nothing(self):
        self.assertEqual(self.users([(10, entered(1, 7, 1000)), (12, left(2, 7, -1)), (20, entered(3, 7, 0xFFFFFFFF, 5, 5)), (22, left(4, 7))]), [(1, [(0, 0)])])

    def test_without_privilege_the_arguments_of_setuid_tell_not_all(self):
        """For a thread that is not root, setuid may change the effective number alone: a look tells, or nobody knows."""
        records = [(10, entered(1, 7, 33)), (12, left(2, 7))]
        self.assertEqual(self.users(records, {7: [Seen(20, 21, 1000, 100, True)]}, (1000, 100)), [(1, [(1000, 100)])])
        self.assertEqual(self.users(records, {7: [Seen(20, 21, 33, 100, True)]}, (1000, 100)), [(1, [(1000, 100)]), (12, [(33, 100)])])
        self.assertEqual(self.users(records, {}, (1000, 100)), [(1, [(1000, 100)]), (12, [(UNKNOWN, 100)])])
        self.assertEqual(self.tasks.without_user, {7})

    def test_namespaces(self):
        """A call of a thread in a namespace of its own asks in the numbers of that one, and a look tells those of the initial one."""
        records = [(10, entered(5, 7, 0x10000000)), (11, left(6, 7)), (20, entered(1, 7, 5)), (22, left(2, 7)), (30, forked(7, 8))]
        self.assertEqual(self.users(records, {7: [Seen(23, 24, 100005, 0, False)]}), [(1, [(0, 0)]), (22, [(100005, 0)]), (30, [(100005, 0), (100005, 0)])])
        self.assertEqual(self.users(records), [(1, [(0, 0)]), (22, [(UNKNOWN, 0)]), (30, [(UNKNOWN, 0), (UNKNOWN, 0)])])
        # A new process may be in a new one from the start.
        self.users([(5, forked(7, 8, 0x10000011)), (10, entered(1, 8, 1000)), (12, left(2, 8))])
        self.assertEqual(self.tasks.at(8, 0).user, UNKNOWN)
        # Other flags of unshare make none.
        self.users([(10, entered(5, 7, 0x20000)), (11, left(6, 7)), (20, entered(1, 7, 5)), (22, left(2, 7))])
        self.assertEqual(self.tasks.at(7, 0).user, 5)

    def test_32_bit_callers(self):
        """Their numbers are those of other calls for 64-bit callers, so a look alone tells whether it was such a call."""
        records = [(12, struct.pack("<HBBiqq", 7, 0, 0, 7, 213, 0))]
        self.assertEqual(self.users(records, {7: [Seen(20, 21, 1000, 0, True)]}), [(1, [(0, 0)]), (12, [(1000, 0)])])
        self.assertEqual(self.users(records, {7: [Seen(20, 21, 0, 0, True)]}), [(1, [(0, 0)])])
        self.assertEqual(self.users(records), [(1, [(0, 0)])])

    def test_a_thread_that_execs_takes_its_process_over(self):
        records = [(5, forked(7, 8, 0x10f00)), (10, entered(1, 8, 1000)), (12, left(2, 8)),
                   (20, struct.pack("<HBBiIii", 8, 0, 0, 7, 0, 7, 8))]
        self.assertEqual(self.users(records)[-1], (20, [(1000, 0), (1000, 0)]))
        self.assertEqual(self.tasks.at(7, 0).name, b"a")

    def test_a_look_is_of_the_last_call_before_it(self):
        first, second = Call(1, 2, 7, "setuid", 5), Call(8, 9, 7, "setuid", 6)
        between, behind = Seen(3, 4, 5, 0, True), Seen(12, 13, 6, 0, True)
        found = with_looks([second, first], {7: [between, behind], 8: [Seen(2, 3, 1, 1, True)]})
        self.assertEqual([call.seen for call in found], [between, behind])
        # One that ends while the next call is under way tells nothing of the first.
        self.assertEqual([call.seen for call in with_looks([first, second], {7: [Seen(7, 8 + 1, 6, 0, True)]})], [None, None])
        self.assertEqual([call.seen for call in with_looks([first, Call(2, 3, 7, COMPAT)], {7: [between]})], [between, between])

    def test_setns_leads_somewhere(self):
        self.assertEqual(after(0, 0, True, Call(1, 2, 7, "setns", 3)), (0, 0, False))
        self.assertEqual(after(0, 0, False, Call(1, 2, 7, "setns", 3, Seen(3, 4, 0, 0, True))), (0, 0, True))


class LooksBehind(unittest.TestCase):
    def setUp(self):
        folder = tempfile.TemporaryDirectory()
        self.addCleanup(folder.cleanup)
        self.folder = folder.name
        self.now = 0

    def clock(self):
        """A clock that goes on with each look at it."""
        self.now += 1
        return self.now

    def put(self, thread, user):
        """A thread of the folder that stands for /proc."""
        pathlib.Path(self.folder, str(thread)).mkdir(exist_ok=True)
        pathlib.Path(self.folder, str(thread), "status").write_text(f"Name:\tx\nUid:\t{user}\t0\t0\t0\nGid:\t6\t0\t0\t0\n")

    def test_who_called_is_looked_at(self):
        looks = Looks(self.folder, self.folder, self.clock)
        behind = Behind(FORMATS, page_shape(HEADER_PAGE), looks)
        self.put(7, 1000)
        records = [entered(1, 7, 1000), left(2, 7), forked(7, 9), left(4, 8)]
        behind.see(page(50, *(word(len(record) // 4, 1) + record for record in records)))
        self.assertEqual(list(behind.waiting), [7, 8])
        behind.look(lambda: True)
        self.assertEqual(list(behind.waiting), [7, 8])
        behind.look()
        self.assertEqual((looks.behind, list(behind.waiting)), ({7: [Seen(1, 2, 1000, 6, True)]}, []))

    def test_what_the_first_look_shows_holds_from_the_start_on(self):
        """A thread may start another one before the first look comes to it, and that one may be gone before it is looked at."""
        path = pathlib.Path(self.folder, "7", "task", "7")
        path.mkdir(parents=True)
        for name, text in [("status", "Uid:\t5\nGid:\t6\n"), ("comm", "x\n")]:
            (path / name).write_text(text)
        self.now = 50
        looks = Looks(self.folder, self.folder, self.clock)
        looks.look_first()
        (path.parent.parent / "task" / "7").rename(path.parent / "8")
        looks.look()
        self.assertEqual([(change.time, change.thread, change.user) for change in looks.changes()], [(0, 7, 5), (51, 7, 5), (52, 8, 5)])
        tasks = Tasks(sorted([*looks.changes(), *task_changes(FORMATS, windows_of((40, forked(7, 9))))], key=lambda change: change.time))
        tasks.go_to(45)
        self.assertEqual(tasks.at(9, 0)[:3], (9, 5, 6))

    def test_the_namespace_of_a_look(self):
        here, there = os.stat(self.folder).st_ino, pathlib.Path(self.folder, "there")
        there.write_text("")
        for thread, target in [("self", self.folder), ("7", self.folder), ("8", str(there))]:
            pathlib.Path(self.folder, thread, "ns").mkdir(parents=True)
            os.symlink(target, f"{self.folder}/{thread}/ns/user")
        looks = Looks(self.folder, self.folder, self.clock)
        self.assertEqual(looks.own, here)
        for thread, is_initial in [(7, True), (8, False)]:
            self.put(thread, 5)
            looks.look_behind(thread)
            self.assertEqual(looks.behind[thread][0].is_initial, is_initial)


class Recordings(unittest.TestCase):
    """Whole recordings over a tree that stands for tracefs."""

    def setUp(self):
        folder = tempfile.TemporaryDirectory()
        self.addCleanup(folder.cleanup)
        self.top, self.path = f"{folder.name}/tracing", f"{folder.name}/r.btr"

    def test_who_is_not_known_is_counted(self):
        """A thread of which nothing is known has a user that no thread has, in the recording, the report and the words of `info`."""
        kernel = Kernel(self.top, {0: [page(10, word(3, 0) + payload(1 << 30), word(3, 1) + payload(1 << 30), word(3, 1) + payload(0))]})
        with kernel.running():
            made = record(Asked(["demo:tick"], 0.05, 64, self.top), lambda: Output(self.path))
        data = pathlib.Path(self.path).read_bytes()
        self.assertEqual([event.user for event in entries_of(data, read_recording(data), 0)], [UNKNOWN, UNKNOWN, 0])
        self.assertIn("nothing is known of 1 threads", made.notes)
        with contextlib.redirect_stdout(io.StringIO()) as told:
            self.assertEqual(program.main(["info", self.path]), 0)
        self.assertIn("events without a known user: 2 of 1 thread, with the user 4294967295\n", told.getvalue())

    def test_the_events_of_calls_are_asked_for_first(self):
        """The tracepoints of threads are on before the wanted ones, so that a change is known when the event comes that shows it."""
        kernel = Kernel(self.top, {0: []})
        for format in FORMATS:
            kernel.add(format.system.decode(), format.layout.name.decode(), format.text)
        order, enable = [], Instance.enable
        with kernel.running(), unittest.mock.patch.object(Instance, "enable", lambda self, pairs, go_on: order.append(list(pairs)) or enable(self, pairs, go_on)):
            record(Asked(["demo:tick"], 0.05, 64, self.top), lambda: Output(self.path))
        self.assertEqual(order[1], [("demo", "tick")])
        self.assertEqual(order[0], watched_in(self.top))
        self.assertLessEqual({("task", "task_rename"), ("syscalls", "sys_exit_setuid"), ("syscalls", "sys_enter_setresgid")}, set(order[0]))
        self.assertEqual(("raw_syscalls", "sys_exit") in order[0], runs_32_bit_programs())
        if runs_32_bit_programs():
            own = next(files for name, files in kernel.removed.items() if name.endswith("-tasks"))
            self.assertTrue(own["events/raw_syscalls/sys_exit/filter"].startswith(b"ret == 0 && (id == 23 || "))

    def test_kernels_that_run_32_bit_programs(self):
        os.makedirs(self.top)
        self.assertFalse(runs_32_bit_programs("x86_64", self.top))
        pathlib.Path(self.top, "vsyscall32").write_text("1\n")
        self.assertEqual([runs_32_bit_programs(machine, self.top) for machine in ("x86_64", "aarch64", "riscv64")], [True, False, False])

    def test_what_interrupts_the_recorder_is_not_its_own(self):
        own = os.getpid()
        records = [struct.pack("<HBBii", 300, flags, 0, own, 1) for flags in (0, 0x08, 0x10, 0x40, 0x80 | 0x04)]
        kernel = Kernel(self.top, {0: [page(10, *(word(3, 1) + found for found in records))]})
        with kernel.running():
            made = record(Asked(["demo:tick"], 0.05, 64, self.top), lambda: Output(self.path))
        self.assertEqual(INTERRUPTS, 88)
        self.assertIn("2 of the 5 (40.0 %) are btrecord's own", made.notes)

    def test_switches_and_wakeups_of_the_recorder_are_kept(self):
        kernel = Kernel(self.top, {0: []})
        for number, (system, event) in enumerate([("sched", "sched_switch"), ("sched", "sched_wakeup"), ("sched", "sched_process_fork")]):
            kernel.add(system, event, TEXT.replace(b"tick", event.encode()).replace(b"300", b"31%d" % number))
        with kernel.running():
            record(Asked(["sched:*"], 0.05, 64, self.top), lambda: Output(self.path))
        own = next(files for name, files in kernel.removed.items() if not name.endswith("-tasks"))
        self.assertEqual([name for name in own if name.endswith("/filter")], ["events/sched/sched_process_fork/filter"])

    def test_the_line_comes_when_all_is_on(self):
        """When it is told that it records, tracing is on, and what comes right behind the line is recorded."""
        kernel, states = Kernel(self.top, {0: []}), []

        def tell(lines):
            folder = next(path for path in pathlib.Path(self.top, "instances").iterdir() if not path.name.endswith("-tasks"))
            states.append((lines[0][:24], (folder / "tracing_on").read_text(), (folder / "events/demo/tick/enable").read_text()))
        with kernel.running():
            record(Asked(["demo:tick"], 0.05, 64, self.top, tell=tell), lambda: Output(self.path))
        self.assertEqual(states, [("recording 1 tracepoint o", "1", "1")])


class Names(unittest.TestCase):
    def test_workers_have_the_kernels_name(self):
        """Behind the name of a worker /proc shows what it works for; a process may have a name that looks the same."""
        def stat(name, flags):
            return b"9 (" + name + b") I 2 0 0 0 -1 %d 0 0" % flags
        for shown, flags, name in [
                (b"kworker/1:1H-kblockd", 0x4208060, b"kworker/1:1H"), (b"kworker/u16:1-ext4-rsv-conversion", 0x4208060, b"kworker/u16:1"),
                (b"kworker/0:2+events", 0x4208060, b"kworker/0:2"), (b"kworker/1:1H-kblockd", 0x400000, b"kworker/1:1H-kb"),
                (b"kworker/R-kblockd", 0x4208060, b"kworker/R-kbloc"), (b"ext4-rsv-conver+ext4-rsv-conversion", 0x4208060, b"ext4-rsv-conver"),
                (b"ext4-rsv-conver", 0x4208060, b"ext4-rsv-conver"), (b"rcu_tasks_rude_kthread", 0x208040, b"rcu_tasks_rude_"), (b"a-b+c", 0, b"a-b+c")]:
            self.assertEqual(kernel_name(shown, stat(shown, flags)), name, shown)
        self.assertEqual(kernel_name(b"kworker/1:1H-kblockd", b""), b"kworker/1:1H-kb")

    def test_a_worker_of_a_folder_like_proc(self):
        with tempfile.TemporaryDirectory() as folder:
            path = pathlib.Path(folder, "42", "task", "42")
            path.mkdir(parents=True)
            for name, text in [("status", "Uid:\t0\nGid:\t0\n"), ("comm", "kworker/u8:3-writeback\n"), ("stat", "42 (kworker/u8:3-writeback) I 2 0 0 0 -1 69238880 0")]:
                (path / name).write_text(text)
            looks = Looks(folder, folder)
            looks.look(5)
            self.assertEqual([change.name for change in looks.changes()], [b"kworker/u8:3"])


def renamed(thread, which, old, new):
    """The record of a new name."""
    return struct.pack("<HBBii16s16s", 204, 0, 0, thread, which, old, new)


RENAME_WITH_OLD = RENAME.replace(b"\tfield:char newcomm", b"\tfield:char oldcomm[16];\toffset:12;\tsize:16;\tsigned:0;\n\tfield:char newcomm")


class NewNames(unittest.TestCase):
    """A new name holds behind the event that tells it."""

    def setUp(self):
        self.renaming = Renaming([format_of(b"task", RENAME_WITH_OLD)])

    def names(self, tasks, threads, payloads):
        """The names in the heads of a CPU's records of one time."""
        heads = self.renaming.heads(tasks, 0, Records([5] * len(threads), threads, payloads))
        return [head[16:].rstrip(b"\0").decode() for head in heads]

    def test_in_the_order_of_the_entries_of_a_cpu(self):
        tasks = Tasks([Change(0, 7, 7, 0, 0, b"sh"), Change(0, 8, 8, 0, 0, b"other")])
        tasks.go_to(5)
        tick = payload(7)
        self.assertEqual(self.names(tasks, [7, 7, 7, 8, 7, 7], [tick, renamed(7, 7, b"sh", b"perf-exec"), tick, tick, renamed(7, 7, b"perf-exec", b"burst"), tick]),
                         ["sh", "sh", "perf-exec", "other", "perf-exec", "burst"])

    def test_where_the_change_was_known_before(self):
        """The instance of tasks tells it with a time of its own, which may be the earlier one."""
        tasks = Tasks([Change(0, 7, 7, 0, 0, b"sh"), Change(4, 7, name=b"ls")])
        tasks.go_to(5)
        self.assertEqual(self.names(tasks, [7, 7], [renamed(7, 7, b"sh", b"ls"), payload(7)]), ["sh", "ls"])

    def test_one_that_names_another(self):
        tasks = Tasks([Change(0, 7, 7, 0, 0, b"sh"), Change(0, 8, 8, 0, 0, b"old")])
        tasks.go_to(5)
        self.assertEqual(self.names(tasks, [8, 7, 8], [payload(8), renamed(7, 8, b"old", b"new"), payload(8)]), ["old", "sh", "new"])

    def test_a_change_is_behind_its_time(self):
        found = list(task_changes([format_of(b"task", RENAME_WITH_OLD)], windows_of((5, renamed(7, 7, b"a", b"b")))))
        self.assertEqual(found, [Change(6, 7, name=b"b")])


class CtrlC(unittest.TestCase):
    def test_while_it_starts(self):
        """An interrupt at any moment of the start ends it without a traceback."""
        for wait in (0.03, 0.06, 0.1, 0.15, 0.2):
            process = subprocess.Popen([sys.executable, f"{TOP}/tools/btrecord", "info", "/dev/stdin"], stdin=subprocess.PIPE, stderr=subprocess.PIPE)
            time.sleep(wait)
            process.send_signal(signal.SIGINT)
            told = process.communicate(timeout=100)[1]
            # Before Python has read this program at all, Python itself may tell of an interrupt.
            self.assertNotIn(b"/tools/btrecord/", told)
            self.assertNotEqual(process.returncode, 0)


if __name__ == "__main__":
    unittest.main()
