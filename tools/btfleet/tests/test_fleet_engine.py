"""Tests of the command over a scheduler and three workers on the loopback, with a stand-in for the program."""
import json
import os
import pathlib
import re
import signal
import socket
import subprocess
import sys
import time
import unittest

from fleet_hosts import COMMAND_SECONDS, WITHOUT_DASK, WORKERS, WithCluster, WithFolder, count_line, has_dask, printf_line

# What a worker answers in the place of an answer, and how that is told.
EVIL = {"lambda *_: asyncio.sleep(0, {'a': 1})": "what came is no message, but dict",
        "lambda *_: asyncio.sleep(0, b'\\x80\\x04\\x95\\n')": "what came is no message: ",
        "lambda *_: asyncio.sleep(0, b'[' * 100000)": "what came is no message: ",
        "lambda *_: asyncio.sleep(0, coded({'state': 'ended', 'status': '0'}))": "an end of a run lacks a part",
        "lambda *_: asyncio.sleep(0, coded({'state': 5}))": "it tells no state of a run"}
# A scheduler that answers what runs something where it is unpickled, in three ways.
EVIL_SCHEDULER = """import asyncio, os, pickle, sys
from distributed.core import Server
from distributed.protocol.serialize import ToPickle, to_serialize
class Evil:
    def __reduce__(self):
        return os.system, ("touch " + sys.argv[2],)
def identity():
    return [to_serialize(Evil()), ToPickle(Evil()), {"status": "uncaught-error", "exception": pickle.dumps(Evil()), "exception_text": "x"}][int(sys.argv[1])]
async def main():
    server = Server({"identity": identity})
    await server.listen("tcp://127.0.0.1:0")
    print(server.address, flush=True)
    await asyncio.sleep(300)
asyncio.run(main())
"""
TRUSTING = """import asyncio, sys
from distributed.core import connect, send_recv
async def main():
    await send_recv(await connect(sys.argv[1]), op="identity")
asyncio.run(main())
"""
SMALL = 50
MANY = 1000
# How much longer five times as many may take, for each.
MOST_RATIO = 2


def result(count, of):
    """The line that tells how many recordings are in the result."""
    return f"btfleet: the result has {count:,} of {of:,} recording{'' if of == 1 else 's'}\n"


def calls(number):
    """The line of a recording in which one thread made so many calls, and another one."""
    return count_line("@calls", [(("b",), 1), (("a",), number)])


def listening(session):
    """The addresses on which the processes of a session listen, by what `ss` tells."""
    done = subprocess.run(["ss", "-ltnpH"], stdout=subprocess.PIPE, check=True)
    found = []
    for line in done.stdout.decode().splitlines():
        if any(os.getsid(int(pid)) == session for pid in re.findall(r"pid=(\d+)", line) if pathlib.Path(f"/proc/{pid}").exists()):
            found.append(line.split()[3])
    return found


class OnThisMachine(WithFolder):
    def test_without_a_scheduler(self):
        one, two = (self.installed.recording(f"{n}.btr", [calls(n)]) for n in (3, 4))
        self.assertEqual(self.installed.run("run", self.script, one, two), (0, b"@calls[b]: 2\n@calls[a]: 7\n\n", result(2, 2)))
        status, printed, _ = self.installed.run("run", self.script, f"web1:{one}", "web2:4.btr", "--by-host", "--json")
        rows = [(("web1", "b"), 1), (("web2", "b"), 1), (("web1", "a"), 3), (("web2", "a"), 4)]
        self.assertEqual((status, json.loads(printed)), (0, json.loads(count_line("@calls", rows))))

    def test_nothing_is_left_behind(self):
        one, folder = self.installed.recording("1.btr", [calls(1)]), self.installed.folder / "scratch"
        folder.mkdir()
        self.assertEqual(self.installed.run("run", self.script, one, env={**os.environ, "TMPDIR": str(folder)})[0], 0)
        self.assertEqual(list(folder.iterdir()), [])

    def test_failures(self):
        """Each with its cause: no file, a damaged one, a program that is killed, an answer that is none."""
        good = self.installed.recording("good.btr", [calls(3)])
        bad = [self.installed.recording("cut.btr", [], 'echo "$recording: C1 truncated at byte 9" >&2; exit 3'),
               self.installed.recording("dead.btr", [], "kill -9 $$"), self.installed.recording("odd.btr", ["no JSON"])]
        status, printed, told = self.installed.run("run", self.script, *bad, good, "nothere.btr")
        self.assertEqual((status, printed), (7, b"@calls[b]: 1\n@calls[a]: 3\n\n"))
        lines = told.splitlines()
        self.assertEqual(lines[:2], [f"btfleet: {bad[0]}: C1 truncated at byte 9", f"btfleet: {bad[1]}: its run was ended by SIGKILL"])
        self.assertRegex(lines[2], f"^btfleet: {bad[2]}: a line of its answer is no JSON")
        self.assertEqual(lines[3:], ["btfleet: nothere.btr: there is no such file",
                                     "btfleet: the result has 1 of 5 recordings"])
        self.assertEqual(self.installed.run("run", self.script, "nothere.btr")[:2], (3, b""))

    def test_a_script_that_the_program_refuses(self):
        """Over all recordings alike it is one refusal, as the program tells it; over one alone it is the cause of
        that one."""
        does = 'echo "$script:1:1: A1 unknown tracepoint" >&2; exit 2'
        one, two = (self.installed.recording(f"{n}.btr", [str(n)], does) for n in (1, 2))
        self.assertEqual(self.installed.run("run", "s.bt", one, two), (2, b"", "s.bt:1:1: A1 unknown tracepoint\n"))
        good = self.installed.recording("good.btr", [calls(3)])
        self.assertEqual(self.installed.run("run", "s.bt", good, two)[::2],
                         (7, f"btfleet: {two}: s.bt:1:1: A1 unknown tracepoint\n{result(1, 2)}"))

    def test_losses(self):
        lines = ['{"count":5,"cpu":0,"type":"lost_events"}', '{"count":6,"cpu":1,"type":"lost_events"}', calls(1),
                 '{"count":1,"map":"@calls","type":"lost_updates"}']
        lossy = self.installed.recording("lossy.btr", lines)
        status, printed, told = self.installed.run("run", self.script, lossy)
        self.assertEqual((status, printed.decode()), (0, "WARNING: 5 events lost on cpu 0\nWARNING: 6 events lost on cpu 1\n"
                                                         "@calls[a]: 1\n@calls[b]: 1\n\nWARNING: 1 updates lost in @calls\n"))
        self.assertEqual(told, f"btfleet: {lossy}: 11 events lost while it was recorded\n"
                               f"btfleet: {lossy}: 1 update of maps lost\n{result(1, 1)}")

    def test_what_is_asked(self):
        """The program gets the script without the numbers of its prints, and nothing is asked where the script
        cannot be merged."""
        script = self.installed.write("top.bt", "t:a:b { @calls[comm] = count(); } END { print(@calls, 1); clear(@calls); }")
        one = self.installed.recording("1.btr", [calls(3)], 'cat "$script" >"$recording.script"')
        self.assertEqual(self.installed.run("run", script, one)[1], b"@calls[a]: 3\n\n")
        self.assertEqual(pathlib.Path(f"{one}.script").read_text(), "t:a:b { @calls[comm] = count(); } END { print(@calls   ); clear(@calls); }")
        self.installed.write("avg.bt", "t:a:b { @calls[@next++] = avg(1); }")
        self.assertEqual(self.installed.run("run", "avg.bt", one)[:2], (2, b""))
        self.assertEqual(self.installed.runs(), [one])

    def test_output_that_cannot_be_written(self):
        one = self.installed.recording("1.btr", [calls(3)])
        with open("/dev/full", "wb") as full:
            done = subprocess.run(self.installed.words(["run", self.script, one]), stdout=full, stderr=subprocess.PIPE, timeout=COMMAND_SECONDS)
        self.assertEqual((done.returncode, done.stderr), (5, b"btfleet: standard output: No space left on device\n"))

    def test_signals(self):
        """An interrupt ends the command and the runs that it began."""
        slow = self.installed.recording("slow.btr", [], 'echo $$ >"$recording.pid"; exec sleep 300')
        words = self.installed.words(["run", self.script, slow])
        for number, status in ((signal.SIGINT, 130), (signal.SIGTERM, 143)):
            with self.subTest(number), subprocess.Popen(words, stdout=subprocess.PIPE, stderr=subprocess.PIPE) as process:
                pid = pathlib.Path(f"{slow}.pid")
                until = time.monotonic() + COMMAND_SECONDS
                while not (pid.is_file() and pid.read_text().endswith("\n")) and time.monotonic() < until:
                    time.sleep(0.05)
                run = int(pid.read_text())
                pid.unlink()
                process.send_signal(number)
                printed, _ = process.communicate(timeout=COMMAND_SECONDS)
                self.assertEqual((process.returncode, printed), (status, b""))
                self.assertFalse(pathlib.Path(f"/proc/{run}").exists())

    def test_progress(self):
        """On a terminal one line tells how far it is."""
        recordings = [self.installed.recording(f"{n}.btr", [calls(n)], "sleep 0.5") for n in range(3)]
        master, terminal = os.openpty()
        self.addCleanup(os.close, master)
        with subprocess.Popen(self.installed.words(["run", self.script, *recordings]), stdout=subprocess.PIPE, stderr=terminal) as process:
            os.close(terminal)
            self.assertEqual(process.communicate(timeout=COMMAND_SECONDS)[0], b"@calls[a]: 3\n@calls[b]: 3\n\n")
        self.assertRegex(os.read(master, 65536).decode(), r"\x1b\[Kbtfleet: \[#* *\] \d+ s: [0-3] of 3 recordings answered[^\x1b]*\r\x1b\[K"
                                                          r"btfleet: the result has 3 of 3")


class OnOneOfItsOwn(WithFolder):
    def test_a_scheduler_that_dies(self):
        """Rows that were answered stay, and the rest is told as lost with it."""
        cluster = self.cluster("web1")
        slow, fast = self.installed.recording("slow.btr", [calls(2)], "sleep 60"), self.installed.recording("fast.btr", [calls(1)])
        words = self.installed.shorter("fleet.GRACE_SECONDS=1,engine.CONNECT_SECONDS=2", ["run", self.script, slow, fast, "--scheduler", cluster.address])
        with subprocess.Popen(words, stdout=subprocess.PIPE, stderr=subprocess.PIPE) as process:
            until = time.monotonic() + COMMAND_SECONDS
            while len(self.installed.runs()) < 2 and time.monotonic() < until:
                time.sleep(0.02)
            time.sleep(1)
            cluster.kill("scheduler")
            printed, told = process.communicate(timeout=COMMAND_SECONDS)
        self.assertEqual((process.returncode, printed), (7, b"@calls[a]: 1\n@calls[b]: 1\n\n"))
        self.assertRegex(told.decode(), f"btfleet: {slow}: the scheduler is gone: ")

    def test_two_machines_of_one_name(self):
        """Cloned machines whose workers have no names: what names both is refused with both. A name that is taken is told."""
        cluster = self.cluster("web1")
        for machine in ("one", "other"):
            cluster.start_worker(machine, given="")
            cluster.wait_for(machine, "(Registered to)")
        cluster.start_worker("again", given="web1")
        cluster.wait_for("again", "(name taken)")
        for number, name in enumerate(("one", "other", "web1")):
            self.installed.recording(f"{name}/one.btr", [calls(number)])
        one, at = f"{cluster.own}one.btr", ["--scheduler", cluster.address]
        taken = "btfleet: the scheduler refused a worker named web1 at [0-9:]{8}, since another one has this name: it is not asked\n"
        for word in ("vm", "*"):
            status, printed, told = self.installed.run("run", self.script, f"{word}:{one}", *at)
            self.assertEqual((status, printed), (1, b""))
            machine = r"tcp://\S+ \(machine machine-, boot boot-o\w+\)"
            why = r"which are not one host: start their workers with names of their own \(--name\)\n"
            self.assertRegex(told, f"^({taken})?btfleet: vm is {machine} and {machine}, {why}$")
        status, printed, told = self.installed.run("run", self.script, f"web1:{one}", *at)
        self.assertEqual((status, printed), (0, b"@calls[b]: 1\n@calls[a]: 2\n\n"))
        self.assertRegex(told, f"^{taken}{result(1, 1)}$")

    def test_a_scheduler_that_was_taken_over(self):
        """What it sends is not unpickled; the same is unpickled where Dask's own way of reading is taken."""
        if not has_dask():
            self.skipTest(WITHOUT_DASK)
        mark = self.installed.folder / "mark"
        for number in range(3):
            words = [sys.executable, "-B", "-c", EVIL_SCHEDULER, str(number), str(mark)]
            process = subprocess.Popen(words, stdout=subprocess.PIPE)
            self.addCleanup(process.communicate)
            self.addCleanup(process.kill)
            address = process.stdout.readline().decode().strip()
            came = self.installed.run("run", self.script, "/x.btr", "--scheduler", address)
            with self.subTest(number):
                self.assertEqual(came[:2], (8, b""))
                self.assertRegex(came[2], f"^btfleet: {address}: no scheduler answers there [^\n]*\n$")
                self.assertFalse(mark.exists())
            subprocess.run([sys.executable, "-B", "-c", TRUSTING, address], stdout=subprocess.DEVNULL, stderr=subprocess.DEVNULL, timeout=COMMAND_SECONDS)
            with self.subTest((number, "by Dask itself")):
                self.assertTrue(mark.exists())
            mark.unlink()


class OnAScheduler(WithCluster):
    def own(self, lines_of, name="one.btr", does=":"):
        """A recording of each host at one path, which is another file on each: by what each has to answer, or none for a host that lacks it."""
        for host, lines in lines_of.items():
            if lines is not None:
                self.installed.recording(f"{host}/{name}", lines, does)
        return self.cluster.own + name

    def test_hosts(self):
        """A path that all hold is asked once, that of a named host there, and with * that of each."""
        one = self.own({name: [printf_line(f"{name}\n"), calls(3)] for name in WORKERS})
        shared = self.installed.recording("shared.btr", [printf_line("hello\n"), calls(3)])
        self.assertEqual(self.installed.run("run", self.script, shared, *self.at), (0, b"hello\n@calls[b]: 1\n@calls[a]: 3\n\n", result(1, 1)))
        self.assertEqual(self.installed.run("run", self.script, f"web2:{one}", "--by-host", *self.at)[1],
                         b"web2: web2\n@calls[web2, b]: 1\n@calls[web2, a]: 3\n\n")
        wanted = ["{0}: {0}\n", "@calls[{}, b]: 1\n", "@calls[{}, a]: 3\n"]
        self.assertEqual(self.installed.run("run", self.script, f"*:{one}", "--by-host", *self.at)[1].decode(),
                         "".join(line.format(name) for line in wanted for name in WORKERS) + "\n")
        self.assertEqual(self.installed.runs(), [shared] + [one] * 4)
        self.assertEqual(self.installed.run("run", self.script, f"web9:{one}", *self.at)[::2],
                         (3, f"btfleet: web9:{one}: no worker is on a host of this name\n{result(0, 1)}"))
        self.assertEqual(self.installed.run("run", self.script, shared, f"web3:{one}x", *self.at)[::2],
                         (7, f"btfleet: web3:{one}x: there is no such file there that can be read\n{result(1, 2)}"))
        self.assertEqual(self.installed.run("run", self.script, one, *self.at),
                         (1, b"", f"btfleet: {one} is another file on web1 than on web2: name one by web1:{one}, or that of each host by '*:{one}'\n"))

    def test_one_file_counts_once(self):
        """A file on a shared disk, under several hosts or links, is refused where it would be counted twice."""
        shared = self.installed.recording("shared.btr", [calls(3)])
        os.link(shared, self.installed.folder / "hard.btr")
        os.symlink(shared, self.installed.folder / "link.btr")
        hard, link = (str(self.installed.folder / f"{name}.btr") for name in ("hard", "link"))
        alike = "are one file, as on a shared disk or copied with its disk: name it by"
        for words, why in (([f"*:{shared}"], f"web1:{shared} and web2:{shared} {alike} {shared} alone"),
                           ([f"web1:{shared}", f"web2:{shared}"], f"web1:{shared} and web2:{shared} {alike} {shared} alone"),
                           ([shared, hard], f"{shared} and {hard} are one file, which would be counted twice"),
                           ([f"web1:{link}", f"web1:{shared}"], f"web1:{link} and web1:{shared} are one file, which would be counted twice")):
            with self.subTest(words):
                self.assertEqual(self.installed.run("run", self.script, *words, *self.at), (1, b"", f"btfleet: {why}\n"))
        self.assertEqual(self.installed.runs(), [])

    def test_several_workers_of_a_host(self):
        """As --nworkers starts them: their machine is one host, and its recording is in the result once."""
        self.cluster.start_worker("web5", more=("--nworkers", "2"))
        self.cluster.wait_for("web5", "(?s)(Registered to.*Registered to)")
        numbers = {"web1": 1, "web2": 2, "web3": 3, "web5": 5}
        one = self.own({name: [count_line("@calls", [(("x",), number)])] for name, number in numbers.items()})
        self.assertEqual(self.installed.run("run", self.script, f"*:{one}", "--by-host", *self.at),
                         (0, "".join(f"@calls[{name}, x]: {number}\n" for name, number in numbers.items()).encode() + b"\n", result(4, 4)))
        self.assertEqual(len(self.installed.runs()), 4)

    def test_a_host_that_hangs(self):
        """It is one of those asked, by its name, and a failure; what does not ask it is not held up."""
        one = self.own({name: [calls(3)] for name in WORKERS})
        self.cluster.processes["web2"].signal(signal.SIGSTOP)
        alone = self.installed.shorter(f"survey.LOOK_SECONDS={COMMAND_SECONDS}", ["run", self.script, f"web1:{one}", *self.at])
        self.assertEqual(subprocess.run(alone, stdout=subprocess.PIPE, stderr=subprocess.PIPE, timeout=COMMAND_SECONDS // 2).returncode, 0)
        words = self.installed.shorter("survey.LOOK_SECONDS=8,progress.FIRST_SECONDS=4", ["run", self.script, f"*:{one}", *self.at])
        done = subprocess.run(words, stdout=subprocess.PIPE, stderr=subprocess.PIPE, timeout=COMMAND_SECONDS)
        self.assertEqual((done.returncode, done.stdout), (7, b"@calls[b]: 2\n@calls[a]: 6\n\n"))
        lines = done.stderr.decode().splitlines()
        self.assertRegex(lines.pop(0), "^btfleet: waiting for (web1, )?web2(, web3)? to tell which recordings are there$")
        self.assertEqual(lines,
                         [f"btfleet: web1:{one}, web3:{one} are alike in size, head and end: a copy is counted as often as it is named",
                          f"btfleet: web2:{one}: it does not answer within 8 seconds", result(2, 3).strip()])

    def test_a_worker_that_hangs_half_way(self):
        """What it was asked is asked of another one that holds it, or told as a failure of its host by name."""
        stops = 'case $PWD in */web2) kill -STOP $PPID; sleep 1;; esac'
        held = [self.installed.recording(f"{number}.btr", [calls(number)], stops) for number in range(6)]
        own = self.own({"web2": [calls(4)]}, "own.btr", stops)
        words = self.installed.shorter("fleet.HANG_SECONDS=1,fleet.CONNECT_SECONDS=2", ["run", self.script, f"web2:{own}", *held, *self.at])
        done = subprocess.run(words, stdout=subprocess.PIPE, stderr=subprocess.PIPE, timeout=COMMAND_SECONDS)
        self.assertEqual((done.returncode, done.stdout.decode()), (7, "@calls[b]: 6\n@calls[a]: 15\n\n"))
        self.assertEqual(done.stderr.decode().splitlines()[-2:],
                         [f"btfleet: web2:{own}: its host does not answer: no answer within 2 seconds", result(6, 7).strip()])

    def test_what_is_no_file_blocks_nobody(self):
        """A pipe is not opened: it is a failure, and the hosts answer others."""
        for host in WORKERS:
            pipe = self.installed.folder / host / "pipe"
            os.mkfifo(pipe)
            self.addCleanup(pipe.unlink)
        one = self.own({name: [calls(number)] for number, name in enumerate(WORKERS)})
        pipe = f"{self.cluster.own}pipe"
        self.assertEqual(self.installed.run("run", self.script, f"*:{pipe}", *self.at),
                         (3, b"", "".join(f"btfleet: {host}:{pipe}: it is no regular file there\n" for host in WORKERS) + result(0, 3)))
        self.assertEqual(self.installed.run("run", self.script, f"*:{one}", *self.at)[0], 0)

    def test_one_damaged_among_fifty(self):
        recordings = [self.installed.recording(f"{n}.btr", [calls(n)]) for n in range(SMALL)]
        self.installed.recording("17.btr", [], 'echo "$recording: C8 unknown id in event 0 of cpu 0" >&2; exit 3')
        status, printed, told = self.installed.run("run", self.script, *recordings, *self.at)
        self.assertEqual((status, printed.decode()), (7, f"@calls[b]: {SMALL - 1}\n@calls[a]: {sum(range(SMALL)) - 17}\n\n"))
        self.assertEqual(told, f"btfleet: {recordings[17]}: C8 unknown id in event 0 of cpu 0\n{result(49, 50)}")

    def test_a_worker_that_dies_half_way(self):
        """What it was asked is asked of the others, and each recording is in the result once."""
        recordings = [self.installed.recording(f"{n}.btr", [calls(n)], "sleep 0.3") for n in range(SMALL)]
        words = self.installed.words(["run", self.script, *recordings, *self.at])
        with subprocess.Popen(words, stdout=subprocess.PIPE, stderr=subprocess.PIPE) as process:
            until = time.monotonic() + COMMAND_SECONDS
            while len(self.installed.runs()) < SMALL // 3 and time.monotonic() < until:
                time.sleep(0.02)
            self.cluster.kill("web2")
            begun = len(self.installed.runs())
            printed, told = process.communicate(timeout=COMMAND_SECONDS)
        self.assertLess(begun, SMALL)
        self.assertEqual((process.returncode, printed.decode(), told.decode()),
                         (0, f"@calls[b]: {SMALL}\n@calls[a]: {sum(range(SMALL))}\n\n", result(50, 50)))

    def test_the_only_holder_dies(self):
        """It is told, and what others hold is in the result. The wait for it is cut short here."""
        one = self.installed.recording("1.btr", [calls(1)])
        slow = self.installed.recording("2.btr", [calls(2)], "sleep 30")
        words = self.installed.shorter("fleet.GRACE_SECONDS=1", ["run", self.script, f"web1:{one}", f"web2:{slow}", *self.at])
        with subprocess.Popen(words, stdout=subprocess.PIPE, stderr=subprocess.PIPE) as process:
            until = time.monotonic() + COMMAND_SECONDS
            while slow not in self.installed.runs() and time.monotonic() < until:
                time.sleep(0.05)
            self.cluster.kill("web2")
            printed, told = process.communicate(timeout=COMMAND_SECONDS)
        self.assertEqual((process.returncode, printed), (7, b"@calls[a]: 1\n@calls[b]: 1\n\n"))
        self.assertEqual(told.decode(), f"btfleet: web2:{slow}: no worker that holds it is there any more\n{result(1, 2)}")

    def test_a_worker_that_is_started_anew(self):
        """At another address, and at the same one, where its port is fixed: it is asked again."""
        with socket.create_server(("127.0.0.1", 0)) as free:
            port = ["--no-nanny", "--worker-port", str(free.getsockname()[1])]
        for number, more in enumerate((["--no-nanny"], port)):
            with self.subTest(more):
                self.cluster.kill("web1")
                self.cluster.start_worker("web1", more=more)
                self.cluster.wait_for("web1", "(Registered to)")
                self.installed.write("lib/runs", "")
                slow = self.installed.recording(f"{number}.btr", [calls(2)], '[ "$(wc -l <"$(dirname "$0")/runs")" -gt 1 ] || sleep 30')
                words = self.installed.words(["run", self.script, f"web1:{slow}", *self.at])
                with subprocess.Popen(words, stdout=subprocess.PIPE, stderr=subprocess.PIPE) as process:
                    self.wait_for_runs(1)
                    self.cluster.kill("web1")
                    self.cluster.start_worker("web1", more=more)
                    printed, told = process.communicate(timeout=COMMAND_SECONDS)
                self.assertEqual((process.returncode, printed), (0, b"@calls[b]: 1\n@calls[a]: 2\n\n"))
                self.assertEqual(told.decode().splitlines()[-1], result(1, 1).strip())

    def test_no_code_is_sent(self):
        """A worker that was not told where btfleet is cannot be asked, so what runs there is its own."""
        self.cluster.start_worker("bare", with_btfleet=False)
        self.cluster.wait_for("bare", "(Registered to)")
        one = self.own({name: [calls(number)] for number, name in enumerate(WORKERS)})
        status, printed, told = self.installed.run("run", self.script, f"*:{one}", *self.at)
        self.assertEqual((status, printed), (7, b"@calls[a]: 3\n@calls[b]: 3\n\n"))
        self.assertEqual(told, f"btfleet: bare:{one}: its worker does not know btfleet: start it with --preload tools/btfleet/preload.py\n{result(3, 4)}")

    def test_schedulers(self):
        one = self.installed.recording("1.btr", [calls(1)])
        for address, status in (("tcp://127.0.0.1:1", 8), ("x://y", 1), ("127.0.0.1", 1), ("tcp://:8786", 1), ("foo", 1), ("tcp://h:99999", 1)):
            with self.subTest(address):
                words = self.installed.shorter("engine.CONNECT_SECONDS=1", ["run", self.script, one, "--scheduler", address])
                done = subprocess.run(words, stdout=subprocess.PIPE, stderr=subprocess.PIPE, timeout=COMMAND_SECONDS)
                self.assertEqual((done.returncode, done.stdout, done.stderr.count(b"\n")), (status, b"", 1))
                self.assertRegex(done.stderr.decode(), f"^btfleet: {address}: no scheduler answers|^btfleet: {address} is no address of a scheduler")
        self.assertRegex(self.installed.run("run", self.script, one, "--scheduler", "tls://127.0.0.1:1")[2],
                         r"^btfleet: tls://127.0.0.1:1: tls:// wants Dask's settings distributed.comm.tls.ca-file [^\n]*\n$")
        self.assertEqual(self.installed.run("run", self.script, one, "--scheduler", ""),
                         (1, b"", "btfleet: --scheduler: an empty word is no address; without --scheduler the recordings are files here\n"))

    def test_what_ends_a_run_there(self):
        """An interrupt of the command and a time limit end what runs on the hosts, and the next one is answered at once."""
        slow = self.installed.recording("slow.btr", [calls(2)], 'echo $$ >"$recording.pid"; sleep 300')
        fast, pid = self.installed.recording("fast.btr", [calls(1)]), pathlib.Path(f"{slow}.pid")
        with subprocess.Popen(self.installed.words(["run", self.script, slow, *self.at]), stdout=subprocess.PIPE, stderr=subprocess.PIPE) as process:
            self.wait_for_runs(1)
            time.sleep(0.5)
            process.send_signal(signal.SIGINT)
            process.communicate(timeout=COMMAND_SECONDS)
        self.assertEqual(process.returncode, 130)
        self.wait_for_no(int(pid.read_text()))
        status, printed, told = self.installed.run("run", self.script, slow, fast, "--timeout", "1", *self.at)
        self.assertEqual((status, printed), (7, b"@calls[a]: 1\n@calls[b]: 1\n\n"))
        self.assertEqual(told, f"btfleet: {slow}: its run took more than 1 seconds\n{result(1, 2)}")
        self.wait_for_no(int(pid.read_text()))
        with subprocess.Popen(self.installed.words(["run", self.script, slow, *self.at]), stdout=subprocess.PIPE, stderr=subprocess.PIPE) as process:
            self.wait_for_runs(4)
            process.kill()
            process.communicate()
        self.assertEqual(self.installed.run("run", self.script, fast, *self.at)[0], 0)

    def wait_for_no(self, pid):
        """Waits until a process is there no more, a few seconds."""
        until = time.monotonic() + 10
        while pathlib.Path(f"/proc/{pid}").exists() and time.monotonic() < until:
            time.sleep(0.05)
        self.assertFalse(pathlib.Path(f"/proc/{pid}").exists())

    def test_what_a_host_allows(self):
        """Folders, and limits of time; each run stands in the worker's log."""
        (self.installed.folder / "let").mkdir()
        inside, outside = (self.installed.recording(name, [calls(1)]) for name in ("let/in.btr", "out.btr"))
        slow = self.installed.recording("let/slow.btr", [calls(2)], "sleep 100")
        large = self.installed.recording("let/large.btr", [calls(2)], "ulimit -v >&2; exit 6")
        os.symlink(outside, self.installed.folder / "let" / "link.btr")
        let = str(self.installed.folder / "let")
        self.cluster.start_worker("strict", allowed=("--folder", let, "--seconds", "1", "--memory", "1G"))
        self.cluster.wait_for("strict", "(Registered to)")
        words = [f"strict:{path}" for path in (outside, f"{let}/link.btr", slow, large, inside)]
        status, printed, told = self.installed.run("run", self.script, *words, *self.at)
        self.assertEqual((status, printed), (7, b"@calls[a]: 1\n@calls[b]: 1\n\n"))
        why = f"the host lets recordings be read from {let} alone"
        self.assertEqual(told.splitlines(), [f"btfleet: {words[0]}: {why}", f"btfleet: {words[1]}: {why}",
                                             f"btfleet: {words[2]}: its run took more than 1 seconds", f"btfleet: {words[3]}: {1 << 20}",
                                             result(1, 5).strip()])
        self.assertRegex((self.installed.folder / "strict.log").read_text(), rf"btfleet: \S+@\S+ asked b?'t:a:b {{.*}}' of {inside}: status 0, ")

    def test_a_recording_that_is_replaced(self):
        """Between the look and the run, or while it is read: it is told, and not in the result."""
        one = self.installed.recording("1.btr", [calls(1)], 'printf "%s\\n" : >"$recording.new"; mv "$recording.new" "$recording"')
        self.assertEqual(self.installed.run("run", self.script, one, *self.at),
                         (3, b"", f"btfleet: {one}: it was replaced or changed since it was looked at\n{result(0, 1)}"))
        self.assertEqual(self.installed.run("run", self.script, self.installed.recording("2.btr", [calls(1)], 'echo x >>"$recording"'))[0], 3)

    def test_a_host_that_was_taken_over(self):
        """What it answers in the place of an answer is told, and the others are in the result."""
        own = self.own({"web1": [calls(3)]})
        for number, (answer, why) in enumerate(EVIL.items()):
            name = f"evil.{number}"
            self.cluster.start_worker(name, changed=f"serving.Host.ask = {answer}")
            self.cluster.wait_for(name, "(Registered to)")
            self.installed.recording(f"{name}/one.btr", [calls(5)])
            with self.subTest(answer):
                status, printed, told = self.installed.run("run", self.script, f"web1:{own}", f"{name}:{own}", *self.at)
                self.assertEqual((status, printed), (7, b"@calls[b]: 1\n@calls[a]: 3\n\n"))
                self.assertRegex(told, f"btfleet: {name}:{own}: its host answers what is no answer: {why}")
            self.cluster.kill(name)

    def test_how_many_have_to_answer(self):
        """Hosts that are expected and that the scheduler does not know are failures; fewer answers than the least print nothing."""
        one = self.own({"web1": [calls(1)], "web2": None, "web3": [calls(4)]})
        hosts = self.installed.write("hosts", "web1\nweb2 # the other\n\nweb7\n")
        status, printed, told = self.installed.run("run", self.script, f"*:{one}", "--hosts", hosts, "--json", *self.at)
        self.assertEqual((status, told.splitlines()), (7, [f"btfleet: web2:{one}: there is no such file there that can be read",
                                                           f"btfleet: web7:{one}: no worker is on a host of this name", result(2, 4).strip()]))
        self.assertEqual([json.loads(line) for line in printed.splitlines()[1:]],
                         [{"cause": "there is no such file there that can be read", "host": "web2", "recording": f"web2:{one}", "type": "failure"},
                          {"cause": "no worker is on a host of this name", "host": "web7", "recording": f"web7:{one}", "type": "failure"}])
        self.assertEqual(self.installed.run("run", self.script, f"*:{one}", "--least", "2", *self.at)[:2], (7, b"@calls[b]: 2\n@calls[a]: 5\n\n"))
        status, printed, told = self.installed.run("run", self.script, f"*:{one}", "--least", "3", *self.at)
        self.assertEqual((status, printed, told.splitlines()[-1]), (3, b"", "btfleet: the result has 2 of 3 recordings, fewer than the 3 that are wanted"))

    def test_which_addresses_are_listened_on(self):
        """The scheduler and the workers, started as the page says, listen on the loopback alone; the command by itself on none."""
        found = {address for process in self.cluster.processes.values() for address in listening(process.pid)}
        self.assertGreaterEqual(len(found), 4)
        self.assertEqual({address for address in found if not address.startswith("127.0.0.1:")}, set())
        slow = self.installed.recording("slow.btr", [calls(2)], "sleep 2")
        words = self.installed.words(["run", self.script, slow])
        with subprocess.Popen(words, stdout=subprocess.PIPE, stderr=subprocess.PIPE, start_new_session=True) as alone:
            self.wait_for_runs(1)
            self.assertEqual(listening(alone.pid), [])
            alone.communicate(timeout=COMMAND_SECONDS)
        self.assertEqual(alone.returncode, 0)

    def test_a_time_linear_in_the_number(self):
        """A thousand small recordings, and a fifth of them: for each no more than twice the time."""
        recordings = [self.installed.recording(f"{n}.btr", [calls(n)]) for n in range(MANY)]
        took = {}
        for count in (1, MANY // 5, MANY):
            began = time.monotonic()
            status, printed, told = self.installed.run("run", self.script, *recordings[:count], *self.at)
            took[count] = time.monotonic() - began
            self.assertEqual((status, told.splitlines()[-1]), (0, result(count, count).strip()))
            self.assertEqual(sorted(printed.decode().splitlines()), sorted(["", f"@calls[a]: {sum(range(count))}", f"@calls[b]: {count}"]))
        for_each = [(took[count] - took[1]) / count for count in (MANY // 5, MANY)]
        self.assertLess(for_each[1], MOST_RATIO * for_each[0], f"seconds: {took}")


if __name__ == "__main__":
    unittest.main()
