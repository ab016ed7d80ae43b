"""What the tests of btfleet stand on: the tools as `make install` puts them, with a stand-in for the program,
recordings that say what it answers, and a scheduler with workers on the loopback.

Each process that is begun here ends with the test, and by itself after some time, should the test be killed.
"""
import contextlib
import importlib
import json
import os
import pathlib
import re
import shutil
import signal
import subprocess
import sys
import tempfile
import time
import unittest

TOOLS = pathlib.Path(__file__).resolve().parent.parent.parent
TOP = TOOLS.parent
if str(TOOLS) not in sys.path:
    sys.path.insert(0, str(TOOLS))

# A machine that does much else starts the engine in tens of seconds.
MOST_SECONDS = 400
COMMAND_SECONDS = 200
START_SECONDS = 300
WORKERS = ("web1", "web2", "web3")
WITHOUT_DASK = f"{sys.executable} has no Dask (Debian's package python3-distributed brings it for /usr/bin/python3)"

# The stand-in notes each run. A recording of the tests is a file of lines that it prints, after a first line of shell
# that it runs.
PROGRAM = """#!/bin/sh
[ "$1 $2 $3" = "run --serial --json" ] || { echo "usage: btreplay run [--serial] SCRIPT RECORDING" >&2; exit 1; }
script=$4 recording=$5
echo "$recording" >>"$(dirname "$0")/runs"
eval "$(head -n 1 "$recording")"
tail -n +2 "$recording"
"""


# What a worker of the tests is told: it is on a machine of its own, by the word of the environment, and all else is as the preload has it.
PRELOAD = """import asyncio, importlib.util, os, sys
spec = importlib.util.spec_from_file_location("btfleet_preload", {path!r})
preload = importlib.util.module_from_spec(spec)
spec.loader.exec_module(preload)
from btfleet import machine, serving
from btfleet.wire import coded
name = os.environ["BTFLEET_TEST_MACHINE"]
serving.this_machine = lambda: machine.Machine("machine-" + name, "boot-" + name, "mounts", "vm")
exec(os.environ.get("BTFLEET_TEST_CHANGED", ""))
dask_setup, dask_teardown = preload.dask_setup, preload.dask_teardown
"""
# Runs the command with other seconds than it has.
SHORTER = """import importlib, json, sys
sys.path.insert(0, sys.argv.pop(1))
for word in sys.argv.pop(1).split(","):
    name, _, value = word.partition("=")
    module, _, name = name.rpartition(".")
    setattr(importlib.import_module("btfleet." + module), name, json.loads(value))
from btfleet import command
sys.exit(command.main(sys.argv[1:]))
"""


def has_dask():
    """Whether this Python has the engine."""
    with contextlib.suppress(ImportError):
        import distributed  # noqa: F401
        return True
    return False


def count_line(name, rows):
    """A line of a map of numbers, by its rows as pairs of key and value."""
    return json.dumps({"data": [{"key": list(key), "value": value} for key, value in rows], "map": name, "type": "map"})


def printf_line(text):
    """A line of printf."""
    return json.dumps({"data": text, "type": "printf"})


class Installed:
    """A folder with the tools as they are installed, and a program: the stand-in, or another."""

    def __init__(self, folder, program=None):
        self.folder = pathlib.Path(folder)
        self.lib = self.folder / "lib"
        ignored = shutil.ignore_patterns("tests", "__pycache__")
        for tool in ("btreplay", "btrecord", "btfleet", "reckoning"):
            shutil.copytree(TOOLS / tool, self.lib / "tools" / tool, ignore=ignored)
        if program:
            (self.lib / "bt_program").symlink_to(program)
        else:
            (self.lib / "bt_program").write_text(PROGRAM)
            (self.lib / "bt_program").chmod(0o755)

    def write(self, name, content):
        """Writes a file, and gives its path."""
        path = self.folder / name
        path.write_bytes(content if isinstance(content, bytes) else content.encode())
        return str(path)

    def recording(self, name, lines, does=":"):
        """A recording that answers these lines, after the stand-in has done something."""
        return self.write(name, "".join(f"{line}\n" for line in [does, *lines]))

    def runs(self):
        """The recordings that the stand-in was run over."""
        path = self.lib / "runs"
        return path.read_text().splitlines() if path.is_file() else []

    def words(self, words):
        """The words of a process that runs the command."""
        return [sys.executable, "-B", str(self.lib / "tools" / "btfleet"), *words]

    def shorter(self, seconds, words):
        """The words of a process that runs the command with other seconds than it has, as survey.LOOK_SECONDS=2."""
        return [sys.executable, "-B", "-c", SHORTER, str(self.lib / "tools"), seconds, *words]

    def run(self, *words, **how):
        """Runs the command, and gives its status, what it printed, in bytes, and what it told."""
        done = subprocess.run(self.words(words), stdin=subprocess.DEVNULL, stdout=subprocess.PIPE, stderr=subprocess.PIPE, cwd=self.folder,
                              timeout=COMMAND_SECONDS, **how)
        return done.returncode, done.stdout, done.stderr.decode()


class Process:
    """A process in a session of its own, with all that it begins, which runs a command of the engine. It ends by itself after some time. It is forked, so
    that the engine is imported once for all."""

    def __init__(self, module, words, log, folder, **environment):
        self.status = None
        self.pid = os.fork()
        if self.pid == 0:
            try:
                self.become(module, words, log, folder, environment)
            finally:
                os._exit(1)

    def become(self, module, words, log, folder, environment):
        """What the forked process does. The tools that it finds are those of its preload."""
        os.setsid()
        os.chdir(folder)
        os.environ.update(environment)
        for number, name, flags in ((0, os.devnull, os.O_RDONLY), (1, log, os.O_WRONLY | os.O_CREAT | os.O_TRUNC), (2, log, os.O_WRONLY | os.O_APPEND)):
            os.dup2(os.open(name, flags, 0o644), number)
        signal.signal(signal.SIGINT, signal.default_int_handler)
        signal.alarm(MOST_SECONDS)
        for name in [name for name in sys.modules if name.partition(".")[0] in ("btfleet", "btreplay", "reckoning")]:
            del sys.modules[name]
        sys.path[:] = [path for path in sys.path if path != str(TOOLS)]
        sys.argv = [module, *words]
        importlib.import_module(module).main(words)

    def is_there(self):
        """Whether it has not ended."""
        if self.status is None:
            found, status = os.waitpid(self.pid, os.WNOHANG)
            self.status = status if found else None
        return self.status is None

    def kill(self):
        """Kills it with all that it began."""
        with contextlib.suppress(ProcessLookupError):
            os.killpg(self.pid, signal.SIGKILL)
        if self.status is None:
            self.status = os.waitpid(self.pid, 0)[1]

    def signal(self, number):
        """Sends it a signal, with all that it began."""
        os.killpg(self.pid, number)


class Cluster:
    """A scheduler and workers on the loopback, each with a name and a machine of its own as if it were a host. What is `own` to it lies in a folder with
    its name, which it works in."""

    own = "/proc/self/cwd/"

    def __init__(self, installed, names=WORKERS, with_btfleet=True):
        self.installed, self.processes = installed, {}
        self.folder = installed.folder
        self.preload = installed.write("test_preload.py", PRELOAD.format(path=str(installed.lib / "tools" / "btfleet" / "preload.py")))
        self.start("scheduler", "dask_scheduler", "--host", "127.0.0.1", "--port", "0", "--no-dashboard", "--dashboard-address", "127.0.0.1:0")
        self.address = self.wait_for("scheduler", r"Scheduler at:\s+(tcp://\S+)")
        for name in names:
            self.start_worker(name, with_btfleet)
        for name in names:
            self.wait_for(name, r"(Registered to)")

    def start(self, name, module, *words, **environment):
        """Starts a part of the engine."""
        folder = self.folder / name
        folder.mkdir(exist_ok=True)
        self.processes[name] = Process(f"distributed.cli.{module}", list(words), str(self.folder / f"{name}.log"), folder, **environment)

    def start_worker(self, name, with_btfleet=True, allowed=(), given=None, machine=None, changed="", more=("--no-nanny",)):
        """Starts a worker with two runs at a time: with a name that is given to it, where that is not empty, and on a machine. What its host allows are
        words for the preload."""
        known = ["--preload", self.preload] if with_btfleet else []
        given = name if given is None else given
        self.start(name, "dask_worker", self.address, *(["--name", given] if given else []), "--nthreads", "2", "--no-dashboard", "--dashboard-address",
                   "127.0.0.1:0", "--host", "127.0.0.1", "--local-directory", str(self.folder / name), "--death-timeout", "60", *more, *known, *allowed,
                   BTFLEET_TEST_MACHINE=machine or name, BTFLEET_TEST_CHANGED=changed)

    def wait_for(self, name, pattern):
        """Waits until a process has written what a pattern fits, and gives its group."""
        until = time.monotonic() + START_SECONDS
        while time.monotonic() < until:
            log = self.folder / f"{name}.log"
            text = log.read_text(errors="replace") if log.is_file() else ""
            found = re.search(pattern, text)
            if found:
                return found[1]
            if not self.processes[name].is_there():
                break
            time.sleep(0.05)
        raise AssertionError(f"{name} did not come up:\n{text}")

    def kill(self, *names):
        """Kills processes by their names, or all."""
        for name in names or list(self.processes):
            self.processes.pop(name).kill()

    def restore(self, names):
        """Lets these workers be there, and no other one."""
        for name in [name for name in self.processes if name not in ("scheduler", *names)]:
            self.kill(name)
        for name in names:
            if name in self.processes and self.processes[name].is_there():
                self.processes[name].signal(signal.SIGCONT)
            else:
                self.start_worker(name)
                self.wait_for(name, "(Registered to)")


class WithFolder(unittest.TestCase):
    """A test with the tools in a folder of its own."""

    program = None

    def setUp(self):
        folder = tempfile.TemporaryDirectory()
        self.addCleanup(folder.cleanup)
        self.installed = Installed(folder.name, self.program)
        self.script = self.installed.write("s.bt", "t:a:b { @calls[comm] = count(); }")

    def cluster(self, *names, **how):
        """A scheduler and workers, which end with the test."""
        if not has_dask():
            self.skipTest(WITHOUT_DASK)
        cluster = Cluster(self.installed, names or WORKERS, **how)
        self.addCleanup(cluster.kill)
        return cluster


class WithCluster(unittest.TestCase):
    """A test with the tools in a folder, and with workers that all tests of its class have, each of which leaves them as they were."""

    names = WORKERS

    @classmethod
    def setUpClass(cls):
        if not has_dask():
            raise unittest.SkipTest(WITHOUT_DASK)
        folder = tempfile.TemporaryDirectory()
        cls.addClassCleanup(folder.cleanup)
        cls.installed = Installed(folder.name)
        cls.cluster = Cluster(cls.installed, cls.names)
        cls.addClassCleanup(cls.cluster.kill)

    def setUp(self):
        self.installed.write("lib/runs", "")
        for path in self.installed.folder.glob("**/*.btr"):
            path.unlink()
        self.script = self.installed.write("s.bt", "t:a:b { @calls[comm] = count(); }")
        self.at = ["--scheduler", self.cluster.address]

    def tearDown(self):
        self.cluster.restore(self.names)

    def ask(self, *words):
        """Asks the script of recordings of the cluster."""
        return self.installed.run("run", self.script, *words, *self.at)

    def wait_for_runs(self, count):
        """Waits until the stand-in was run so often."""
        until = time.monotonic() + COMMAND_SECONDS
        while len(self.installed.runs()) < count and time.monotonic() < until:
            time.sleep(0.02)
