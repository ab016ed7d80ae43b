"""A property test of the merge with the built program: recordings are made and cut by their CPUs, and what the parts answer together is what the program
prints of the whole, to the byte, as text and as JSON lines.

Scripts are made for each recording, of all aggregations that merge, over values of both signs, keys of all kinds, and prints of END. They are the same
each time; what a failure tells has the script.
"""
import concurrent.futures
import os
import pathlib
import random
import subprocess
import sys
import tempfile
import unittest

from fleet_hosts import TOOLS, TOP

from btfleet.answers import answer_of
from btfleet.merged import Merged
from btfleet.plan import Fault, plan_of
from btfleet.printing import printed
from built_program import NO_PROGRAM, real_program

PROGRAM = real_program()
CPUS = 4
SEED, CASES = 89, 1000
# Made recordings by their seeds and numbers of events, and stretches of a real one in seconds.
MADE = [(1, 0), (2, 9), (3, 40), (4, 60), (5, 200), (6, 500)]
STRETCHES = [(895.0651, 895.1), (895.07, 895.1171), (895.0651, 895.11)]
ENTER, EXIT = "tracepoint:raw_syscalls:sys_enter", "tracepoint:raw_syscalls:sys_exit"
KEYS = ["", "comm", "pid", "cpu", "args.id", "args.id % 3", "uid", "comm, args.id % 2", "cpu, pid", '"a", comm, 0 - args.id % 4', "args.id * 0x7fff_ffff_ffff"]
VALUES = ["args.id", "args.id - 100", "0 - args.id", "nsecs", "args.id * 0x0fff_ffff_ffff_ffff", "pid * args.id", "1", "0", "0x7fff_ffff_ffff_ffff", "{extra}"]
BOUNDS = ["0, 100, 10", "-50, 50, 7", "0, 1000, 1", "100, 120, 20"]
ALL = ["count", "sum", "min", "max", "hist", "lhist"]


def call_of(word, value, choose):
    """The call of an aggregation."""
    return "count()" if word == "count" else f"lhist({value}, {choose(BOUNDS)})" if word == "lhist" else f"{word}({value})"


def prints_of(name, word, choose):
    """What END does with a map: nothing, or prints of all or of the greatest rows, divided or not, and behind them clear or zero."""
    how = choose(["", "", "print({0});", "print({0}, 3);", "print({0}, 1, 10);", "print({0}, 0, 7);", "print({0}); print({0}, 2);"])
    behind = ["", "", "clear({0});"] + (["zero({0});"] if word in ("count", "sum", "hist", "lhist") else [])
    return (how + choose(behind)).format(name)


def script_of(chance, probe):
    """A script of two or three maps over a tracepoint."""
    choose, body, end = chance.choice, "", ""
    extra = "args.ret" if probe == EXIT else "cpu - 2"
    for number in range(choose([2, 3])):
        name, word, key = f"@m{number}", choose(ALL), choose(KEYS)
        value = choose(VALUES).format(extra=extra)
        body += f"{name}{f'[{key}]' if key else ''} = {call_of(word, value, choose)}; "
        end += prints_of(name, word, choose)
    where = choose(["", "", "", "", "", " /args.id % 2/", " /cpu != 1/", " /args.id > 9999/"])
    return f"{probe}{where} {{ {body}}}" + (f" END {{ {end} }}" if end else "")


def run(script, recording, *words):
    """What the program prints of a recording."""
    with tempfile.NamedTemporaryFile(suffix=".bt") as file:
        file.write(script)
        file.flush()
        done = subprocess.run([PROGRAM, "run", "--serial", *words, file.name, recording], stdin=subprocess.DEVNULL, stdout=subprocess.PIPE,
                              stderr=subprocess.PIPE, timeout=100)
    if done.returncode:
        raise AssertionError(f"{script.decode()}\n{done.stderr.decode()}")
    return done.stdout


@unittest.skipUnless(PROGRAM, NO_PROGRAM)
class Property(unittest.TestCase):
    @classmethod
    def setUpClass(cls):
        folder = tempfile.TemporaryDirectory()
        cls.addClassCleanup(folder.cleanup)
        cls.folder = pathlib.Path(folder.name)
        cls.recordings = []
        for seed, count in MADE:
            whole = cls.folder / f"made{seed}.btr"
            whole.write_bytes(subprocess.run([PROGRAM, "gen", str(seed), str(count)], check=True, stdout=subprocess.PIPE, timeout=100).stdout)
            cls.recordings.append((str(whole), ENTER))
        small = str(TOP / "examples" / "small.btr")
        cls.recordings.append((small, EXIT))
        for number, (begin, end) in enumerate(STRETCHES):
            cls.recordings.append((cls.cut(small, f"stretch{number}.btr", "--from", str(begin), "--to", str(end)), EXIT))
        cls.parts = {whole: [cls.cut(whole, f"{number}-{cpu}.btr", "--cpu", str(cpu)) for cpu in range(CPUS)]
                     for number, (whole, _) in enumerate(cls.recordings)}

    @classmethod
    def cut(cls, recording, name, *words):
        """A part of a recording."""
        path = str(cls.folder / name)
        subprocess.run([sys.executable, "-B", str(TOOLS / "btrecord"), "cut", recording, *words, "-o", path], check=True, stderr=subprocess.DEVNULL,
                       timeout=100)
        return path

    def check(self, number):
        """One case: the parts of a recording together, and the whole. Gives the script where they differ, and how many bytes were compared."""
        chance = random.Random(SEED * 1_000_003 + number)
        whole, probe = self.recordings[number % len(self.recordings)]
        script = script_of(chance, probe)
        plan = plan_of(script)
        if isinstance(plan, Fault):
            return f"{script}\nis refused: {plan}", 0
        merged = Merged(plan)
        for place, part in enumerate(self.parts[whole]):
            merged.take(place, "h", answer_of(run(plan.script.encode("latin-1"), part, "--json"), plan))
        as_json = number % 2 == 1
        wanted = run(script.encode(), whole, *(["--json"] if as_json else []))
        came = b"".join(printed(merged, as_json))
        return ("" if came == wanted else f"{script}\nof {whole}:\n{came.decode('latin-1')}\nand not\n{wanted.decode('latin-1')}"), len(wanted)

    def test_parts_together_are_the_whole(self):
        with concurrent.futures.ThreadPoolExecutor(os.cpu_count()) as pool:
            came = list(pool.map(self.check, range(CASES)))
        differing = [text for text, _ in came if text]
        self.assertEqual(differing[:1], [], f"{len(differing)} of {CASES} cases differ")
        # Most cases print something, or nothing would be held to anything.
        self.assertGreater(sum(size > 0 for _, size in came), CASES * 6 // 10)

    def test_it_finds_a_wrong_law(self):
        """The same comparison fails where a law is wrong: least numbers merged as greatest ones."""
        script = f"{EXIT} {{ @least[comm] = min(args.ret); }}"
        plan, (whole, _) = plan_of(script), self.recordings[len(MADE)]
        wrong = plan_of(script.replace("min", "max"))
        outputs = []
        for laws in (plan, wrong):
            merged = Merged(laws)
            for place, part in enumerate(self.parts[whole]):
                merged.take(place, "h", answer_of(run(plan.script.encode("latin-1"), part, "--json"), laws))
            outputs.append(b"".join(printed(merged, False)))
        wanted = run(script.encode(), whole)
        self.assertEqual([output == wanted for output in outputs], [True, False])


if __name__ == "__main__":
    unittest.main()
