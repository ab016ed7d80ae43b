"""Tests of the command with the built program: parts of a recording give together what the whole gives, to the byte.

What the whole gives is what the program prints of it, and for the examples the outputs that are kept, which are worked
out apart from the program.
"""
import subprocess
import sys
import unittest

from fleet_hosts import TOOLS, TOP, WithFolder

from built_program import NO_PROGRAM, real_program

PROGRAM = real_program()
SMALL, LOSSY = str(TOP / "examples" / "small.btr"), str(TOP / "examples" / "lossy.btr")
CPUS = 4
# Examples that only add and print at the end, or keep the CPU in the keys of what else they use: a cut by CPUs changes
# nothing of them.
ADDING = ["block_bytes", "block_sizes", "error_returns", "events_by_cpu", "migrations", "read_sizes", "softirq_time", "time_on_cpu",
          "timer_lateness", "which_calls", "write_back", "run_lengths", "interrupt_time"]
# All aggregations, over fields with numbers of both signs, with keys of all kinds, printed in part and divided.
EACH = """BEGIN { @zero = count(); clear(@zero); }
tracepoint:raw_syscalls:sys_exit {
    @count[comm, args.id] = count(); @sum[comm] = sum(args.ret); @least[args.id] = min(args.ret); @greatest[args.id] = max(args.ret);
    @powers[comm] = hist(args.ret); @steps[args.id % 3] = lhist(args.ret, -10, 95, 10); @wrapping = sum(args.ret * 0x0fff_ffff_ffff_ffff);
    @mean[comm] = avg(args.ret); @means[args.id % 5] = avg(args.ret * 0x0fff_ffff_ffff_ffff);
}
tracepoint:block:* { @blocks[cpu, comm, pid, uid] = count(); }
END { print(@count, 3); print(@count, 0, 7); print(@powers, 2, 2); print(@mean, 2, 3); clear(@powers); print(@steps); print(@zero); }
"""


@unittest.skipUnless(PROGRAM, NO_PROGRAM)
class WithProgram(WithFolder):
    program = PROGRAM

    def parts(self, recording):
        """The parts of a recording by its CPUs."""
        paths = [str(self.installed.folder / f"{cpu}.btr") for cpu in range(CPUS)]
        for cpu, path in enumerate(paths):
            subprocess.run([sys.executable, "-B", str(TOOLS / "btrecord"), "cut", recording, "--cpu", str(cpu), "-o", path], check=True,
                           stderr=subprocess.DEVNULL, timeout=100)
        return paths

    def whole(self, script, recording, *words):
        """What the program prints of a whole recording."""
        done = subprocess.run([PROGRAM, "run", "--serial", *words, script, recording], stdin=subprocess.DEVNULL, stdout=subprocess.PIPE, check=True,
                              timeout=100)
        return done.stdout

    def example(self, name):
        """The path of an example, and its output."""
        return str(TOP / "examples" / f"{name}.bt"), (TOP / "examples" / f"{name}.out").read_bytes()


class Cut(WithProgram):
    def test_four_parts_on_three_workers(self):
        """The totals of the whole, to the byte, as text and as JSON lines."""
        at = ["--scheduler", self.cluster().address]
        parts = self.parts(SMALL)
        told = "btfleet: the result has 4 of 4 recordings\n"
        for name in ("which_calls", "timer_lateness"):
            script, output = self.example(name)
            with self.subTest(name):
                self.assertEqual(self.installed.run("run", script, *parts, *at), (0, output, told))
        script = self.installed.write("each.bt", EACH)
        self.assertEqual(self.installed.run("run", script, *parts, *at), (0, self.whole(script, SMALL), told))

    def test_examples(self):
        parts = self.parts(SMALL)
        for name in ADDING:
            script, output = self.example(name)
            with self.subTest(name):
                self.assertEqual(self.installed.run("run", script, *parts)[:2], (0, output))

    def test_lines(self):
        parts = self.parts(SMALL)
        script = self.installed.write("each.bt", EACH.replace("print(@count, 3); print(@count, 0, 7); print(@powers, 2, 2); print(@mean, 2, 3);", ""))
        self.assertEqual(self.installed.run("run", script, *parts, "--json")[:2], (0, self.whole(script, SMALL, "--json")))
        whole = self.installed.write("parts.bt", EACH)
        self.assertEqual(self.installed.run("run", whole, SMALL, "--json")[:2], (0, self.whole(whole, SMALL, "--json")))

    def test_one_recording_is_printed_as_the_program_prints_it(self):
        """Scripts that pair events, print lines and warn of lost events: each with what the example prints."""
        for name in ("block_latency", "call_time", "slow_calls", "block_requests", "exec_tree", "long_waits", "lost_events"):
            script, output = self.example(name)
            with self.subTest(name):
                self.assertEqual(self.installed.run("run", script, LOSSY if name == "lost_events" else SMALL)[:2], (0, output))

    def test_hosts_apart(self):
        """Two hosts, one with another recording: the rows of each are its own, with its name in front."""
        script, output = self.example("who_calls")
        parts = self.parts(SMALL)
        status, printed, _ = self.installed.run("run", script, f"web1:{SMALL}", f"web2:{parts[2]}", f"web2:{parts[0]}", "--by-host")
        self.assertEqual(status, 0)
        lines = printed.decode().splitlines()
        first, second = ([line.replace(f"[{name}, ", "[") for line in lines if f"[{name}, " in line] for name in ("web1", "web2"))
        self.assertEqual(first, output.decode().splitlines()[:-1])
        self.assertEqual(second, self.installed.run("run", script, parts[2], parts[0])[1].decode().splitlines()[:-1])
        self.assertEqual(len(first) + len(second) + 1, len(lines))

    def test_what_stands_in_the_place_of_a_recording(self):
        script, output = self.example("who_calls")
        data, other = self.installed.write("p.data", b"PERFILE2" + bytes(100)), self.installed.write("o.bt", "BEGIN { }")
        none = str(self.installed.folder / "none.btr")
        told = "".join(f"btfleet: {line}\n" for line in (
            f"{data}: C2 bad magic; {data} is a file of perf: btrecord convert {data} -o my.btr makes a recording of it",
            f"{other}: C1 truncated at byte 9; {other} is a script, and a recording belongs here: btrecord record --for {other} -o my.btr records what it names",
            f"{none}: there is no such file", "the result has 1 of 4 recordings"))
        self.assertEqual(self.installed.run("run", script, SMALL, data, other, none), (7, output, told))
        self.assertEqual(self.installed.run("run", SMALL, SMALL), (2, b"", f"btfleet: {SMALL} is a recording, and a script belongs here\n"))

    def test_an_output_that_is_an_input(self):
        script, _ = self.example("who_calls")
        own = self.installed.write("own.bt", open(script, "rb").read())
        part = self.installed.write("part.btr", open(SMALL, "rb").read())
        for name in (own, part):
            before = open(name, "rb").read()
            with open(name, "ab") as file:
                done = subprocess.run(self.installed.words(["run", own, part]), stdin=subprocess.DEVNULL, stdout=file, stderr=subprocess.PIPE, timeout=100)
            told = f"btfleet: standard output is {name}, which is read, and would be written over: name another file\n"
            self.assertEqual((done.returncode, done.stderr.decode()), (1, told))
            self.assertEqual(open(name, "rb").read(), before)

    def test_a_damaged_recording_and_a_refused_script(self):
        script, output = self.example("who_calls")
        with open(SMALL, "rb") as file:
            cut = self.installed.write("cut.btr", file.read()[:5000])
        self.assertEqual(self.installed.run("run", script, SMALL, cut),
                         (7, output, f"btfleet: {cut}: C1 truncated at byte 5000\nbtfleet: the result has 1 of 2 recordings\n"))
        line = " t:raw_syscalls:sys_enter { @ = sum(args.nope); }"
        self.installed.write("s.bt", f"BEGIN {{ }}\n{line}")
        self.assertEqual(self.installed.run("run", "s.bt", SMALL, LOSSY), (2, b"", f"s.bt:2:{line.index('nope') + 1}: Y1 unknown field\n"))
        self.installed.write("s.bt", "t:raw_syscalls:sys_enter { @ = count(); } END { print(@, -1); }")
        self.assertEqual(self.installed.run("run", "s.bt", SMALL)[0], 2)


if __name__ == "__main__":
    unittest.main()
