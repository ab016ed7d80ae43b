"""Tests of the rule on the order of CPUs: over all examples, whose need of --serial is written here by hand, and over scripts made for it."""
import unittest

from stand_in import TOP

from btreplay.order import reasons_of
from btreplay.script import probes_of

PAIRED = "set in one probe and read in another"
# What each example depends on, or nothing: looked up by hand in the scripts.
NEEDS = {"block_in_flight": f"@in_flight and @is_out are {PAIRED}", "block_latency": f"@issued is {PAIRED}",
         "block_queue_wait": f"@inserted is {PAIRED}", "events_over_time": f"@calls, @requests and @events are {PAIRED}",
         "exec_tree": "lines are printed by events of all CPUs", "read_latency": f"@began is {PAIRED}",
         "run_queue_wait": f"@ready is {PAIRED}", "slow_calls": f"@began is {PAIRED}"}
NEEDS_NOT = ["block_bytes", "block_sizes", "bytes_by_process", "dirty_buffers", "error_returns", "events_by_cpu", "interrupt_time", "interrupts",
             "migrations", "opens", "read_sizes", "signals", "softirq_time", "time_on_cpu", "timer_lateness", "which_calls", "who_calls",
             "who_wakes_whom", "why_off_cpu"]


def reasons(script):
    """Why a script depends on the order, in one line."""
    return "; ".join(reasons_of(probes_of(script)))


class Examples(unittest.TestCase):
    def test_all_are_named(self):
        """The two lists are all examples that were there when they were written; a new one is looked at by the next test."""
        there = {path.stem for path in (TOP / "examples").glob("*.bt")}
        self.assertEqual(set(NEEDS) & set(NEEDS_NOT), set())
        self.assertEqual(len(NEEDS) + len(NEEDS_NOT), 27)
        self.assertLessEqual(set(NEEDS) | set(NEEDS_NOT), there)

    def test_each(self):
        for name in NEEDS_NOT:
            with self.subTest(name):
                self.assertEqual(reasons((TOP / "examples" / f"{name}.bt").read_text()), "")
        for name, why in NEEDS.items():
            with self.subTest(name):
                self.assertEqual(reasons((TOP / "examples" / f"{name}.bt").read_text()), why)

    def test_their_own_commands(self):
        """Each example is run with --serial exactly where the rule asks for it, new ones too."""
        for path in sorted((TOP / "examples").glob("*.bt")):
            text = path.read_text()
            command = next(line for line in text.splitlines() if line.startswith("// Run: "))
            with self.subTest(path.stem):
                self.assertEqual("--serial" in command.split(), reasons(text) != "")


class Scripts(unittest.TestCase):
    def check(self, why, *scripts):
        for script in scripts:
            with self.subTest(script):
                self.assertEqual(reasons(script), why)

    def test_pairs(self):
        self.check(f"@a is {PAIRED}", "t:x:a { @a[tid] = nsecs; } t:x:b /@a[tid]/ { @h = hist(1); }",
                   "t:x:a { @a = 1; } t:x:b { @h = hist(nsecs - @a); }", "t:x:a { @a++; } interval:s:1 { @m = max(@a); }",
                   "t:x:a { @a[tid] = nsecs; } t:x:b { if (@a[tid] != 0) { @h = hist(1); } }",
                   "i:s:1 { @a = nsecs; } t:x:b { $x = @a; @m = max($x); }", "t:x:a { @a[cpu] = 1; } t:x:b { @m = max(@a[0]); }",
                   "t:x:a { @a[tid] = nsecs; } t:x:b { @h[@a[tid]] = count(); }", "t:x:a { @a = 5; } t:x:b { unroll (2) { @h = max(@a); } }")

    def test_what_no_other_cpu_sees(self):
        self.check("", "t:x:a { @a[cpu] = nsecs; } t:x:b /@a[cpu]/ { @h = hist(nsecs - @a[cpu]); delete(@a[cpu]); }",
                   "t:x:a { @a[args.irq, cpu] = nsecs; } t:x:b { @h = hist(@a[args.irq, cpu]); } END { clear(@a); }",
                   "t:x:a { @a[cpu] = nsecs; delete(@a, cpu); }", "t:x:a { @a[cpu]++; } END { printf(\"%d\\n\", @a[0]); }")

    def test_before_and_behind_all_events(self):
        self.check("", "BEGIN { @a = nsecs; } t:x:b { @h = hist(nsecs - @a); }", "BEGIN, END { @a = 1; @a++; printf(\"%d\", @a); print(@a); }",
                   "t:x:b { @c = count(); } END { print(@c); print(@c, 5); clear(@c); zero(@c); }", "i:s:1 { @n++; printf(\"%d\\n\", @n); }",
                   "t:x:b { @seen[pid] = 1; @seen[pid] = 1; } END { print(@seen); }", "t:x:b { @c = count(); @s = sum(1); @m = lhist(1, 0, 9, 1); }")

    def test_comments_and_strings(self):
        self.check("", "t:x:a { @c = count(); /* @a = 1; */ } t:x:b { @c = count(); // @a\n }",
                   't:x:a { @c[comm == "@a = 1"] = count(); } t:x:b { @c["@a"] = count(); }',
                   "#!@a = 1\nt:x:b { @c = count(); }", 't:x:a { @c["\\"@a = 1; }"] = count(); } t:x:b { @c["x"] = count(); }')

    def test_changes(self):
        lost = "changed by all CPUs at once, so that changes can be lost"
        self.check(f"@x is {lost}", "t:x:a { @x++; }", "t:x:a { ++@x; }", "t:x:a { @x[pid]--; }", "t:x:a { @x += 5; }", "t:x:a { @x[cpu * 2] <<= 5; }")
        self.check("@x is set by all CPUs, and keeps what was set last", "t:x:a { @x = nsecs; }", "t:x:a { @x[pid] = comm; } END { print(@x); }",
                   "t:x:a { @x[pid] = 1; } t:x:b { delete(@x[pid]); }", "t:x:a { @x[pid] = 1; } t:x:b { clear(@x); }",
                   "t:x:a { @x = 1; } t:x:b { @x = 2; }")
        self.check("@x is set and read by all CPUs", "t:x:a { if (@x[pid] != 0) { @c = count(); } @x[pid] = 1; }")

    def test_reads_of_aggregations(self):
        self.check("@c is read before all CPUs have added", "t:x:a { @c = count(); if (@c > 5) { @h = hist(1); } }",
                   "t:x:a { @c[pid] = sum(1); } t:x:b /@c[pid] > 5/ { @h = hist(1); }", "t:x:a { @c = avg(1); } i:s:1 { @h = hist(@c); }",
                   "t:x:a { @c[cpu] = count(); } t:x:b { @h = hist(@c[0]); }", "t:x:a { @c[cpu] = count(); } i:s:1 { @h = hist(@c[cpu]); }")
        self.check("@c and @d are read before all CPUs have added", "t:x:a { @c = min(1); @d = max(2); @h = hist(@d - @c); }")
        self.check("", "t:x:a { @c[cpu] = count(); @h = hist(@c[cpu]); }", "BEGIN { @c = count(); } t:x:a { @h = hist(@c); }",
                   't:x:a { @c = count(); } END { printf("%d\\n", @c); }', "t:x:a { @d = count(); } i:s:1 { @c = count(); @h = hist(@c); }")

    def test_what_is_printed_before_the_end(self):
        self.check("@c is printed before the end", "t:x:a { @c = count(); } interval:s:1 { print(@c); }",
                   "t:x:a { @c = count(); } interval:s:1 { print(@c); clear(@c); }")
        self.check("@c is emptied before the end", "t:x:a { @c = count(); } interval:s:1 { zero(@c); }", "t:x:a { @c = sum(1); clear(@c); }")
        self.check("lines are printed by events of all CPUs", 't:x:a { printf("%d\\n", pid); }')
        self.check("exit() is called before the end", "t:x:a { @c = count(); } i:s:5 { exit(); }", "t:x:a { @c = count(); exit(); }")
        self.check("", 'BEGIN { printf("a"); } t:x:a { @c = count(); } END { printf("b"); exit(); } i:s:1 { printf("c"); }')

    def test_what_is_no_script(self):
        for script in ["", "@", "{", "}", "t:x:a", "t:x:a { @x[", "t:x:a { delete(@x", "t:x:a { @x[cpu }", '"', "/*", "t:x:a { @x =", "$", "print(@x"]:
            with self.subTest(script):
                reasons(script)


if __name__ == "__main__":
    unittest.main()
