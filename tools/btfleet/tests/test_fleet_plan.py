"""Tests of which scripts can be merged: each refusal with its place, scripts next to it that are none, and all
examples."""
import subprocess
import sys
import unittest
import unittest.mock

from fleet_hosts import TOOLS, TOP

from btfleet.laws import Buckets, Numbers
from btfleet.plan import Fault, Printed, plan_of, told_fault
from btreplay.tokens import place_of

CHANGING, SCRATCH = "M1 average under a key that changes", "M2 numbers and strings cannot be merged"
EARLY, UNSURE, CHANGED, ZEROED = ("M3 print before the end", "M4 print under a condition", "M5 map changed behind its print",
                                  "M6 zero of a least or greatest number")
UNKNOWN, MANY = "M7 unknown aggregation", "M8 too many maps for averages"


def told(script):
    """What is told of a script's first fault, or nothing."""
    plan = plan_of(script)
    return told_fault(plan, script, "s.bt") if isinstance(plan, Fault) else ""


class Refused(unittest.TestCase):
    def check(self, fault, *scripts):
        """Each script is refused by this fault where its ^ stands, or by none."""
        for script in scripts:
            with self.subTest(script):
                before = script.split("^")[0]
                place = f"s.bt:{before.count(chr(10)) + 1}:{len(before.split(chr(10))[-1]) + 1}: "
                self.assertEqual(told(script.replace("^", "")), place + fault if fault else "")

    def test_averages(self):
        """An average is refused where its key cannot be asked twice, and where it would have too many maps."""
        self.check(CHANGING, "t:x:a { ^@a[@i++] = avg(args.n); } END { clear(@i); }", "t:x:a { $i = 1; ^@a[--$i] = avg(args.n); }",
                   "t:x:a { $i = 1; ^@a[$i] = avg($i++); }", "t:x:a { @a[1] = avg(1); ^@a[@a[1]] = avg(2); }")
        self.check("", "t:x:a { @a = avg(args.n); } END { print(@a, 3, 4); zero(@a); }", "t:x:a { $i = 1; @a[$i] = avg(args.n); $i++; }",
                   "t:x:a { @a[pid] = avg(@n++); } END { clear(@n); }", 't:x:a { @c["avg(1)"] = count(); /* @a = avg(1) */ }',
                   "t:x:a { @a[@i++] = avg(1); } END { clear(@a); clear(@i); }")
        many = "".join(f"@s{number} = sum(1); " for number in range(16))
        self.check(MANY, "t:x:a { %s^@a = avg(1); %s}" % (many, "".join(f"@a{number} = avg(1); " for number in range(15))))
        self.check("", "t:x:a { %s%s}" % (many, "".join(f"@a{number} = avg(1); " for number in range(8))))

    def test_unknown_aggregations(self):
        """None is told as an average, nor as numbers; also where the language gets one that has no law here."""
        self.check(UNKNOWN, "t:x:a { ^@a = stats(args.n); }", "t:x:a { ^@a[pid, comm] = tseries(1, 2); } END { print(@a); }")
        with unittest.mock.patch("btreplay.script.AGGREGATIONS", {"count", "median"}):
            self.check(UNKNOWN, "t:x:a { ^@a = median(args.n); }")

    def test_numbers_and_strings(self):
        self.check(SCRATCH, "t:x:a { ^@a = 1; }", "t:x:a { ^@a[pid] = comm; }", "t:x:a { ^@a++; }", "t:x:a { ^@a += 5; }",
                   "t:x:a { @c = count();\n  ^@a = 1; }",
                   "t:x:a { ^@a[pid] = 1; delete(@a[pid]); }", "t:x:a { ^@a = 1; } END { if (1) { clear(@a); } }",
                   "t:x:a { ^@a = 1; } END /1/ { clear(@a); }", "t:x:a { ^@a = 1; } END { while (0) { } clear(@a); }",
                   "t:x:a { ^@a = 1; } END { exit(); clear(@a); }", "t:x:a { ^@a = 1; } END { if (1) { return; } clear(@a); }",
                   "t:x:a { ^@a = 1; } END { clear(@a); @a = 2; }", "t:x:a { ^@a = 1; } END { clear(@a); } END { @a++; }",
                   "t:x:a { ^@a = 1; } END { zero(@a); }", "t:x:a { ^@a = 1; } i:s:1 { clear(@a); }",
                   "t:x:a { ^@a = 1; } END { print(@a); clear(@a); }", "t:x:a { @c[@a] = count(); } END { print(^@a); }")
        self.check("", "t:x:a { @a = 1; } END { clear(@a); }", "t:x:a { @a[1, 2] = comm; } t:x:b { @a[1, 2] = \"\"; } BEGIN, END { clear(@a); }",
                   'END { @t = sum(@a); printf("%d", @a); clear(@a); } t:x:a { @a++; }', "t:x:a { @c[@never] = count(); }",
                   "t:x:a { @a = 1; } END { @a = 2; } END { clear(@a); }")

    def test_prints(self):
        self.check(EARLY, "t:x:a { @a = count(); print(^@a); }", "t:x:a { @a = count(); print(^@a, 5); }",
                   "t:x:a { @a = count(); } i:s:1 { print(^@a); clear(@a); }", "t:x:a { @a = count(); } BEGIN { print(^@a); }",
                   "t:x:a { @a = count(); } END, BEGIN { print(^@a); }")
        self.check(UNSURE, "t:x:a { @a = count(); } END { if (1) { print(^@a); } }", "t:x:a { @a = count(); } END /1/ { print(^@a); }",
                   "t:x:a { @a = count(); } END { if (1) { return; } print(^@a); }", "t:x:a { @a = count(); } END { exit(); print(^@a); }",
                   "t:x:a { @a = count(); } END { unroll (2) { @b = count(); } print(^@a); }")
        self.check("", 't:x:a { @a = count(); } END { if (1) { printf("x"); } print(@a); }', "t:x:a { @a = count(); } END { print(@a, 5, 1000); }")

    def test_changed(self):
        self.check(CHANGED, "t:x:a { @a = count(); } END { print(@a); ^@a = count(); }",
                   "t:x:a { @a = count(); } END { print(@a); clear(^@a); print(@a); }",
                   "t:x:a { @a = count(); } END { print(@a); clear(^@a); } END { print(@a); }")
        self.check("", "t:x:a { @a = count(); } END { @a = count(); print(@a); print(@a, 5); zero(@a); clear(@a); }")

    def test_zero(self):
        for word in ("min", "max"):
            self.check(ZEROED, f"t:x:a {{ @a = {word}(1); }} i:s:1 {{ zero(^@a); }}", f"t:x:a {{ @a = {word}(1); }} END {{ zero(^@a); }}")
        self.check("", "t:x:a { @a = count(); } i:s:1 { zero(@a); clear(@a); }", "t:x:a { @a = min(1); } i:s:1 { clear(@a); }")

    def test_the_first(self):
        self.check(SCRATCH, "t:x:a { ^@a = 1; @b = avg(1); print(@c); }")
        self.check(UNKNOWN, "t:x:a { ^@b = stats(1); @a = 1; }")

    def test_remedies(self):
        for script, part in (("t:x:a { @a[@i++] = avg(1); }", "@a[$key] = avg(..)"), ("t:x:a { @a = 1; }", "count() and sum()"),
                             ("t:x:a { @a = 1; }", "END { clear(@a); }"), ("t:x:a { print(@a); @a = count(); }", "print @a in END")):
            self.assertIn(part, plan_of(script).remedy)

    def test_what_is_no_script(self):
        for script in ["", "@", "{", "}", "END { print(@a", "END { print(@a, ); }", "END { clear(@", "t:x:a { @a = lhist(1, 2, 3",
                       "t:x:a { @a = lhist(", "t:x:a { @x[ = count", "END { print(@a, 1, 2, 3); } t:x:a { @a = count(",
                       "t:x:a { @a = hist }", "@a = count()", "t:x:a { @a[1 = count(); }", 'END { "', "/*"]:
            with self.subTest(script):
                plan_of(script)


class Plans(unittest.TestCase):
    def test_examples(self):
        for path in sorted((TOP / "examples").glob("*.bt")):
            with self.subTest(path.stem):
                self.assertEqual(told(path.read_bytes().decode("latin-1")), "")

    def test_laws_stand_in_the_order_of_first_mentions(self):
        plan = plan_of("BEGIN { clear(@b); } t:x:a /@c/ { @a[@d] = hist(1); @b = lhist(args.n, -10, 0x20, 1_0); @e = max(1); }")
        self.assertEqual(list(plan.laws), ["@b", "@c", "@a", "@d", "@e"])
        self.assertEqual(plan.laws["@b"].labels, ["(..., -10)", "[-10, 0)", "[0, 10)", "[10, 20)", "[20, 30)", "[30, 32)", "[32, ...)"])
        self.assertEqual([type(law) for law in plan.laws.values()], [Buckets, type(None), Buckets, type(None), Numbers])

    def test_prints_are_asked_without_their_numbers(self):
        script = "t:x:a { @a = count(); @b[1] = hist(1); }\nEND { print(@a , 0x10 /* ten */\n, 1_000); print(@b,5); clear(@b); print(@a); }"
        plan = plan_of(script)
        self.assertEqual(plan.prints, [Printed("@a", 16, 1000), Printed("@b", 5, 1), Printed("@a", 0, 1)])
        self.assertEqual(plan.script, "t:x:a { @a = count(); @b[1] = hist(1); }\n"
                                      "END { print(@a                 \n       ); print(@b  ); clear(@b); print(@a); }")

    def test_averages_are_asked_as_a_sum_and_a_count(self):
        """Each mention in the ways that the language has; what is put in stands in the line of what it belongs to."""
        for script, wanted in (
                ("t:x:a { @a = avg(args.n); }", "t:x:a { @a = sum (args.n); @a_count = count(); }"),
                ("t:x:a { @ = avg(1) }", "t:x:a { @ = sum (1) ; @_count = count()}"),
                ("t:x:a { @a[pid,\n comm] = avg(1); }", "t:x:a { @a[pid,\n comm] = sum (1); @a_count[ pid , comm ]  = count(); }"),
                ("t:x:a { @a = avg(1); @a_count = count(); }", "t:x:a { @a = sum (1); @a_count_ = count(); @a_count = count(); }"),
                ("t:x:a { @a = avg(1); } END { print(@a, 5, 2); zero(@a) }",
                 "t:x:a { @a = sum (1); @a_count = count(); } END { print(@a      ); print(@a_count); zero(@a) ; zero(@a_count)}"),
                ("t:x:a { @a[1] = avg(1); } i:s:1 /@a[1] > 5/ { @n[@a[1]] = count(); }",
                 "t:x:a { @a[1] = sum (1); @a_count[ 1 ]  = count(); } i:s:1 /(@a[1] / @a_count[ 1 ] )> 5/ { @n[(@a[1]/ @a_count[ 1 ] )] = count(); }")):
            with self.subTest(script):
                plan = plan_of(script)
                self.assertEqual(plan.script, wanted)
                self.assertEqual(plan.script.count("\n"), script.count("\n"))
        self.assertEqual(list(plan_of("t:x:a { @a[@b] = avg(@c); } END { clear(@b); clear(@c); }").laws), ["@a", "@b", "@c", "@a_count"])
        for refused in ("t:x:a { @a = sum(1); @a = avg(1); }", "t:x:a { @a = avg(1); @a = sum(1); }", "t:x:a { @a = avg(1) + 1; }"):
            self.assertEqual(plan_of(refused).script, refused)

    def test_places_of_what_was_asked_are_those_of_the_script(self):
        """What a run refuses in the text that was asked, at a place that is found by its word, is told where that stands in the script."""
        script = "t:x:a { @a[pid] = avg(1); if (@a[pid] > nope) { }\n @a[pid] = avg(nope); } END { print(@a, 1); nope }"
        plan = plan_of(script)
        for number in range(3):
            asked, wanted = ([at for at in range(len(text)) if text.startswith("nope", at)][number] for text in (plan.script, script))
            told = "-:%d:%d: Y1 unknown field" % place_of(plan.script, asked)
            self.assertEqual(plan.in_script(told.encode()), b"-:%d:%d: Y1 unknown field" % place_of(script, wanted))
        self.assertEqual(plan.in_script(b"-: script too long"), b"-: script too long")
        at = plan.script.index("@a_count[")
        self.assertEqual(plan.in_script(b"-:1:%d: Y11 too many maps" % (at + 1)), b"-:1:9: Y11 too many maps")

    def test_numbers_that_the_program_refuses_stay(self):
        for numbers in (", -1", ", 5, 0", ", 5, -2", ", 1, 2, 3", ", @x", ", comm", ", 99999999999999999999"):
            script = "t:x:a { @a = count(); @x = sum(1); } END { print(@a%s); }" % numbers
            with self.subTest(numbers):
                plan = plan_of(script)
                self.assertEqual(plan.script, script)
        script = "t:x:a { @a = lhist(1, 5, 5, 1); @b = lhist(1, 0, 5); @c = lhist(1, 0, 1001, 1); }"
        self.assertEqual(plan_of(script).script, script)


class Command(unittest.TestCase):
    """What is told before the engine is even looked for."""

    def run_command(self, *words, given=b""):
        done = subprocess.run([sys.executable, "-B", str(TOOLS / "btfleet"), *words], input=given, stdout=subprocess.PIPE,
                              stderr=subprocess.PIPE, timeout=100)
        return done.returncode, done.stdout, done.stderr.decode()

    def test_a_refused_script(self):
        status, printed, came = self.run_command("run", "-", "nothere.btr", given=b"t:x:a {\n  @a[++@n] = avg(1); }")
        self.assertEqual((status, printed), (2, b""))
        self.assertEqual(came.splitlines()[0], f"standard input:2:3: {CHANGING}")
        self.assertRegex(came.splitlines()[1], r"^btfleet: its sum and its count are asked one behind the other")

    def test_words(self):
        for words in ([], ["walk"], ["run"], ["run", "s.bt"], ["run", "s.bt", "r.btr", "--yaml"]):
            with self.subTest(words):
                status, printed, came = self.run_command(*words)
                self.assertEqual((status, printed, came.split(":")[0]), (1, b"", "btfleet"))
        self.assertEqual(self.run_command("run", "/no/s.bt", "r.btr"), (4, b"", "btfleet: /no/s.bt: there is no folder /no\n"))
        self.assertEqual(self.run_command("run", "-", "r.btr", given=b" " * 65_537), (2, b"", "btfleet: -: script too long\n"))
        for words, why in ((["r.btr", "./r.btr"], "./r.btr is named twice"), (["web1:"], "web1:: names no recording"),
                           (["*:r.btr"], "*:r.btr: * stands for the hosts of a scheduler, and there is no --scheduler"),
                           (["web1:r.btr", "--scheduler", "127.0.0.1:1"], "web1:r.btr: the path on another host is a whole one, from / on")):
            with self.subTest(words):
                self.assertEqual(self.run_command("run", "-", *words, given=b"BEGIN { }"), (1, b"", f"btfleet: {why}\n"))


if __name__ == "__main__":
    unittest.main()
