"""Property tests of the merge: what parts answer gives together what the whole gives, to the byte, for every aggregation, key and print.

A case is a map: its aggregation, its key, what is added to it, and how END prints it. There are a thousand over recordings that are cut by CPUs,
where the program says what the whole gives, and a thousand without the program, where the rows of the whole are worked out here by the words of
docs/LANGUAGE.md.
"""
import json
import pathlib
import random
import subprocess
import sys
import tempfile
import unittest

from fleet_hosts import TOOLS

from btfleet.answers import answer_of
from btfleet.merged import Merged
from btfleet.plan import Fault, plan_of
from btfleet.printing import printed
from built_program import NO_PROGRAM, real_program
from reckoning.layout import by_value, number_rows, range_rows, range_text

sys.path.insert(0, str(TOOLS / "btrecord"))
from container import CPU  # noqa: E402
from reading import entries_of, read_recording  # noqa: E402

PROGRAM = real_program()
CPUS, ROUNDS, MAPS, MODELS = 4, 100, 10, 1000
AGGREGATIONS = ("count()", "sum({})", "min({})", "max({})", "avg({})", "hist({})", "lhist({}, -50, 333, 25)", "lhist({}, 0, 10, 10)")
NUMBERS = ("args.id", "args.id - 200", "(args.id - 200) * 1_000_003", "args.id * 0x0fff_ffff_ffff_ffff", "0 - nsecs", "pid * (args.id % 2)")
KEYS = ("", "[comm]", "[pid % 3]", "[comm, args.id % 5]", "[cpu, comm, pid % 2, args.id % 2]", "[args.id - 200]")
PRINTS = ("", "", "print({0});", "print({0}, 3);", "print({0}, 2, 7);", "print({0}, 0, 1000); clear({0});", "print({0}); print({0}, 1);", "zero({0});",
          "clear({0});")
LEAST, MOST = -2**63, 2**63 - 1


def together(script, answers, as_json=False):
    """What is printed of what parts answer to a script, in bytes."""
    plan = plan_of(script)
    assert not isinstance(plan, Fault), (script, plan)
    merged = Merged(plan)
    for place, answer in enumerate(answers):
        merged.take(place, f"h{place}", answer_of(answer(plan.script), plan))
    return b"".join(printed(merged, as_json))


def groups_of(chance, things):
    """Things in one to four groups, each in one."""
    groups = [[] for _ in range(chance.randint(1, 4))]
    for thing in things:
        chance.choice(groups).append(thing)
    return groups


def statement(chance, name):
    """An aggregation that is assigned to a map."""
    return f"{name}{chance.choice(KEYS)} = {chance.choice(AGGREGATIONS).format(chance.choice(NUMBERS))};"


def made_script(chance):
    """A script of ten maps, which can be merged."""
    adding = [statement(chance, f"@m{number}") for number in range(MAPS)]
    ends = ["" if "zero" in end and ("min(" in add or "max(" in add) else end.format(f"@m{number}")
            for number, (add, end) in enumerate(zip(adding, (chance.choice(PRINTS) for _ in adding)))]
    half = chance.randint(1, MAPS)
    return (f"t:raw_syscalls:sys_enter {{ {' '.join(adding[:half])} }}\nt:raw_syscalls:sys_enter /args.id % 3 != 0/ {{ {' '.join(adding[half:])} }}\n"
            f"END {{ {' '.join(ends)} }}\n")


def cut(data, numbers):
    """The part of a recording that has the events of these CPUs."""
    found = read_recording(data)
    entries = [list(entries_of(data, found, place)) for place in range(len(found.cpus))]
    part = data[:entries[0][0].at - CPU.size]
    for (number, count), of_cpu in zip(found.cpus, entries):
        part += CPU.pack(number, count) + data[of_cpu[0].at:of_cpu[-1].end] if number in numbers else CPU.pack(number, 0)
    return part


@unittest.skipUnless(PROGRAM, NO_PROGRAM)
class WithProgram(unittest.TestCase):
    def run_program(self, *words):
        """What the program prints."""
        return subprocess.run([PROGRAM, *words], stdin=subprocess.DEVNULL, stdout=subprocess.PIPE, check=True, timeout=100).stdout

    def test_a_thousand_maps_over_recordings_cut_by_cpus(self):
        with tempfile.TemporaryDirectory() as name:
            script, part = pathlib.Path(name) / "s.bt", pathlib.Path(name) / "part.btr"

            def answer(data):
                """What a part answers to a text."""
                def to(text):
                    part.write_bytes(data)
                    script.write_bytes(text.encode("latin-1"))
                    return self.run_program("run", "--serial", "--json", str(script), str(part))
                return to

            for number in range(ROUNDS):
                chance = random.Random(number)
                text, as_json = made_script(chance), number % 2 == 1
                whole = self.run_program("gen", str(number), str(chance.choice((4, 40, 400))))
                parts = [cut(whole, group) for group in groups_of(chance, range(CPUS))]
                found = together(text, [answer(data) for data in parts], as_json)
                part.write_bytes(whole)
                script.write_text(text)
                wanted = self.run_program("run", "--serial", *(["--json"] if as_json else []), str(script), str(part))
                self.assertEqual(found, wanted, (number, text, len(parts)))


def signed(number):
    """A number of 64 bits, with its sign."""
    return int.from_bytes((number & (2**64 - 1)).to_bytes(8, "little"), "little", signed=True)


def towards_zero(number, by):
    """A number divided, towards 0."""
    return abs(number) // by * (-1 if number < 0 else 1)


def power_label(number):
    """The range of `hist` in which a number is."""
    return "(..., 0)" if number < 0 else range_text(number.bit_length())


def step_label(number, least, most, step):
    """The range of `lhist` in which a number is."""
    if number < least:
        return f"(..., {least})"
    if number >= most:
        return f"[{most}, ...)"
    low = number - (number - least) % step
    return f"[{low}, {min(low + step, most)})"


BOUNDS = (-50, 333, 25)
STEP_LABELS = ["(..., -50)", *(f"[{low}, {min(low + 25, 333)})" for low in range(-50, 333, 25)), "[333, ...)"]
POWER_LABELS = ["(..., 0)", *(range_text(place) for place in range(64))]
NUMBER_OF = {"count": len, "sum": lambda found: signed(sum(found)), "min": min, "max": max,
             "avg": lambda found: towards_zero(signed(sum(found)), len(found))}
LABEL_OF = {"hist": (power_label, POWER_LABELS), "lhist": (lambda number: step_label(number, *BOUNDS), STEP_LABELS)}


def ranges(word, numbers):
    """The ranges of a histogram of numbers from the first to the last that has some, with their counts."""
    label_of, labels = LABEL_OF[word]
    counts = [0] * len(labels)
    for number in numbers:
        counts[labels.index(label_of(number))] += 1
    shown = [place for place, count in enumerate(counts) if count]
    return [(labels[place], counts[place]) for place in range(shown[0], shown[-1] + 1)]


def by_key(events):
    """The numbers of events by their keys."""
    found = {}
    for key, number in events:
        found.setdefault(key, []).append(number)
    return found


def lines_of(word, events):
    """What a run over events answers, as JSON lines: of an average its sum and its count."""
    rows = by_key(events)
    lines = []
    for name, part in {"avg": (("@m", "sum"), ("@m_count", "count"))}.get(word, (("@m", word),)):
        data = [{"key": list(key), "value": [{"label": label, "count": count} for label, count in ranges(part, numbers)] if part in LABEL_OF
                 else NUMBER_OF[part](numbers)} for key, numbers in rows.items()]
        lines += [json.dumps({"data": data, "map": name, "type": "map"})] if data else []
    return lines


def shown_text(word, events, top, div):
    """What a print of the rows of all events shows."""
    rows = by_key(events)
    order = [key for key, _ in by_value((key, len(numbers) if word in LABEL_OF else NUMBER_OF[word](numbers)) for key, numbers in rows.items())]
    order = order[-top:] if top else order
    if word not in LABEL_OF:
        return number_rows("@m", [(key, towards_zero(NUMBER_OF[word](rows[key]), div)) for key in order])
    divided = {key: [(label, count // div) for label, count in ranges(word, rows[key])] for key in order}
    return range_rows("@m", [(key, trimmed(divided[key])) for key in order])


def trimmed(found):
    """Ranges from the first to the last whose count is not 0."""
    places = [place for place, (_, count) in enumerate(found) if count]
    return found[places[0]:places[-1] + 1] if places else []


class Model(unittest.TestCase):
    def events(self, chance):
        """Events as pairs of a key and a number."""
        spread = chance.choice((3, 400, 2**40, 2**63))
        keys = chance.choice(([()], [("a",), ("b",), ("\xff",)], [(n,) for n in range(-3, 9)], [(n, c) for n in (0, 10, 9) for c in ("x", "", "x y")]))
        return [(chance.choice(keys), signed(chance.randrange(-spread, spread))) for _ in range(chance.randint(0, 40))]

    def test_a_thousand_maps(self):
        for number in range(MODELS):
            chance = random.Random(number)
            word = chance.choice((*NUMBER_OF, *LABEL_OF))
            top, div = chance.choice((0, 0, 1, 2, 5)), chance.choice((1, 1, 2, 7, 1000))
            call = {"count": "count()", "lhist": "lhist(1, -50, 333, 25)"}.get(word, f"{word}(1)")
            script = f"t:x:a {{ @m = {call}; }} END {{ print(@m, {top}, {div}); }}"
            events = self.events(chance)
            with_end = [lines_of(word, part) * 2 for part in groups_of(chance, events)]
            answers = [lambda _, lines=lines: "".join(f"{line}\n" for line in lines).encode() for lines in with_end]
            wanted = shown_text(word, events, top, div) + shown_text(word, events, 0, 1)
            self.assertEqual(together(script, answers), wanted.encode("latin-1"), (number, script))


if __name__ == "__main__":
    unittest.main()
