#!/usr/bin/env python3
"""Makes the cases of examples/ that the program bt_cases runs: one for each script, with its output.

  python3 tools/example_cases.py           writes crates/bt_cases/data/examples.jsonl, the recordings beside it, and how many cases agree
  python3 tools/example_cases.py --check   changes nothing, and ends with status 1 where they are not those of examples/

The first comment of a script has, behind "// Run: ", the command whose output stands beside the script.
"""
import json
import pathlib
import sys

TOP = pathlib.Path(__file__).resolve().parent.parent
EXAMPLES = TOP / "examples"
DATA = TOP / "crates" / "bt_cases" / "data"
RECORDINGS = ["small.btr", "lossy.btr"]
# What a case says of reads and writes that fail.
FAULTS = {"out_room", "out_most", "reads_fail", "out_fails", "err_fails"}


def command_of(name, script):
    """The words of the command in a script's first comment, with the names that files have in a case, and the name of the recording."""
    mark = "// Run: ./btreplay "
    commands = [line[len(mark):].split() for line in script.split("\n\n")[0].splitlines() if line.startswith(mark)]
    files = [[f"examples/{name}.bt", f"examples/{recording}"] for recording in RECORDINGS]
    if len(commands) != 1 or commands[0][-2:] not in files:
        sys.exit(f"example_cases: examples/{name}.bt does not begin with a comment that has its command")
    return commands[0][:-2] + ["s.bt", "r.bin"], commands[0][-1].rpartition("/")[2]


def case_of(path):
    """The line of a script."""
    script = path.read_text()
    words, recording = command_of(path.stem, script)
    case = {"words": words, "script": script, "recording_file": recording,
            "status": 0, "out": path.with_suffix(".out").read_text(), "err": ""}
    return json.dumps(case) + "\n"


def agreeing(examples):
    """What bt_cases prints where all cases agree: those of examples/, and those of the other files, one a line; then those whose script is compiled,
    and in which nothing fails."""
    others = [path.read_text() for path in DATA.glob("*.jsonl") if path.name != "examples.jsonl"]
    cases = [json.loads(line) for text in (examples, *others) for line in text.split("\n") if line]
    compiled = [case for case in cases if case["status"] == 0 and case["words"][0] in ("run", "check", "code") and not FAULTS & case.keys()]
    return f"{len(cases)} cases agree, 0 differ\nvet: {len(compiled)} cases agree, 0 differ\n"


def main(arguments):
    """Writes all files, or compares them."""
    if arguments not in ([], ["--check"]):
        sys.exit(__doc__)
    examples = "".join(map(case_of, sorted(EXAMPLES.glob("*.bt"))))
    made = {DATA / "examples.jsonl": examples.encode(), DATA.parent / "stdout": agreeing(examples).encode()}
    made.update({DATA / name: (EXAMPLES / name).read_bytes() for name in RECORDINGS})
    for path, wanted in made.items():
        if not arguments:
            path.write_bytes(wanted)
        elif not path.is_file() or path.read_bytes() != wanted:
            sys.exit(f"example_cases: {path.relative_to(TOP)} is not that of examples/: run python3 tools/example_cases.py")


if __name__ == "__main__":
    main(sys.argv[1:])
