#!/usr/bin/env python3
"""Makes the cases of accounts that the program bt_cases runs: accounts.jsonl and verified.jsonl.

  python3 tools/account_cases.py           writes both files into crates/bt_cases/data, and tells how many cases each has
  python3 tools/account_cases.py --check   changes nothing, and ends with status 1 where the files are others
  python3 tools/account_cases.py --list    prints each account of accounts.jsonl, what has to come of it, and why

accounts.jsonl has accounts that were made by hand: those of tools/accounts/worked.py, which are true, and those of tools/accounts/damaged.py,
each with one thing wrong. Where each is wrong stands there, with the rule that it follows from, and tools/accounts/rules.py finds the place
once more by the rules alone. Nothing of the program is used. verified.jsonl has the scripts of examples.jsonl and schedules.jsonl, and those of
several CPUs that were worked out: each run writes an account, which has to be true. tools/example_cases.py counts the cases afterwards.
"""
import json
import pathlib
import sys

sys.dont_write_bytecode = True
from accounts import damaged, worked
from accounts.rules import judge

TOP = pathlib.Path(__file__).resolve().parent.parent
DATA = TOP / "crates" / "bt_cases" / "data"
# How often a script is run in which CPUs contend for a map: over a small recording, and over that of examples/.
MANY = 50
SOME = 5


def line_of(case):
    """The line of a case."""
    return json.dumps(case) + "\n"


def case_of(account, data, status, out, err):
    """The case of a check."""
    return {"words": ["verify", "s.bt", "r.bin", "a.bin"], "script": account.script, "recording": account.recording.hex(),
            "account": data.hex(), "status": status, "out": out, "err": err}


def wanted_of(wrong, steps):
    """What comes of the check of an account: status, output and errors."""
    if wrong is None:
        return 0, f"verified: {steps} steps\n", ""
    return 7, "", f"a.bin: {wrong}\n"


def checked(account, data, wrong, name):
    """The case of an account, where the place that is said and the one that is found by the rules are one."""
    found, steps = judge(account, data)
    if found != wrong:
        sys.exit(f"account_cases: {name}: said is {wrong}, and by the rules it is {found}")
    return case_of(account, data, *wanted_of(wrong, steps))


def account_cases():
    """The cases of accounts.jsonl, each with its name and what is said of it."""
    for account in worked.ACCOUNTS:
        for words in account.written_by:
            case = {"words": words, "script": account.script, "recording": account.recording.hex(),
                    "status": 0, "out_hex": account.data().hex(), "err": ""}
            yield f"{account.name}: {' '.join(words)}", "the only account", case
        yield f"{account.name}: true", "", checked(account, account.data(), None, account.name)
    for account, name, why, data, wrong in damaged.all_of():
        yield f"{account.name}: {name}", why, checked(account, data, wrong, f"{account.name}: {name}")


def is_contended(script):
    """Whether CPUs contend for a map that they share: one to which a probe assigns what is no aggregation, or which it steps."""
    aggregations = ("count(", "sum(", "min(", "max(", "avg(", "hist(", "lhist(")
    for statement in script.replace("{", ";").replace("}", ";").split(";"):
        left, equals, right = statement.strip().partition("=")
        if left.startswith("@") and (not equals or not right.strip().startswith(aggregations)) and "cpu" not in left:
            return True
    return False


def verified_cases():
    """The cases of verified.jsonl: the accounts of several CPUs that were worked out, and the runs of examples.jsonl and schedules.jsonl, on
    threads and as they stand on one thread."""
    for account in worked.ACCOUNTS:
        if account.cpus > 1:
            yield {"words": worked.THREADS, "script": account.script, "recording": account.recording.hex(), "status": 0, "err": "",
                   "verifies": MANY}
    for name, often in (("examples.jsonl", SOME), ("schedules.jsonl", MANY)):
        for line in (DATA / name).read_text().split("\n"):
            case = json.loads(line) if line else {"words": [""]}
            if case["words"][0] != "run":
                continue
            files = {key: case[key] for key in ("script", "recording", "recording_file") if key in case}
            words = ["account"] + [word for word in case["words"][1:] if word == "--serial"] + ["s.bt", "r.bin"]
            if "--serial" in words:
                yield {"words": words, **files, "status": 0, "err": "", "verifies": 1}
            times = often if is_contended(case["script"]) else 1
            yield {"words": worked.THREADS, **files, "status": 0, "err": "", "verifies": times}


def main(arguments):
    """Writes the files, compares them, or lists the accounts."""
    if arguments not in ([], ["--check"], ["--list"]):
        sys.exit(__doc__)
    cases = list(account_cases())
    if arguments == ["--list"]:
        for name, why, case in cases:
            print(f"{name}: {(case['err'] or case.get('out') or 'written').strip()}" + (f" ({why})" if why else ""))
        return
    made = {"accounts.jsonl": "".join(line_of(case) for _, _, case in cases), "verified.jsonl": "".join(map(line_of, verified_cases()))}
    for name, text in made.items():
        path = DATA / name
        if not arguments:
            path.write_text(text)
            print(f"{name}: {len(text.splitlines())} cases")
        elif not path.is_file() or path.read_text() != text:
            sys.exit(f"account_cases: {path.relative_to(TOP)} is another: run python3 tools/account_cases.py, then tools/example_cases.py")


if __name__ == "__main__":
    main(sys.argv[1:])
