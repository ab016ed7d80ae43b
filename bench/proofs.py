#!/usr/bin/env python3
"""Measures by hand what the check of a crate spends its time on: python3 bench/proofs.py [--sources] CRATE [FUNCTION ..]

It checks the crate of this name, from nothing and with one job, or of it the named functions and those that they call, as `rt check --only` names
them. The libraries below must be there: `rt ci CRATE`, or `rt lib` in their folders, builds them. With `--sources` they need not be: each is read
as source, and the functions of it that the named ones call are checked as well. That wants functions to be named, takes one or two minutes more for
a crate low down, and more than 12 GB for the topmost. The check is one by hand: it is not the gate, and nothing of it is kept. For each module of
the proof it tells the seconds of the clock that passed until it was checked, the longest first, and before them the sums by kind of module. Of a
function, `Lts` is the part that the borrow checker leaves, `Proof` and `Tie` are what its clauses take, and a module that is none of a function's
is a file of `specs/` or `proofs/`, or what is made of a type. Behind them stand the dearest goals and lemmas, with the seconds that the prover itself
notes of each, which other work on the machine hardly moves, and of the tactics in it: a goal that takes a `search` which nobody wrote wants its answer.
"""
import collections
import os
import pathlib
import re
import subprocess
import sys
import tempfile

TOP = pathlib.Path(__file__).resolve().parent.parent
CRATES = TOP / "crates"
SHOWN = 40
LEAST = 0.5
LEAST_OF_GOALS = 0.1
# What the prover notes of a definition, as it lies among the bytes of a module that was checked: what it called, its name, and its millionths of a second.
NOTE = re.compile(rb'"calls":(\[.*?\]),"goals":.*?"kind":.*?"name":"([^"]*)".*?"phases":\[([\d,]+)\]', re.DOTALL)
CALL = re.compile(r'\["([^"]*)",\[\d+,\d+\],(\d+)\]')


def dependencies():
    """What each crate of the repository names, by crates.txt."""
    found = {}
    for line in (TOP / "crates.txt").read_text().splitlines():
        if line.strip() and not line.startswith("#"):
            head, _, rest = line.partition(":")
            found[head.split()[0]] = rest.split()
    return found


def below(crate, named):
    """All crates of the repository that a crate stands on."""
    found = set()
    left = list(named[crate])
    while left:
        name = left.pop()
        if name in named and name not in found:
            found.add(name)
            left += named[name]
    return sorted(found)


def as_libraries(crate, named, kit):
    """The words that name the libraries below a crate as they are built."""
    words = []
    for name in named[crate]:
        library = CRATES / name / "out" / "rlib" if name in named else kit / "rlibs"
        words += ["--extern", f"{name}={library / (name + '.rlib')}"]
    for name in below(crate, named):
        words += ["-L", f"dependency={CRATES / name / 'out' / 'rlib'}"]
    return words


def as_sources(crate, named, kit):
    """The words that name the libraries below a crate by their sources."""
    ours = below(crate, named)
    of_kit = sorted({name for it in [crate, *ours] for name in named[it] if name not in named})
    words = [word for name in of_kit for word in ("--extern", f"{name}={kit / 'rlibs' / (name + '.rlib')}")]
    for name in ours:
        words += ["--lib", f"{name}:{','.join([*named[name], 'std'])}={CRATES / name / 'src' / 'lib.rt'}"]
    return words


def words_of_check(crate, functions, kept, libraries):
    """The words of the check, whose modules are written to a folder as they are checked. What is passed last gives those of the libraries."""
    named = dependencies()
    if crate not in named:
        sys.exit(f"there is no crate {crate} in crates.txt")
    kit = pathlib.Path(subprocess.run(["rt", "doc"], stdout=subprocess.PIPE, text=True, check=True).stdout.strip()).parent
    root = "src/lib.rt" if (CRATES / crate / "src" / "lib.rt").is_file() else "src/main.rt"
    words = [kit / "bin" / "rattle", "check", "--crate-name", crate, root, "--jobs", "1", "--incremental", kept]
    words += ["--antt-project", kit / "rattle" / "logic" / "antt-project.json", "--logic-built", kit / "logic_built"]
    words += ["-L", f"dependency={kit / 'rlibs'}", "--extern", f"std={kit / 'rlibs' / 'std.rlib'}"]
    words += libraries(crate, named, kit)
    for function in functions:
        words += ["--only", function]
    return [str(word) for word in words]


def times(kept):
    """The modules in the order in which they were written, each with the seconds since the one before."""
    written = sorted((os.stat(path).st_mtime, path.name) for path in pathlib.Path(kept).rglob("*.oantt"))
    return [(now - before, name.removesuffix(".oantt").removesuffix(".decls")) for (before, _), (now, name) in zip(written, written[1:])]


def goals(kept, crate):
    """Each goal and lemma of the crate's own modules: its name, its seconds, and the tactics in it with theirs."""
    found = {}
    for path in pathlib.Path(kept).rglob(f"Rattle-{crate}-*.decls.oantt"):
        module = path.name.removesuffix(".decls.oantt").removeprefix(f"Rattle-{crate}-")
        for calls, name, phases in NOTE.findall(path.read_bytes()):
            called = [(tactic, int(spent) / 1e6) for tactic, spent in CALL.findall(calls.decode(errors="replace"))]
            found[f"{module} {name.decode(errors='replace')}"] = (sum(map(int, phases.split(b","))) / 1e6, called)
    return found


def told_goals(found):
    """The lines of the dearest goals."""
    for name, (spent, called) in sorted(found.items(), key=lambda it: -it[1][0])[:SHOWN]:
        if spent >= LEAST_OF_GOALS:
            dear = ", ".join(f"{tactic} {of_it:.2f}" for tactic, of_it in called if of_it >= LEAST_OF_GOALS)
            yield f"{spent:8.2f}  {name}{': ' if dear else ''}{dear}"


def kind(module):
    """What a module is: the last part of its name, without the function that it may be of."""
    library, _, rest = module.partition(".")
    if library.endswith("-specs"):
        return "specs"
    return re.sub("-.*", "", rest.rsplit(".", 1)[-1]) or library


def main(words):
    """Checks, and prints the two tables. The status is that of the check."""
    libraries = as_libraries
    if words[:1] == ["--sources"]:
        libraries, words = as_sources, words[1:]
    if not words or words[0].startswith("-") or (libraries == as_sources and len(words) == 1):
        sys.exit(__doc__)
    crate, *functions = words
    with tempfile.TemporaryDirectory(prefix="proofs-") as kept:
        check = words_of_check(crate, functions, kept, libraries)
        done = subprocess.run(check, cwd=CRATES / crate, stdout=subprocess.PIPE, stderr=subprocess.STDOUT, text=True)
        seconds = collections.Counter()
        kinds = collections.Counter()
        for spent, module in times(kept):
            seconds[module] += spent
            kinds[kind(module)] += spent
        dearest = list(told_goals(goals(kept, crate)))
    for what, spent in kinds.most_common():
        if spent >= LEAST:
            print(f"{spent:8.1f}  {what}")
    print()
    for module, spent in seconds.most_common(SHOWN):
        if spent >= LEAST:
            print(f"{spent:8.1f}  {module}")
    print("", *dearest, "", sep="\n")
    print(done.stdout.splitlines()[-1] if done.stdout else f"the check ended with status {done.returncode}")
    return done.returncode


if __name__ == "__main__":
    sys.exit(main(sys.argv[1:]))
