"""The real bpftrace beside the recorder and the program, live, over the same events, in a guest of Debian's packages.

  python3 tools/beside FOLDER [--cpus N] [--memory MEGABYTES] [--seconds N] [--scripts NAME ..] [--here] [--again]

FOLDER gets the guest, some 3 GB, which later runs take as it is, and what came of the run. Nothing is installed on this machine, and the guest
has no network. It takes some minutes to make it, and some to run it under emulation. With --here the same bpftrace runs, as root, on this
machine's own kernel. The status is 1 where something differs that no line of
docs/DIFFERENCES.md explains, and 2 where it could not be tried.
"""
import argparse
import json
import pathlib
import shutil
import subprocess
import sys

HERE = pathlib.Path(__file__).resolve().parent
TOP = HERE.parent.parent
sys.path[:0] = [str(HERE), str(HERE.parent)]
sys.dont_write_bytecode = True

from comparing import differences  # noqa: E402
from guest import NoGuest, made  # noqa: E402
from known import told, unexplained  # noqa: E402
from packages import NoPackages  # noqa: E402

from built_program import NO_PROGRAM, real_program  # noqa: E402

SCRIPTS_AT_ONCE, ROUNDS, KILOBYTES = 9, 40, 32768


def words():
    """The words of the command."""
    parser = argparse.ArgumentParser(prog="beside", description="the real bpftrace beside the recorder and the program, in a guest")
    parser.add_argument("folder", type=pathlib.Path, help="where the guest and what comes of it stand")
    parser.add_argument("--cpus", type=int, default=2, help="how many CPUs the guest has")
    parser.add_argument("--memory", type=int, default=3072, help="how many megabytes the guest has")
    parser.add_argument("--seconds", type=int, default=3600, help="after how many the guest is given up")
    parser.add_argument("--scripts", nargs="+", default=[], help="only scripts whose names begin so")
    parser.add_argument("--here", action="store_true", help="no guest: as root on this machine's own kernel")
    parser.add_argument("--again", action="store_true", help="compare what the last run left, without a guest")
    return parser.parse_args()


def chosen(beginnings):
    """The scripts whose names begin so, or all."""
    found = [path for path in sorted((HERE / "scripts").glob("*.bt")) if not beginnings or any(path.name.startswith(word) for word in beginnings)]
    if not found:
        raise NoGuest("no script has such a name")
    return found


def inputs(folder, scripts, disk):
    """A folder with what the guest needs to run some scripts, and to write what comes of them to a disk where there is one."""
    shutil.rmtree(folder, ignore_errors=True)
    (folder / "scripts").mkdir(parents=True)
    for path in scripts:
        shutil.copy(path, folder / "scripts")
    shutil.copytree(TOP / "tools/btrecord", folder / "btrecord", ignore=shutil.ignore_patterns("tests", "__pycache__"))
    shutil.copy(HERE / "inside.py", folder)
    subprocess.run(["cc", "-O1", "-static", "-pthread", "-o", str(folder / "burst"), str(HERE / "burst.c")], check=True)
    asked = {"group": SCRIPTS_AT_ONCE, "rounds": ROUNDS, "kilobytes": KILOBYTES, "disk": disk}
    (folder / "asked.json").write_text(json.dumps(asked))
    return folder


def ran(program, script, recording):
    """What the program prints for a script over a recording, or the word of its fault."""
    done = subprocess.run([program, "run", "--serial", str(script), str(recording)], stdin=subprocess.DEVNULL, stdout=subprocess.PIPE, stderr=subprocess.PIPE)
    if done.returncode:
        return f"status {done.returncode}: {done.stderr.decode(errors='replace').strip()}"
    return done.stdout.decode("latin-1")


def compared(program, output, scripts):
    """A row of the table for each script, and the differences that no line explains."""
    rows, left = [], []
    for script in scripts:
        live = next(output.glob(f"*/{script.stem}.live"), None)
        if live is None:
            left.append(f"{script.stem}: it did not run")
            rows.append((script.stem, "did not run"))
            continue
        text = live.read_text(encoding="latin-1")
        if "READY" not in text:
            left.append(f"{script.stem}: bpftrace does not run it on this kernel")
            rows.append((script.stem, "bpftrace does not run it on this kernel"))
            continue
        found = differences(text, ran(program, script, live.parent / "r.btr"))
        new = unexplained(script.stem, found)
        left += [f"{script.stem}: {line}" for line in new]
        rows.append((script.stem, "equal" if not found else "; ".join(told(script.stem, found)) if not new else f"differs in {len(new)}"))
    return rows, left


def run(asked, folder, scripts):
    """Runs the scripts in a guest, or here."""
    guest = made(folder)
    if asked.here:
        guest.run_here(inputs(folder / "in", scripts, None), folder / "out", asked.seconds)
    else:
        guest.run(inputs(folder / "in", scripts, "/dev/vdc"), folder / "out", asked.cpus, asked.memory, asked.seconds)


def main():
    """Makes the guest, runs the scripts, compares, and gives the status."""
    asked = words()
    program = real_program()
    if not program:
        print(f"beside: {NO_PROGRAM}", file=sys.stderr)
        return 2
    try:
        scripts = chosen(asked.scripts)
        asked.folder.mkdir(parents=True, exist_ok=True)
        folder = asked.folder.resolve()
        if not asked.again:
            run(asked, folder, scripts)
        rows, left = compared(program, folder / "out", scripts)
    except (NoGuest, NoPackages, OSError, subprocess.SubprocessError) as fault:
        print(f"beside: {fault}", file=sys.stderr)
        return 2
    for script, word in rows:
        print(f"| {script} | {word} |")
    for line in left:
        print(f"beside: {line}")
    equal = sum(word == "equal" for _, word in rows)
    print(f"{equal} of {len(rows)} scripts print the same, {len(left)} differences without an explanation")
    return 1 if left else 0


if __name__ == "__main__":
    sys.exit(main())
