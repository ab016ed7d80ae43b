"""What runs in the guest: groups of scripts under bpftrace, beside the recorder, over the same burst of work.

`python3 inside.py OUT DEVICE` in a folder that has the scripts, the recorder, the burst and `asked.json`.
"""
import json
import os
import pathlib
import signal
import subprocess
import sys
import tarfile
import time

READY_SECONDS, ENDED_SECONDS = 1800, 120
BEHIND_SECONDS = 2
# bpftrace keeps the lines and rows that these hold.
ROOM = {"BPFTRACE_PERF_RB_PAGES": "512", "BPFTRACE_MAP_KEYS_MAX": "8192"}


def say(*words):
    """Tells how far it is."""
    print(f"[{time.monotonic():.0f}]", *words, flush=True)


def ended(process, name):
    """Ends a process by the signals that end it, the mildest first, and answers its status."""
    for number in (signal.SIGINT, signal.SIGTERM, signal.SIGKILL):
        if process.poll() is None:
            process.send_signal(number)
        try:
            return process.wait(ENDED_SECONDS)
        except subprocess.TimeoutExpired:
            say(name, "did not end by", number)
    return process.wait()


def waited(is_there, seconds):
    """Whether something is there before so many seconds are over."""
    due = time.monotonic() + seconds
    while not is_there():
        if time.monotonic() > due:
            return False
        time.sleep(0.2)
    return True


def group(folder, scripts, asked, device):
    """Runs some scripts live beside the recorder. The burst begins when all are ready, and ends before any does."""
    folder.mkdir(parents=True)
    live = {}
    for script in scripts:
        with open(folder / f"{script.stem}.live", "w") as out, open(folder / f"{script.stem}.told", "w") as err:
            live[script] = subprocess.Popen(["bpftrace", str(script)], stdout=out, stderr=err, env={**os.environ, **ROOM})
    waited(lambda: all(process.poll() is not None or "READY" in (folder / f"{script.stem}.live").read_text(errors="replace")
                       for script, process in live.items()), READY_SECONDS)
    words = [word for script in scripts for word in ("--for", str(script))]
    with open(folder / "record.told", "w") as err:
        recorder = subprocess.Popen([sys.executable, "btrecord", "record", *words, "--buffer-kb", str(asked["kilobytes"]), "-o", str(folder / "r.btr")], stderr=err)
    waited(lambda: recorder.poll() is not None or "recording " in (folder / "record.told").read_text(), READY_SECONDS)
    burst = subprocess.run(["./burst", str(asked["rounds"]), device])
    time.sleep(BEHIND_SECONDS)
    status = ended(recorder, "the recorder")
    for script, process in live.items():
        ended(process, script.name)
    say(folder.name, "burst", burst.returncode, "recorder", status, (folder / "record.told").read_text().strip().replace("\n", "; "))


def handed_out(folder, disk):
    """Writes what there is so far to the disk that the host reads, where there is one."""
    if not disk:
        return
    with open(disk, "r+b") as disk:
        with tarfile.open(fileobj=disk, mode="w") as file:
            file.add(folder, arcname=".")
    os.sync()


def main(folder, device):
    """Runs all groups."""
    asked = json.loads(pathlib.Path("asked.json").read_text())
    os.chmod(device, 0o666)
    os.chmod("burst", 0o755)
    pathlib.Path(folder, "release").write_text(os.uname().release)
    scripts = sorted(pathlib.Path("scripts").glob("*.bt"))
    size = asked["group"]
    for number, first in enumerate(range(0, len(scripts), size)):
        group(pathlib.Path(folder, f"group-{number + 1}"), scripts[first:first + size], asked, device)
        handed_out(folder, asked["disk"])


if __name__ == "__main__":
    main(*sys.argv[1:])
