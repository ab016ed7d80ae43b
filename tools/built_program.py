"""The program that tests of the tools run: the proved one where it is built, or else the build that is kept of these sources.

BTREPLAY_PROGRAM names another one.
"""
import json
import os
import pathlib
import subprocess
import tempfile

from btreplay import proved, unproved

TOP = pathlib.Path(__file__).resolve().parent.parent
NO_PROGRAM = "there is no built program that knows run --json"


def real_program():
    """The built program, or none where it does not know run --json."""
    named = os.environ.get("BTREPLAY_PROGRAM")
    kept = unproved.cache() / f"unproved-{unproved.checksum()}"
    for path in [named] if named else [*([proved.PROGRAM] if proved.is_current() else []), kept]:
        if os.access(path, os.X_OK):
            with tempfile.NamedTemporaryFile(suffix=".bt") as script:
                script.write(b"BEGIN { @ = count(); }")
                script.flush()
                words = [str(path), "run", "--serial", "--json", script.name, str(TOP / "examples" / "small.btr")]
                done = subprocess.run(words, stdin=subprocess.DEVNULL, stdout=subprocess.PIPE, stderr=subprocess.DEVNULL, timeout=60)
            if done.returncode == 0 and json.loads(done.stdout) == {"data": [{"key": [], "value": 1}], "map": "@", "type": "map"}:
                return str(path)
    return None
