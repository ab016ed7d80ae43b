"""Runs the command: python3 tools/btfleet run SCRIPT RECORDING .. [--scheduler ADDRESS] [--json] [--by-host]

It needs Debian's package python3-distributed, for the Python that it is run by. It is not proved; what each recording
answers is.
"""
import pathlib
import sys

if sys.version_info < (3, 8):
    sys.exit("btfleet: Python %s is too old for this command, which needs 3.8" % sys.version.split()[0])

sys.path[0] = str(pathlib.Path(__file__).resolve().parent.parent)

from btfleet.command import main  # noqa: E402  (the package is found by the line above)

if __name__ == "__main__":
    sys.exit(main(sys.argv[1:]))
