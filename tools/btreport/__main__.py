"""Runs the command: python3 tools/btreport RECORDING .."""
import pathlib
import sys

if sys.version_info < (3, 8):
    sys.exit("btreport: Python %s is too old for this command, which needs 3.8" % sys.version.split()[0])

# What root runs in the folder of somebody else leaves nothing there.
sys.dont_write_bytecode = True
sys.path[0] = str(pathlib.Path(__file__).resolve().parent.parent)

from btreport.command import main  # noqa: E402  (the package is found by the line above)

if __name__ == "__main__":
    sys.exit(main(sys.argv[1:]))
