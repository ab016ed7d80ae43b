"""Runs the command: python3 tools/btreplay WORDS .., as ../../btreplay does."""
import pathlib
import sys

if sys.version_info < (3, 8):
    sys.exit("btreplay: Python %s is too old for this command, which needs 3.8" % sys.version.split()[0])

sys.path[0] = str(pathlib.Path(__file__).resolve().parent.parent)

from btreplay.command import main  # noqa: E402  (the package is found by the line above)

if __name__ == "__main__":
    sys.exit(main(sys.argv[1:]))
