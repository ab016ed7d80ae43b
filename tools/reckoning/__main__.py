"""Prints what an example gives over a recording, worked out without btreplay.

  python3 tools/reckoning NAME [RECORDING]   NAME is a script of examples/ without .bt; RECORDING is that of its own command where none is named
"""
import pathlib
import sys

TOOLS = pathlib.Path(__file__).resolve().parent.parent
sys.dont_write_bytecode = True
sys.path.insert(0, str(TOOLS))

from reckoning.events import read_recording
from reckoning.questions import QUESTIONS, RECORDINGS


def main(arguments):
    """Prints the answer to the question that is named."""
    if len(arguments) not in (1, 2) or arguments[0] not in QUESTIONS:
        sys.exit(f"{__doc__}\nthe names: {', '.join(QUESTIONS)}")
    own = TOOLS.parent / "examples" / RECORDINGS.get(arguments[0], "small.btr")
    recording = pathlib.Path(arguments[1]) if len(arguments) == 2 else own
    sys.stdout.write(QUESTIONS[arguments[0]](*read_recording(recording.read_bytes())))


if __name__ == "__main__":
    main(sys.argv[1:])
