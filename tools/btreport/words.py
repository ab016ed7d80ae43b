"""The words of the command."""
import argparse

from btreplay.choice import add_choice
from btreport.faults import WORDS

DESCRIPTION = """Asks a recording some questions by the program, run --serial --json, and draws what it printed as one
page of HTML: when what happened, how long threads waited for a CPU, block requests and system calls took, who did what,
what failed, and what the recording lacks. The drawing is not proved."""


class Words(argparse.ArgumentParser):
    """The words of the command, whose faults are told as all others."""

    def error(self, message):
        self.exit(WORDS, f"btreport: {message}\n{self.format_usage()}")


def parsed(arguments):
    """What words ask for."""
    parser = Words(
        prog="btreport", description=DESCRIPTION, usage="btreport [--proved | --unproved] RECORDING [--scripts FOLDER] [-o FILE]"
    )
    parser.add_argument("recording", metavar="RECORDING")
    parser.add_argument(
        "--scripts", metavar="FOLDER", help="run each script *.bt of this folder too, and draw what it prints"
    )
    parser.add_argument(
        "-o",
        dest="output",
        metavar="FILE",
        help="the page, which takes the place of a file of this name; - is standard output. Without it "
        "the page is beside the caller, with the recording's name and .html, and no file may have that name",
    )
    add_choice(parser)
    return parser.parse_args(arguments)
