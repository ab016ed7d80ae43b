"""The words of the program."""
import argparse

from btfleet.faults import WORDS
from btreplay import proved
from btreplay.choice import add_choice

DESCRIPTION = ("Asks one script of many recordings, each where a worker of Dask's distributed scheduler holds it, and "
               "prints the merged rows as btreplay prints those of one. It is not proved.")
RECORDING = ("PATH, HOST:PATH for that of one host, or '*:PATH' for that of each host; without --scheduler all are files "
             "here, and HOST is a name for one")


class Words(argparse.ArgumentParser):
    """The words of the program, whose faults are told as all others."""

    def error(self, message):
        """Ends the program, with what is wrong."""
        self.exit(WORDS, f"btfleet: {message}\n{self.format_usage()}")


class Version(argparse.Action):
    """Prints with what the program was proved, and ends."""

    def __call__(self, parser, *_):
        print(proved.version())
        parser.exit()


def words():
    """The words of all commands."""
    parser = Words(prog="btfleet", description=DESCRIPTION)
    parser.add_argument("--version", "-V", action=Version, nargs=0, help="print the version, and end")
    add_choice(parser)
    commands = parser.add_subparsers(dest="command", required=True, metavar="COMMAND", parser_class=Words)
    run = commands.add_parser("run", help="ask a script of recordings, and print what they answer together",
                              usage="btfleet run SCRIPT RECORDING .. [--scheduler ADDRESS] [--json] [--by-host | --by LABEL --labels FILE] [--diff] "
                                    "[--timeout SECONDS] [--hosts FILE] [--least N]")
    run.add_argument("script", metavar="SCRIPT", help="the script; - is standard input")
    run.add_argument("recordings", nargs="+", metavar="RECORDING", help=RECORDING)
    run.add_argument("--scheduler", metavar="ADDRESS",
                     help="the scheduler, as tcp://HOST:8786; without it the recordings are read on this machine")
    run.add_argument("--json", action="store_true", help="print JSON lines, as btreplay run --json")
    apart = run.add_mutually_exclusive_group()
    apart.add_argument("--by-host", action="store_true",
                       help="keep the rows of each host apart, with its name as the first part of the key")
    apart.add_argument("--by", metavar="LABEL", help="keep the rows of groups of hosts apart, which have one value of a label")
    run.add_argument("--labels", metavar="FILE", help="the labels of hosts, as lines HOST NAME=VALUE ..")
    run.add_argument("--diff", action="store_true",
                     help="print what differs between hosts, or groups of them, per second of recording, the most different first")
    run.add_argument("--timeout", metavar="SECONDS", type=seconds, help="the most that a run over one recording may take")
    run.add_argument("--hosts", metavar="FILE", help="a file of the names of hosts, one in a line, each of which '*:PATH' has to find")
    run.add_argument("--least", metavar="N", type=count, default=0, help="how many recordings have to answer, or nothing is printed")
    return parser


def seconds(word):
    """A time in seconds of words."""
    found = float(word)
    if not 0 < found < 1e9:
        raise argparse.ArgumentTypeError(f"{word} is no time in seconds")
    return found


def count(word):
    """A count of words."""
    found = int(word)
    if found < 0:
        raise argparse.ArgumentTypeError(f"{word} is no count")
    return found


def parsed(arguments):
    """What the arguments ask."""
    parser = words()
    asked = parser.parse_args(arguments)
    if (asked.by is None) != (asked.labels is None):
        parser.error("--by LABEL and --labels FILE are given together")
    if asked.by is not None and not asked.by:
        parser.error("--by wants the name of a label")
    return asked
