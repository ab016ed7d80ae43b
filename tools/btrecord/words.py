"""The words of the program."""
import argparse
import math

from faults import WORDS
from record import LEAST_KILOBYTES, MOST_KILOBYTES
from selection import moment

LEAST_SECONDS, MOST_SECONDS = 0.01, 1_000_000
MOST_PROCESS = 4_194_304
MOST_NUMBER = 4_294_967_295
DESCRIPTION = "Makes recordings for btreplay, takes parts of them, and tells what one holds. It is not proved."


class Words(argparse.ArgumentParser):
    """The words of the program, whose faults are told as all others."""

    def error(self, message):
        self.exit(WORDS, f"btrecord: {message}\n{self.format_usage()}")


def number(least, most, kind):
    """A reader of numbers in a range."""
    def read(word):
        try:
            found = kind(word)
        except ValueError:
            found = math.nan
        if not least <= found <= most:
            raise argparse.ArgumentTypeError(f"{word} is not a number from {least} to {most}")
        return found
    return read


def parts(kind):
    """A reader of words with commas between them."""
    def read(word):
        return [kind(part) for part in word.split(",")]
    return read


def told_moment(word):
    """A reader of times."""
    try:
        return moment(word)
    except ValueError as fault:
        raise argparse.ArgumentTypeError(f"{word} is no time: seconds as dump shows them (12.5), nanoseconds (12500000000ns), "
                                         "or with + before either, counted from the recording's start (+0.5)") from fault


def add_record(commands):
    """The words of record."""
    command = commands.add_parser("record", help="record tracepoints (as root)", usage="btrecord record [SYSTEM:EVENT ..] [OPTIONS] -o FILE [-- COMMAND ..]")
    command.add_argument("events", nargs="*", metavar="SYSTEM:EVENT", help="a tracepoint; * stands for any letters")
    command.add_argument("--for", dest="scripts", action="append", default=[], metavar="SCRIPT", help="record the tracepoints that a script names")
    command.add_argument("--seconds", type=number(LEAST_SECONDS, MOST_SECONDS, float), metavar="N", help="how long; without it until Ctrl-C")
    command.add_argument("--pid", type=parts(number(1, MOST_PROCESS, int)), action="extend", default=[], metavar="N",
                         help="only what this process does and what it starts, until it ends; several with commas between")
    command.add_argument("--filter", dest="filters", nargs=2, action="append", default=[], metavar=("SYSTEM:EVENT", "EXPRESSION"),
                         help="of this tracepoint only those events for which the kernel finds an expression of its fields true, as 'bytes > 65536'")
    command.add_argument("--keep", choices=["earliest", "latest"], default="earliest",
                         help="which events, where there are too many; latest overwrites earlier ones until the end")
    command.add_argument("-a", "--all-cpus", dest="is_all", action="store_true", help="with a command: record all CPUs while it runs")
    command.add_argument("--buffer-kb", type=number(LEAST_KILOBYTES, MOST_KILOBYTES, int), default=8192, metavar="N",
                         help="the kernel's buffer for each CPU, in kilobytes (8192)")
    return command


def add_selection(command):
    """Adds the words that tell which events of a recording are meant."""
    command.add_argument("--from", dest="begin", type=told_moment, metavar="TIME", help="events from this time on: 12.5, 12500000000ns, or +0.5")
    command.add_argument("--to", dest="end", type=told_moment, metavar="TIME", help="events up to this time")
    for word, kind, metavar, meant in [("--comm", str, "NAME", "events of threads of this name; * stands for any letters"),
                                       ("--pid", number(0, MOST_NUMBER, int), "N", "events of this process"),
                                       ("--cpu", number(0, MOST_NUMBER, int), "N", "events of this CPU"),
                                       ("--event", str, "SYSTEM:EVENT", "events of this tracepoint; * stands for any letters")]:
        command.add_argument(word, type=parts(kind), action="extend", default=[], metavar=metavar, help=meant + "; several with commas between")


def words():
    """The words of all commands."""
    parser = Words(prog="btrecord", description=DESCRIPTION)
    commands = parser.add_subparsers(dest="command", required=True, metavar="COMMAND", parser_class=Words)
    to_record = add_record(commands)
    to_convert = commands.add_parser("convert", help="convert a file of perf record -a -R")
    to_convert.add_argument("data", metavar="PERF.DATA")
    to_convert.add_argument("--formats", metavar="DIR", help="a folder like /sys/kernel/tracing/events, where the file has no formats")
    to_cut = commands.add_parser("cut", help="write a part of a recording, as a recording")
    for command in (to_record, to_convert, to_cut):
        command.add_argument("-o", dest="output", metavar="FILE", required=True, help="the recording; - is standard output")
        command.add_argument("--v1", action="store_true", help="as BTRACE01, without the marks that tell of lost events")
    to_dump = commands.add_parser("dump", help="print a recording's events, as perf script does")
    to_dump.add_argument("--chrome", action="store_true", help="as a timeline for a trace viewer (JSON)")
    to_dump.add_argument("-o", dest="output", metavar="FILE", help="where to; without it standard output")
    to_tell = commands.add_parser("info", help="tell what a recording holds")
    to_list = commands.add_parser("list", help="list a recording's tracepoints")
    to_list.add_argument("-v", dest="fields", action="store_true", help="list their fields too, as scripts see them")
    for command in (to_cut, to_dump):
        add_selection(command)
    for command in (to_cut, to_dump, to_tell, to_list):
        command.add_argument("recording", metavar="RECORDING")
    to_list.add_argument("pattern", nargs="?", default="*", metavar="PATTERN", help="SYSTEM:EVENT, where * stands for any letters")
    return parser


def parsed(arguments):
    """What the words ask. Behind `--` in those of record stands a command."""
    parser, program = words(), []
    if arguments[:1] == ["record"] and "--" in arguments:
        place = arguments.index("--")
        arguments, program = arguments[:place], arguments[place + 1:]
        if not program:
            parser.error("behind -- no command stands")
    asked = parser.parse_args(arguments)
    if asked.command == "record":
        asked.program = program
        if not asked.events and not asked.scripts:
            parser.error("name a tracepoint as SYSTEM:EVENT, or a script by --for")
        if asked.pid and (program or asked.is_all):
            parser.error("--pid records some processes; a command and -a do not go with it")
    return asked
