"""btrecord: makes recordings for btreplay, takes parts of them, and tells what one holds.

  python3 tools/btrecord record SYSTEM:EVENT .. [OPTIONS] -o FILE [-- COMMAND ..]
  python3 tools/btrecord convert PERF.DATA [--formats DIR] -o FILE
  python3 tools/btrecord cut RECORDING [WHICH ..] -o FILE
  python3 tools/btrecord dump [--chrome] RECORDING [WHICH ..] [-o FILE]
  python3 tools/btrecord info RECORDING
  python3 tools/btrecord list [-v] RECORDING [PATTERN]

record, convert and cut also take --v1, for a recording without marks of lost events.

This program is not proved. btreplay checks each recording that it is given.
"""
# Ctrl-C ends it without a word while its modules are read, as it does later; `signal` itself is one that is read, and this is in Python.
import _signal

FINDS_CTRL_C = _signal.getsignal(_signal.SIGINT) is _signal.default_int_handler
if FINDS_CTRL_C:
    _signal.signal(_signal.SIGINT, _signal.SIG_DFL)

import contextlib  # noqa: E402
import glob  # noqa: E402
import importlib.util  # noqa: E402
import os  # noqa: E402
import signal  # noqa: E402
import sys  # noqa: E402

if sys.version_info < (3, 8):
    sys.exit("btrecord: Python %s is too old for this command, which needs 3.8" % sys.version.split()[0])

# Ctrl-C ends it without a word while its modules are read, as it does later.
FINDS_CTRL_C = signal.getsignal(signal.SIGINT) is signal.default_int_handler
if FINDS_CTRL_C:
    signal.signal(signal.SIGINT, signal.SIG_DFL)

# Who records as root, in a folder of somebody else, leaves nothing there. What Python kept of this file it kept before it read this.
if not sys.dont_write_bytecode:
    sys.dont_write_bytecode = True
    with contextlib.suppress(OSError, NotImplementedError):
        os.unlink(importlib.util.cache_from_source(__file__))
        os.rmdir(os.path.dirname(importlib.util.cache_from_source(__file__)))

import selection  # noqa: E402
import tracedat  # noqa: E402
from container import VERSIONS  # noqa: E402
from cutting import cut  # noqa: E402
from dumping import dump, lines  # noqa: E402
from faults import MEMORY, RECORDING, WORDS, WRITE, Ended, Refused  # noqa: E402
from info import info, listing  # noqa: E402
from inputs import STANDARD, overwritten  # noqa: E402
from output import Output  # noqa: E402
from perfdata import convert, mapped  # noqa: E402
from record import Asked, record  # noqa: E402
from script import points_in  # noqa: E402
from timeline import timeline  # noqa: E402
from words import parsed  # noqa: E402


def plural(count, word):
    """So many of something."""
    return f"{count:,} {word}" + ("" if count == 1 else "s")


def report(output, made):
    """What stands in the output and what does not."""
    assembly = made.assembly
    lines = [f"{plural(assembly.events, 'event')} of {plural(len(assembly.parts), 'CPU')} and "
             f"{plural(len(assembly.formats), 'format')} in {output}",
             f"{plural(made.lost, 'event')} lost while recording"]
    causes = "; ".join(f"{count:,} {cause}" for cause, count in assembly.left_out.items())
    lines.append(f"{plural(sum(assembly.left_out.values()), 'event')} left out" + (f": {causes}" if causes else ""))
    if assembly.marks:
        lines.append(f"the recording has {plural(assembly.marks, 'mark')} of lost events, and is of version 2")
    elif assembly.unmarked:
        lines.append(f"{plural(assembly.unmarked, 'mark')} of lost events left out, since --v1 asks for version 1")
    return lines + made.notes


def tell(lines):
    """Tells lines."""
    for line in lines:
        print(f"btrecord: {line}", file=sys.stderr)


def read_of(asked):
    """The files that the words have read."""
    formats = glob.glob(os.path.join(glob.escape(asked.formats), "*", "*", "format")) if getattr(asked, "formats", None) else []
    named = [getattr(asked, word) for word in ("recording", "data") if hasattr(asked, word)]
    return named + list(getattr(asked, "scripts", [])) + formats


def run(asked):
    """Does what the words ask, and answers the status."""
    fault = overwritten(getattr(asked, "output", None) or STANDARD, read_of(asked))
    if fault:
        raise Refused(fault, WORDS)
    if asked.command in ("record", "convert"):
        return run_making(asked)
    if asked.command == "cut":
        tell(cut(asked.recording, which(asked), lambda: Output(asked.output), not asked.v1))
    else:
        with ended_by_pipe():
            run_telling(asked)
    return 0


@contextlib.contextmanager
def ended_by_pipe():
    """Has the program end without a word where nobody reads its output any more."""
    before = signal.signal(signal.SIGPIPE, signal.SIG_DFL)
    try:
        yield
    finally:
        signal.signal(signal.SIGPIPE, before)


def which(asked):
    """The events that the words ask for."""
    return selection.Asked(asked.begin, asked.end, asked.comm, asked.pid, asked.event, asked.cpu)


def run_telling(asked):
    """Prints what a recording holds."""
    if asked.command == "dump":
        open_output = (lambda: Output(asked.output)) if asked.output not in (None, "-") else None
        dump(asked.recording, which(asked), open_output, timeline if asked.chrome else lines)
        return
    told = info(asked.recording) if asked.command == "info" else listing(asked.recording, asked.pattern, asked.fields)
    sys.stdout.write("".join(f"{line}\n" for line in told))
    sys.stdout.flush()


def run_making(asked):
    """Makes a recording, and answers the status of the command that ran meanwhile."""
    if asked.command == "record":
        patterns = asked.events + [point for path in asked.scripts for point in points_in(path)]
        made = record(Asked(patterns, asked.seconds, asked.buffer_kb, processes=asked.pid, command=asked.program, is_all=asked.is_all,
                            filters=asked.filters, keeps_latest=asked.keep == "latest", with_marks=not asked.v1, tell=tell), lambda: Output(asked.output))
    else:
        data = mapped(asked.data)
        if data[:len(next(iter(VERSIONS)))] in VERSIONS:
            raise Refused(f"{asked.data} is a recording already", RECORDING)
        if data[:len(tracedat.MAGIC)] == tracedat.MAGIC:
            made = tracedat.convert_trace(data, asked.data, lambda: Output(asked.output), not asked.v1)
        else:
            made = convert(asked.data, asked.formats, lambda: Output(asked.output), data, not asked.v1)
    tell(report("standard output" if asked.output == "-" else asked.output, made))
    return made.status


def main(arguments):
    """Does what the words ask, and gives the status of README's table."""
    try:
        if FINDS_CTRL_C:
            signal.signal(signal.SIGINT, signal.default_int_handler)
        return run(parsed(arguments))
    except (Refused, Ended) as fault:
        tell(str(fault).split("\n"))
        return fault.status
    except OSError as error:
        print(f"btrecord: {error.filename or 'output'}: {error.strerror}", file=sys.stderr)
        return WRITE
    except MemoryError:
        print("btrecord: out of memory", file=sys.stderr)
        return MEMORY
    except KeyboardInterrupt:
        return 128 + signal.SIGINT


if __name__ == "__main__":
    sys.exit(main(sys.argv[1:]))
