"""What the words of `btfleet` ask, from the script to the status."""
import asyncio
import contextlib
import os
import signal
import socket
import sys

from btfleet.asking import version
from btfleet.comparing import compared
from btfleet.differing import Comparison
from btfleet.engine import connected
from btfleet.faults import ENGINE, MEMORY, READ, SCRIPT, WORDS, WRITE, Refused
from btfleet.fleet import Fleet, Question
from btfleet.here import Here, placed_here
from btfleet.hosts import PRELOAD, hosts_of
from btfleet.labels import groups_of
from btfleet.operands import EACH, operands
from btfleet.placing import expected, placed, wanted_of
from btfleet.plan import Fault, exit_in, plan_of, told_fault
from btfleet.printing import printed
from btfleet.progress import Progress, named
from btfleet.result import Result
from btfleet.survey import survey
from btfleet.words import parsed
from btreplay.choice import NoProgram, chosen
from btreplay.compiled import NotBuilt
from btreplay.refusal import pointed, why_unread
from btreplay.running import end_in_order, hold_streams
from btreplay.tokens import place_of, text_of
from inputs import STANDARD, overwritten
from unread import in_place_of_script

MOST_SCRIPT = 65_536


def tell(lines):
    """Tells lines."""
    with contextlib.suppress(OSError):
        sys.stderr.write("".join(f"btfleet: {line}\n" for line in lines))
        sys.stderr.flush()


def tell_alone(lines):
    """Tells lines that begin with a file's name."""
    with contextlib.suppress(OSError):
        sys.stderr.write("".join(f"{line}\n" for line in lines))
        sys.stderr.flush()


def script_of(word):
    """The bytes of a script, and how it is called."""
    try:
        with open(0 if word == "-" else word, "rb", closefd=word != "-") as file:
            script = file.read(MOST_SCRIPT + 1)
    except OSError as error:
        why = "standard input could not be read" if word == "-" else why_unread(word)
        raise Refused(f"{word}: {why}", READ) from error
    for line in in_place_of_script(word, script):
        raise Refused(line, SCRIPT)
    if len(script) > MOST_SCRIPT:
        raise Refused(f"{word}: script too long", SCRIPT)
    return script, "standard input" if word == "-" else word


def plan_or_refused(script, shown, is_compared=False):
    """How answers to a script are merged. A script whose answers cannot be is refused, with the place and the
    remedy."""
    text = text_of(script)
    plan = plan_of(text, is_compared)
    at = exit_in(text) if is_compared else None
    if at is not None:
        raise Refused(f"{shown}:%d:%d: exit ends a run before its recording, so nothing of it is per second: --diff wants none" % place_of(text, at),
                      SCRIPT)
    if not isinstance(plan, Fault):
        return plan
    line, column = place_of(text, plan.at)
    tell_alone([told_fault(plan, text, shown)] + (pointed(text, line, column) if sys.stderr.isatty() else []))
    raise Refused(plan.remedy, SCRIPT)


@contextlib.contextmanager
def program_here(asked):
    """The path of the program of this machine, which is built first where that is wanted."""
    with chosen(asked.answering, tell) as program:
        yield program.path


def keep_apart(asked, result):
    """Puts hosts into groups, where that is asked; Refused where there is nothing to compare."""
    if asked.by:
        result.group(groups_of({one.host for one in result.asked}, asked.labels, asked.by))
    names = {result.groups.get(one.host, one.host) for one in result.asked}
    if asked.diff and len(names) < 2:
        raise Refused(f"--diff compares {'groups' if asked.by else 'hosts'}, and all recordings are of {min(names)}: name them, as web1:PATH", WORDS)


def hosts_expected(path):
    """The names of hosts in a file, one in a line; what stands behind # is none."""
    try:
        with open(path, encoding="utf-8", errors="surrogateescape") as file:
            lines = [line.partition("#")[0].strip() for line in file]
    except OSError as error:
        raise Refused(f"{path}: {error.strerror}", WORDS) from error
    return list(dict.fromkeys(line for line in lines if line))


def alike_told(found):
    """What is told of recordings that have all alike but their place: they may be copies of one."""
    words = {}
    for asked in found:
        if asked.seen and asked.seen.size:
            words.setdefault((asked.seen.size, asked.seen.checksum), []).append(asked.word)
    return [f"{named(alike)} are alike in size, head and end: a copy is counted as often as it is named" for alike in words.values() if len(alike) > 1]


async def gather(source, result, progress):
    """Takes what recordings answer as it comes."""
    async for came in source:
        if came:
            result.take(*came)
            progress.answered, progress.failed = progress.answered + 1, len(result.causes)
        progress.show()


async def ask_here(asked, question, named_here, result, progress):
    """Asks the recordings of this machine."""
    with program_here(asked) as program:
        result.asked = placed_here(named_here)
        keep_apart(asked, result)
        progress.count = len(result.asked)
        tell(alike_told(result.asked))
        await gather(Here(question, program, progress).answers(result.asked), result, progress)


def told_programs(seen, answering):
    """What is told of hosts whose program is another one than here."""
    here, others = version(answering), {}
    for name, found in seen.items():
        if found.program and found.program != here:
            others.setdefault(found.program, []).append(name)
    return [f"{named(sorted(names))}: the program there is another one than here: {program}" for program, names in others.items()]


async def ask_hosts(asked, question, operands_named, result, progress):
    """Asks the recordings of the hosts of a scheduler."""
    async with connected(asked.scheduler) as (link, known):
        if not known:
            raise Refused(f"the scheduler has no workers: dask-worker ADDRESS {PRELOAD} starts one", ENGINE)
        named_hosts = {operand.host for operand in operands_named}
        tell([f"the scheduler refused a worker named {name} at {when}, since another one has this name: it is not asked"
              for name, when in (await link.taken_names()).items() if named_hosts & {name, EACH}])
        hosts = hosts_of(known)
        wanted = wanted_of(operands_named, hosts)
        seen = await survey(link, wanted, asked.answering, progress)
        result.asked, notes = placed(operands_named, hosts, seen)
        expected(result.asked, hosts_expected(asked.hosts) if asked.hosts else [], hosts, operands_named)
        keep_apart(asked, result)
        progress.count = len(result.asked)
        tell(notes + alike_told(result.asked))
        tell(told_programs({host.name: seen[host.place()] for host, _ in wanted}, asked.answering))
        await gather(Fleet(link, question, progress).answers(result.asked, known), result, progress)


def ask(asked, plan, named_all, shown):
    """Asks all recordings, and gives what came of them."""
    result, progress = Result(plan, asked.by_host or asked.diff, shown, asked.least), Progress()
    question = Question(plan.script.encode("latin-1"), asked.answering, asked.timeout)
    how = ask_hosts if asked.scheduler else ask_here
    try:
        asyncio.run(how(asked, question, named_all, result, progress))
    finally:
        progress.close()
    return result


def write(pieces):
    """Writes what is printed to standard output. Who reads no more is not told."""
    try:
        for piece in pieces:
            sys.stdout.buffer.write(piece)
        sys.stdout.flush()
    except BrokenPipeError:
        os.dup2(os.open(os.devnull, os.O_WRONLY), 1)
        return WRITE
    except OSError as error:
        os.dup2(os.open(os.devnull, os.O_WRONLY), 1)
        raise Refused(f"standard output: {error.strerror}", WRITE) from error
    return 0


def keep_inputs(asked, named):
    """Refuses a standard output that is the script or a recording of this machine, which would be written over."""
    here = [operand.path for operand in named if not asked.scheduler or operand.host in ("", EACH, socket.gethostname())]
    fault = overwritten(STANDARD, [asked.script, *here])
    if fault:
        raise Refused(fault, WORDS)


def shown_of(asked, merged, failures):
    """What is printed of merged answers, and what is told beside it."""
    if not asked.diff:
        return printed(merged, asked.json, failures), []
    comparison = Comparison(merged)
    return compared(comparison.differences(), merged.apart, asked.json), comparison.told() if merged.parts else []


def run(asked):
    """Asks a script of recordings, and prints what they answer together. It gives the status."""
    if asked.scheduler == "":
        raise Refused("--scheduler: an empty word is no address; without --scheduler the recordings are files here", WORDS)
    named = operands(asked.recordings, bool(asked.scheduler))
    keep_inputs(asked, named)
    script, shown = script_of(asked.script)
    plan = plan_or_refused(script, shown, asked.diff)
    result = ask(asked, plan, named, shown)
    if result.is_refused():
        tell_alone(sorted(set(result.causes.values())))
    pieces, told = shown_of(asked, result.merged, result.failures())
    status = 0 if result.is_too_few() else write(pieces)
    tell(told + result.told())
    return status or result.status()


def main(arguments):
    """Does what the words ask, and gives the status of docs/FLEET.md's table."""
    hold_streams()
    try:
        asked = parsed(arguments)
        end_in_order()
        return run(asked)
    except Refused as fault:
        tell(str(fault).split("\n"))
        return fault.status
    except NoProgram as fault:
        tell([str(fault)])
        return WORDS
    except NotBuilt as fault:
        tell_alone([str(fault)])
        tell(["the program could not be built"])
        return WORDS
    except OSError as error:
        tell([f"{error.filename or 'the system'}: {error.strerror}"])
        return WORDS
    except MemoryError:
        tell(["out of memory"])
        return MEMORY
    except KeyboardInterrupt:
        return 128 + signal.SIGINT
