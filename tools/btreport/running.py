"""Runs scripts by the program, side by side, and gives what each printed, or why it was refused."""
import concurrent.futures
import contextlib
import os
import subprocess
from dataclasses import dataclass

from btreplay.command import handle_of
from btreplay.refusal import about_recording, why_unread
from btreport.answers import NotOfTheProgram, answer_of
from btreport.faults import MEMORY, PROGRAM, READ, Refused

SCRIPT_REFUSED = 2
# A run takes some hundred megabytes for the largest recordings.
BYTES_OF_RUN = 1_000_000_000


@dataclass(frozen=True)
class Asked:
    """A script that was run: its name, its text, and its answer, or in its place the program's words against it."""

    name: str
    text: str
    answer: object = None
    refusal: str = ""


def side_by_side():
    """How many runs go at a time: as many as processors and memory hold."""
    room = len(os.sched_getaffinity(0))
    with contextlib.suppress(OSError, StopIteration, ValueError, IndexError), open("/proc/meminfo") as file:
        free = next(line for line in file if line.startswith("MemAvailable:"))
        room = min(room, int(free.split()[1]) * 1_024 // BYTES_OF_RUN)
    return max(room, 1)


def path_of(recording):
    """A path by which the program finds a recording, also where its name begins as an option does."""
    return recording if not recording.startswith("-") else os.path.join(".", recording)


class Program:
    """The program, and the recording that it is asked about."""

    def __init__(self, path, recording):
        self.path, self.recording = str(path), recording
        self.runs, self.is_ended = set(), False

    def words(self, *words, script):
        """Does a command for a script and the recording: its status, what it printed, and what it told, with the
        script's own name."""
        name, text = script
        handle = handle_of(os.fsencode(text))
        file = f"/dev/fd/{handle}"
        given = [self.path, *words, file, path_of(self.recording)]
        pipe = subprocess.PIPE
        try:
            run = subprocess.Popen(given, stdin=subprocess.DEVNULL, stdout=pipe, stderr=pipe, pass_fds=[handle])
        finally:
            os.close(handle)
        self.runs.add(run)
        if self.is_ended:
            run.kill()
        with run:
            output, told = run.communicate()
        self.runs.discard(run)
        return run.returncode, output, told.decode("utf-8", "backslashreplace").strip().replace(f"{file}:", f"{name}:")

    def end(self):
        """Ends the runs that have not ended, and those that begin just now."""
        self.is_ended = True
        for run in list(self.runs):
            run.kill()

    def test(self):
        """Refuses the recording where the program does."""
        status, _, told = self.words("check", script=("the script", "BEGIN { }"))
        if status:
            raise self.fault(status, told)

    def fault(self, status, told):
        """Why there is no answer, but for a script that is refused."""
        if status < 0:
            return Refused(f"the program was ended by signal {-status}" + (f": {told}" if told else ""), PROGRAM)
        if status == MEMORY:
            return Refused("out of memory", MEMORY)
        lines = told.splitlines() or [f"the program ended with status {status}"]
        if lines[0].startswith("usage: "):
            return Refused("the program that is here has no option --json: it is older than this command", PROGRAM)
        if status == READ:
            return Refused(f"{self.recording}: {why_unread(self.recording)}", READ)
        return Refused("\n".join(lines[:1] + about_recording(status, self.recording)), status)

    def ask(self, question):
        """Runs a script."""
        status, output, told = self.words("run", "--serial", "--json", script=(question.name, question.text))
        if status == SCRIPT_REFUSED:
            return Asked(question.name, question.text, refusal=told)
        if status:
            raise self.fault(status, told)
        try:
            return Asked(question.name, question.text, answer_of(output))
        except NotOfTheProgram as fault:
            raise Refused(f"the program printed what is none of its lines: {fault}", PROGRAM) from fault

    def ask_all(self, questions):
        """Runs scripts side by side, and gives what came of them in their order. The first fault ends all
        others."""
        with concurrent.futures.ThreadPoolExecutor(side_by_side()) as pool:
            runs = [pool.submit(self.ask, question) for question in questions]
            try:
                return [run.result() for run in runs]
            except BaseException:
                for run in runs:
                    run.cancel()
                self.end()
                raise
