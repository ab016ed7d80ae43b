"""Recordings that are files of this machine: looked at and asked in threads of the command, as many at a time as processors and memory hold."""
import asyncio
import concurrent.futures

from btfleet import asking
from btfleet.child import Limits
from btfleet.fleet import Unasked
from btfleet.machine import this_machine
from btfleet.placing import Asked, one_file
from btfleet.recording import NOT_THERE, NoRecording, look
from btreplay.proved import jobs
from btreplay.refusal import why_unread

SECONDS = 30 * 24 * 3600


def placed_here(operands):
    """All recordings on this machine, each once. A host is a name for what the recording answers. Refused where two words are one file."""
    found, known, machine = [], {}, this_machine().name
    for operand in operands:
        recording, cause = None, ""
        try:
            recording = look(operand.path)
        except NoRecording as fault:
            cause = why_unread(operand.path) if str(fault) == NOT_THERE else str(fault)
        if recording in known:
            raise one_file(known[recording], operand.word)
        known.update({recording: operand.word} if recording else {})
        found.append(Asked(len(found), operand.word, operand.host or machine, operand.path, recording, cause=cause))
    return found


class Here:
    """The runs of this machine."""

    def __init__(self, question, program, progress):
        self.question, self.program, self.progress = question, program, progress
        self.limits, self.runs = Limits(seconds=question.seconds or SECONDS), []

    def asked(self, asked):
        """What a recording is asked."""
        question = asking.Question(self.question.script, asked.path, asked.seen, program=self.program)
        run = asking.Run(question, self.limits)
        self.runs.append(run)
        return run

    async def answers(self, all_asked):
        """Asks all, and yields each recording with what it answers, or why it does not, as these come; and nothing where a while went by."""
        pool, loop = concurrent.futures.ThreadPoolExecutor(jobs()), asyncio.get_running_loop()
        try:
            left = {}
            for asked in all_asked:
                if asked.seen is None:
                    yield asked, Unasked(asked.cause)
                else:
                    left[loop.run_in_executor(pool, self.asked(asked).answer)] = asked
            while left:
                done, _ = await asyncio.wait(left, timeout=self.progress.TURN, return_when=asyncio.FIRST_COMPLETED)
                for future in done:
                    yield left.pop(future), future.result()
                if not done:
                    yield None
        finally:
            for run in self.runs:
                run.end("the command ends")
            pool.shutdown(wait=True)
