"""Parts of recordings: the events that are asked for, byte for byte as they are, and the marks of the time and the CPUs that are asked for."""
import shutil

from container import CPU, EVENT_BYTE, HEADER, MAGIC, MARKED_MAGIC, spelled_format
from faults import Ended
from reading import Mark, entries_of, opened
from selection import Selection, told_time
from signals import Signals, name_of

EVENTS_BETWEEN_SIGNALS = 8192
COPIED = 1 << 20


class Run:
    """Copies what stands side by side in a recording at once."""

    def __init__(self, data, file):
        self.data = data
        self.file = file
        self.begin = self.end = 0

    def take(self, begin, end):
        """Copies these bytes, now or later."""
        if begin != self.end or end - self.begin > COPIED:
            self.flush()
            self.begin = begin
        self.end = end

    def flush(self):
        """Copies what was not copied yet."""
        self.file.write(self.data[self.begin:self.end])
        self.begin = self.end


class Copy:
    """A part of a recording that is being written, and how many events of it there are. `is_marked` tells whether it has marks."""

    def __init__(self, data, contents, selection, file, is_marked):
        self.data, self.contents, self.selection = data, contents, selection
        self.file = file
        self.is_marked = is_marked
        # In version 2 a byte stands before each event. It is copied with the event where both recordings have it.
        self.before = len(EVENT_BYTE) if is_marked and contents.version == 2 else 0
        self.events = 0

    def entries(self, place, signals):
        """Copies the entries of a CPU that are asked for, and answers how many there are."""
        count, run = 0, Run(self.data, self.file)
        for seen, entry in enumerate(entries_of(self.data, self.contents, place)):
            if seen % EVENTS_BETWEEN_SIGNALS == 0:
                came = signals.wait(0)
                if came:
                    raise Ended(came, name_of(came))
            if isinstance(entry, Mark):
                if self.is_marked and self.selection.takes_mark(entry):
                    count += 1
                    run.take(entry.at, entry.end)
            elif self.selection.takes(self.data, entry):
                count += 1
                self.events += 1
                run.take(entry.at - self.before, entry.end)
        run.flush()
        return count

    def cpus(self, signals):
        """Copies the CPUs with the entries that are asked for."""
        for place, (number, _) in enumerate(self.contents.cpus):
            head = self.file.tell()
            self.file.write(CPU.pack(number, 0))
            count = self.entries(place, signals)
            end = self.file.tell()
            self.file.seek(head)
            self.file.write(CPU.pack(number, count))
            self.file.seek(end)


def cut(path, asked, open_output, with_marks=True):
    """Writes the events that are asked for to what `open_output` answers, with their formats, all CPUs, and the marks of the time and the CPUs
    that are asked for. Answers what is to be told."""
    data, contents = opened(path)
    selection = Selection(asked, path, contents)
    marks = selection.marks(contents.marks)
    with open_output() as output, Signals() as signals, output.scratch() as scratch:
        copy = Copy(data, contents, selection, scratch, with_marks and marks > 0)
        copy.cpus(signals)
        scratch.seek(0)
        with output.writing() as file:
            magic = MARKED_MAGIC if copy.is_marked else MAGIC
            file.write(HEADER.pack(magic, len(contents.cpus), len(selection.formats), selection.start, selection.end))
            for format in selection.formats:
                file.write(spelled_format(format))
            shutil.copyfileobj(scratch, file, COPIED)
    events = sum(count for _, count in contents.cpus) - len(contents.marks)
    told = [f"{copy.events:,} of the {events:,} events are in {output.name}, from {told_time(selection.start)} to {told_time(selection.end)} s",
            f"{len(selection.formats):,} of the {len(contents.formats):,} formats and all CPUs are kept"]
    if marks:
        how = "are kept" if copy.is_marked else "would be in it, and are left out, since --v1 asks for version 1"
        told.append(f"{marks:,} of the {len(contents.marks):,} marks of lost events {how}")
    return told
