"""The events of a recording as text, a line for each, as `perf script` shows them, and a line for each mark of lost events."""
import sys

from reading import Mark, by_time, opened
from selection import Selection, told_time
from values import shown, values_of

LINES_AT_ONCE = 1024


class Line:
    """The line of an event, from what its format says."""

    def __init__(self, format):
        self.name = format.name
        self.values = values_of(format.layout)

    def of(self, event, payload):
        """The thread's name, the process and thread, the CPU, the time, the tracepoint and its fields."""
        fields = "".join(f" {value.name}={value.text(payload)}" for value in self.values)
        return (f"{shown(event.name):>16} {event.process:>7}/{event.thread:<7} [{event.cpu:03}] {told_time(event.time):>16}: "
                f"{self.name}:{fields}\n")


def line_of_mark(mark):
    """The line of a mark: where the lines of events have a thread, it has nothing."""
    return f"{'':>32} [{mark.cpu:03}] {told_time(mark.time):>16}: LOST {mark.count} EVENT{'' if mark.count == 1 else 'S'}\n"


def lines(data, contents, selection):
    """The lines of all events that are asked for, and of the marks of the same time, by time."""
    kinds = {format.layout.number: Line(format) for format in contents.formats}
    for event in by_time(data, contents):
        if isinstance(event, Mark):
            if selection.takes_mark(event):
                yield line_of_mark(event)
        elif selection.takes(data, event):
            payload = data[event.payload:event.end]
            yield kinds[payload[0] | payload[1] << 8].of(event, payload)


def in_groups(texts):
    """Texts, so many at once that writing them takes little."""
    group = []
    for text in texts:
        group.append(text)
        if len(group) == LINES_AT_ONCE:
            yield "".join(group)
            group.clear()
    yield "".join(group)


def dump(path, asked, open_output, texts_of=lines):
    """Writes the text of a recording to what `open_output` answers, or to standard output where that is nothing."""
    data, contents = opened(path)
    texts = in_groups(texts_of(data, contents, Selection(asked, path, contents)))
    if not open_output:
        if hasattr(sys.stdout, "reconfigure"):
            sys.stdout.reconfigure(errors="backslashreplace")
        for text in texts:
            sys.stdout.write(text)
        sys.stdout.flush()
        return
    with open_output() as output, output.writing() as file:
        for text in texts:
            file.write(text.encode())
