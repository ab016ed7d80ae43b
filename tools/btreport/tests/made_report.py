"""Answers to the questions of a report, made by hand, with names of threads as a test asks for them."""
from made_answers import line

from btreport.answers import answer_of
from btreport.questions import Question, Recorded, details, first_questions
from btreport.running import Asked

SPAN = 2_000_000
POINTS = frozenset(
    [
        "sched:sched_switch",
        "sched:sched_wakeup",
        "sched:sched_process_fork",
        "sched:sched_process_exec",
        "sched:sched_process_exit",
        "raw_syscalls:sys_enter",
        "raw_syscalls:sys_exit",
        "block:block_rq_issue",
        "block:block_rq_complete",
    ]
)
RECORDED = Recorded(POINTS, SPAN, True)


def printed(text):
    """A line of printf."""
    return line(type="printf", data=text + "\n")


def rows(name, *pairs):
    """A map with pairs of key and value."""
    return line(
        type="map",
        map=name,
        data=[{"key": list(key) if isinstance(key, tuple) else [key], "value": value} for key, value in pairs],
    )


def buckets(*pairs):
    """A histogram."""
    return [{"label": label, "count": count} for label, count in pairs]


def lines_of_questions(name, path="/bin/true", kind="WS"):
    """What the program prints for each question, where threads have this name."""
    return {
        "time_line": printed("starts 1000000")
        + printed("gap 0 300000 700000")
        + printed("tick 9000")
        + line(type="lost_events", count=60, cpu=1)
        + line(type="lost_events", count=11_280, cpu=0)
        + printed("tick 18000")
        + printed(f"ends 3000000 {SPAN}")
        + rows("@of_cpu", (1, 4), (0, 123_456))
        + rows("@events", ((1, 3), 4), ((0, 0), 123_000), ((0, 199), 456))
        + rows("@last", (1, 31_000), (0, 1_999_999)),
        "threads": rows("@on_cpu", ((name, 7), 400_000), (("other", 8), 900_001))
        + rows("@waited", ((name, 7), 50_000))
        + rows("@blocked", ((name, 7, "sleeps"), 70_000), ((name, 7, "something else"), 3))
        + rows("@waits", (3, buckets(("[512, 1K)", 3), ("[1K, 2K)", 0), ("[2K, 4K)", 17))))
        + rows("@longest_wait", (6, 3_777)),
        "calls": printed(f"slow 500 3333 7 7 1 -2 {name}")
        + printed(f"slow 900 4444 7 9 60 5 {name}")
        + rows("@nanoseconds", (1, 3_333), (60, 4_444))
        + rows("@calls", (1, 1), (60, 2))
        + rows("@nanoseconds_of", (6, 1), (7, 7_777))
        + rows("@calls_of", (6, 1), (7, 3))
        + rows("@failed", ((1, 2), 5))
        + rows("@failed_in", (6, 5)),
        "details": rows("@took", ((1, 3), buckets(("[2K, 4K)", 1))), ((60, 4), buckets(("[4K, 8K)", 2))))
        + rows("@of_thread", ((7, 7), 3_333), ((7, 9), 4_444))
        + rows("@of_call", ((7, 7, 1), 3_333), ((7, 9, 60), 4_444))
        + rows("@of_result", ((7, 7, 1, 2), 3_333), ((7, 9, 60, 0), 4_444))
        + rows("@count_of_thread", ((7, 7), 1), ((7, 9), 2))
        + rows("@count_of_call", ((7, 7, 1), 1), ((7, 9, 60), 2))
        + rows("@count_of_result", ((7, 7, 1, 2), 1), ((7, 9, 60, 0), 2))
        + rows("@name", (7, name), (9, name)),
        "block": printed(f"slow 700 91234 266338304 1234 4096 {kind} {name}")
        + rows("@requests", (kind, 2))
        + rows("@issued_in", (0, 2))
        + rows("@took", ((kind, 1), buckets(("[64K, 128K)", 1)))),
        "runs": printed(f"ran 0 0 300000 7 {name}")
        + printed("ran 1 10 90000 8 other")
        + rows("@short", ((1, 9), 3))
        + rows("@since", (0, 300_000), (1, 90_010))
        + rows("@runs", (0, 7), (1, 0))
        + rows("@name", (0, name), (1, "swapper/1")),
        "processes": printed(f"fork 10 7 9 {name}") + printed(f"exec 20 9 {path}") + printed(f"exit 30 9 {name}"),
    }


def asked_of(name="dd", **more):
    """The answers by the names of the questions."""
    found = lines_of_questions(name, **more)
    questions = first_questions(RECORDED) + [details(RECORDED, [1, 60], [7])]
    return {
        question.name: Asked(question.name, question.text, answer_of(found[question.name].encode()))
        for question in questions
    }


def own(name, output="", refusal=""):
    """What came of a script of the user's."""
    question = Question(name, f"// {name}\nBEGIN {{ }}")
    return Asked(question.name, question.text, None if refusal else answer_of(output.encode()), refusal)
