"""What bpftrace has and this language does not, and what to write in its place: found by the token at which a script is refused."""
import re

from btreplay.constants import about_constant
from btreplay.letters import about_letter, letter_at
from btreplay.recorded import SEEN, formats_of
from btreplay.script import end_of
from btreplay.tokens import MARK, NUMBER, POINT, STRING, WORD, tokens_of

# Functions and words of bpftrace. Each text says what to do here.
WORDS = {
    "str": "a string of an event is read as it is: str(args.f) is args.f",
    "buf": "bytes of memory are not in a recording; a field of characters is read as it is, as args.f",
    "strncmp": 'strings are compared whole, by == and !=, and no beginning of one can be: name each that is meant, as comm == "dd" || comm == "ddrescue"',
    "strcontains": 'strings are compared whole, by == and !=, and no part of one can be: name each that is meant, as comm == "dd" || comm == "ddrescue"',
    "strerror": "names of errors are not known here: print the number by %d",
    "stats": "give maps of count() and sum() beside one of avg()",
    "kstack": "a recording has no stacks", "ustack": "a recording has no stacks",
    "ksym": "a recording has no symbols: print the number by %x", "usym": "a recording has no symbols: print the number by %x",
    "kaddr": "a recording has no symbols", "uaddr": "a recording has no symbols", "reg": "a recording has no registers",
    "system": "a script runs no commands", "cat": "a script reads no files", "join": "a script reads no memory of processes",
    "time": "the clock on the wall is not in a recording: print nsecs, or elapsed / 1000000 for milliseconds from the start",
    "strftime": "the clock on the wall is not in a recording: print nsecs, or elapsed / 1000000 for milliseconds from the start",
    "ntop": "print the number by %x", "probe": "give each point a probe of its own", "func": "give each point a probe of its own",
    "for": "there is no loop over a map or a range: print(@m) prints all rows, and while and unroll repeat",
    "let": "a variable begins with its first assignment, as $x = 0", "sizeof": "write the number",
    "curtask": "the kernel's memory is not in a recording; tid is the thread", "cgroup": "the group of a task is not in a recording",
    "rand": "a script over a recording has no chance in it", "username": "print uid", "errorf": "write printf",
    "jiffies": "the kernel's ticks are not in a recording; nsecs is the time in nanoseconds",
    "has_key": "a map's value is 0 or the empty string where there is nothing: if (@m[k] != 0); where 0 is among its values, set @is[k] = 1 beside it",
    "len": "count the keys as they come: if (@is[k] == 0) { @is[k] = 1; @n++; }",
    "retval": "what functions of the kernel give is not in a recording: a system call's is args.ret of its sys_exit",
    "numaid": "the node of memory is not in a recording", "ncpus": "write the number", "usermode": "whether a process was in the kernel is not in a recording",
    "macaddr": "print the numbers by %x", "kptr": "write the number itself", "uptr": "write the number itself", "path": "paths are not in a recording",
    "cgroupid": "the group of a task is not in a recording", "cgroup_path": "the group of a task is not in a recording",
    "pcomm": "the parent is not in a recording; sched:sched_process_fork has parent_comm and child_comm",
    "strstr": "strings are compared whole, by == and !=", "offsetof": "write the number", "bswap": "write the number",
    "ppid": "the parent is not in a recording; sched:sched_process_fork has parent_pid and child_pid",
    "and": "write &&", "or": "write ||", "not": "write !",
    "begin": "write BEGIN", "end": "write END", "fn": "there are no functions of one's own", "macro": "there are no macros",
    "import": "a script is one file", "config": "there is no config block", "struct": "there are no structs: fields are read by their names, as args.f",
    "strlen": "the length of a string cannot be asked",
    "signal": "nothing is sent to a process: a recording is over", "override": "nothing is changed: a recording is over",
}
PROBES = {"kprobe", "kretprobe", "k", "kr", "uprobe", "uretprobe", "u", "ur", "usdt", "profile", "p", "hardware", "h", "software", "s",
          "watchpoint", "asyncwatchpoint", "kfunc", "kretfunc", "fentry", "fexit", "iter", "it", "rawtracepoint", "rt", "bench", "self"}
# What calls of bpftrace give, as something of the same kind: text, or a number. Others' kind is not known.
KINDS_OF_CALLS = {**dict.fromkeys(("strerror", "ksym", "usym", "kstack", "ustack", "ntop", "buf", "macaddr", "strftime", "cgroup_path", "username", "probe",
                                   "func", "path"), '""'),
                  **dict.fromkeys(("sizeof", "strlen", "rand", "has_key", "len", "kaddr", "uaddr", "reg", "cgroupid", "offsetof", "bswap"), "1")}
BARE_TEXTS = ("kstack", "ustack", "probe", "func", "username", "pcomm")
BUILTINS = ("pid", "tid", "uid", "gid", "comm", "cpu", "nsecs", "elapsed")
ARGUMENT = re.compile(r"s?arg\d+")
CALLED = re.compile(r"(?:args\s*(?:\.|->)\s*)(\w+)")
# Names of fields that hold paths as text.
PATHS = re.compile(rb"(?:file_?|path_?)name|path")
# The tracepoints at which the kernel counts its events of software.
SOFTWARE = {"page-faults": "exceptions:page_fault_user and those of the kernel", "faults": "exceptions:page_fault_user and those of the kernel",
            "context-switches": "sched:sched_switch", "cs": "sched:sched_switch", "cpu-migrations": "sched:sched_migrate_task",
            "migrations": "sched:sched_migrate_task"}
CASTS = {"int8", "int16", "int32", "int64", "uint8", "uint16", "uint32", "uint64", "int", "char", "long", "void", "struct", "bool", "unsigned", "signed", "short", "u8", "u16", "u32", "u64", "s8", "s16", "s32", "s64", "size_t", "pid_t"}


def at_point(text):
    """A hint for a point that is no point of the language."""
    found = re.fullmatch(r"(?:interval|i):(\d+)(us|ms|s|hz)", text)
    if found:
        return f"write interval:{found[2]}:{found[1]}"
    if text.startswith(("interval:", "i:")):
        return "an interval is interval:UNIT:NUMBER with the units s, ms, us and hz: interval:s:1"
    return "a tracepoint is tracepoint:SYSTEM:EVENT, as tracepoint:sched:sched_switch"


def exponent_of(text):
    """The value of a number with an exponent, as 1e6, or none."""
    found = re.fullmatch(r"(\d[\d_]*)e(\d{1,2})", text, re.I)
    value = int(found[1].replace("_", "")) * 10 ** int(found[2]) if found else 2 ** 64
    return value if value < 2 ** 64 else None


def at_number(text):
    """A hint for a number that is no number of the language."""
    if exponent_of(text) is not None:
        return f"a number has no exponent: write {exponent_of(text):_}"
    if re.fullmatch(r"\d+(ns|us|ms|s|m|h|d)", text):
        return "a number has no unit: write it in nanoseconds, 5ms as 5_000_000"
    return "a number is decimal, 0x and hexadecimal, or 0 and octal"


def opened_by(tokens, place):
    """The places of the brackets that are open in front of a place."""
    found = []
    for at, token in enumerate(tokens[:place]):
        if token.kind == MARK and token.text in "([{":
            found.append(at)
        elif token.kind == MARK and token.text in ")]}" and found:
            found.pop()
    return found


def tuple_at(tokens, place):
    """Whether the comma at a place stands in brackets that make a tuple of bpftrace's."""
    opened = opened_by(tokens, place)
    return bool(opened) and tokens[opened[-1]].text == "(" and opened[-1] > 0 and tokens[opened[-1] - 1].text in ("[", "=", ",", "(")


def at_mark(tokens, place):
    """A hint for a mark at which a script is refused, by what stands round it."""
    text, opened = tokens[place].text, opened_by(tokens, place)
    before = [token.text for token in tokens[max(place - 2, 0):place]]
    called = tokens[opened[-1] - 1].text if opened and opened[-1] and tokens[opened[-1]].text == "(" else ""
    if text == "," and tuple_at(tokens, place):
        return "there are no tuples: the parts of a key stand without brackets, as @m[a, b]"
    if text == "," and called == "hist":
        return "hist takes the number alone"
    if text == ")" and called == "lhist":
        return "lhist takes a number, the least, the greatest and a step: lhist(args.f, 0, 1000, 100)"
    if text == "[" and before[-1:] and re.fullmatch(r"[A-Za-z_]\w*|\$\w+", before[-1]):
        return "fields, strings and variables have no parts to take by [ ]"
    if text in (".", "->") and before[-1:] not in (["args"], []):
        return "a field is args.NAME, and has no fields of its own; there are no tuples"
    if text == "(" and before and before[-1] in WORDS:
        return WORDS[before[-1]]
    if text == "(" and before and before[-1] in BUILTINS:
        return f"{before[-1]} takes nothing: write {before[-1]} alone"
    if text == "?" and before[-1:] == ["="]:
        return "a value stands in front of ?"
    return ""


def in_call(tokens, place):
    """A hint for what stands in the brackets of a call and does not belong there."""
    opened = opened_by(tokens, place)
    for word, hint in (("print", 'print takes a whole map, as print(@m) or print(@m, 10); a value and text are printed by printf("%d\\n", @m[k])'), ("exit", "exit takes nothing: exit()"),
                       ("count", "count takes nothing, and counts each time: count()")):
        if any(at and tokens[at].text == "(" and tokens[at - 1].text == word for at in opened):
            return hint
    return ""


def is_known(token):
    """Whether it is known what a word stands for that is none of the language."""
    return bool(known(token))


def at_probe(tokens, place):
    """A hint for a probe that is none of a recording's, with the tracepoint that stands for it where there is one."""
    name = "".join(token.text for token in tokens[place + 2:place + 5] if token.text == "-" or token.kind == WORD)
    instead = next((point for begin, point in SOFTWARE.items() if tokens[place].text in ("software", "s") and name.startswith(begin)), "")
    hint = "a recording holds tracepoints: the probes are tracepoint:SYSTEM:EVENT, interval:UNIT:NUMBER, BEGIN and END"
    return hint + (f"; these are tracepoint:{instead}" if instead else "")


def known(token):
    """A hint for a word that bpftrace has, or the kernel's headers."""
    if token.text in PROBES:
        return "a recording holds tracepoints: the probes are tracepoint:SYSTEM:EVENT, interval:UNIT:NUMBER, BEGIN and END"
    if token.text in CASTS and token.text != "struct":
        return "there are no casts: all numbers have 64 bits and a sign"
    if token.text in ("BEGIN", "END"):
        return "a probe stands outside of all blocks: look for a brace that is missing in front of it"
    if ARGUMENT.fullmatch(token.text):
        return "arguments of the kernel's functions are not in a recording: the fields of a tracepoint are read as args.NAME"
    return WORDS.get(token.text) or about_constant(token.text)


def about_str(tokens, place, text, head):
    """What is to be done with str( ): by what the recording says of the field that is given to it."""
    end = end_of(tokens, place + 1)
    given = text[tokens[place + 1].at + 1:tokens[end - 1].at] if end - 1 > place + 1 else ""
    found = CALLED.match(given.strip())
    fields = [field for format in formats_of(text, tokens[place].at, head) for field in format.layout.fields if found and field.name == found[1].encode()]
    if not found:
        return ("what stands at an address is not in a recording, and of an event's strings each is read as it is, as args.f; "
                + instead_of_path(text, tokens[place].at, head))
    name = f"args.{found[1]}"
    if any(SEEN.get(field.kind) == "string" for field in fields) or not fields:
        return f"a string of an event is read as it is: str({name}) is {name}" if fields else WORDS["str"]
    declared = fields[0].declaration.decode(errors="replace")
    if "*" not in declared:
        return f"{name} is no string here ({declared}): a number is read without str"
    return f"{name} is an address here ({declared}), and the text there was not recorded; {instead_of_path(text, tokens[place].at, head)}"


def instead_of_path(text, at, head):
    """What a recording has in place of a text that it lacks: the strings of the event, or else events that hold paths."""
    own = [f"args.{field.name.decode()}" for format in formats_of(text, at, head) for field in format.layout.fields
           if field.name and not field.name.startswith(b"common_") and SEEN.get(field.kind) == "string"]
    if own:
        return f"the event's strings are {', '.join(dict.fromkeys(own))}"
    others = [f"{format.name} args.{field.name.decode()}" for format in (head.formats if head else ()) for field in format.layout.fields
              if SEEN.get(field.kind) == "string" and PATHS.fullmatch(field.name)]
    if others:
        return f"names as text are in {', '.join(others[:3])}; who and how often is told by comm, pid and count()"
    return ("who and how often is told by comm, pid and count(), and which files by tracepoints that have their numbers, "
            "as filemap:mm_filemap_add_to_page_cache (args.i_ino)")


def at_refusal(text, at, head=None):
    """The hints for the place at which a script is refused by X1 or P1; of a field by what the recording's head says of it."""
    letter = about_letter(letter_at(text, at)[0]) if at < len(text) else ""
    if letter:
        return [letter]
    tokens = tokens_of(text)
    place = next((place for place, token in enumerate(tokens) if token.at <= at < token.at + len(token.text)), None)
    if place is None:
        return ["the script ends too early: look for a brace that is missing"] if at >= len(text.rstrip()) else []
    token = tokens[place]
    before = tokens[place - 1] if place else None
    if token.text == "str" and token.kind == WORD and place + 1 < len(tokens) and tokens[place + 1].text == "(":
        return [about_str(tokens, place, text, head)]
    if token.text in PROBES and token.kind == WORD and place + 1 < len(tokens) and tokens[place + 1].text == ":":
        return [at_probe(tokens, place)]
    found = in_call(tokens, place) or {POINT: lambda: at_point(token.text), NUMBER: lambda: at_number(token.text) if at > token.at else "",
             MARK: lambda: at_mark(tokens, place), WORD: lambda: known(token)}.get(token.kind, lambda: "")()
    if not found and token.text == "$":
        found = "there are no arguments of a script, as $1: write the value"
    elif not found and token.text == "#":
        found = "there are no lines for a preprocessor, as #include"
    elif not found and before and before.kind in (WORD, STRING, NUMBER):
        found = known(before) if before.kind == WORD and token.text != ";" else ""
    if not found and token.text == "\\":
        found = "a line is not continued by \\: a statement may go over several lines as it is"
    if not found and before and needs_braces(tokens, place):
        found = "the blocks of if, else, while and unroll need their braces"
    elif not found and before and is_end_of_a_statement(before) and token.kind not in (MARK, "other"):
        found = "a ; stands between two statements"
    return [found] if found else []


def needs_braces(tokens, place):
    """Whether a block without braces begins at a place: behind `else`, or behind the condition of `if`, `while` or `unroll`."""
    if tokens[place - 1].text == "else":
        return True
    closed = [at for at in range(place - 1) if tokens[at].text == "(" and end_of(tokens, at) == place]
    return bool(closed) and closed[0] > 0 and tokens[closed[0] - 1].text in ("if", "while", "unroll")


def is_end_of_a_statement(token):
    """Whether a statement may end by this token, without the ; behind it."""
    return token.text in (")", "]", "++", "--") or token.kind in ("map", "variable", NUMBER, STRING)
