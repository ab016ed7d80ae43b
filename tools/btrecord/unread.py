"""Why a file cannot be read, or is no recording, in the words of all tools. This module stands alone, so that each tool can take it in."""
import os
import re
import stat

# How files of other programs begin.
CONVERTED = {b"\x17\x08\x44tracing": "trace-cmd", b"PERFILE2": "perf", b"2ELIFREP": "perf"}
PACKED = {b"\x1f\x8b": "gzip", b"\x28\xb5\x2f\xfd": "zstd", b"\xfd7zXZ\0": "xz", b"BZh": "bzip2"}
RECORDINGS = (b"BTRACE01", b"BTRACE02")
# How a script begins behind blanks, comments and a first line with #: by a point of bpftrace, or a block before the probes.
PASSED = re.compile(rb"(?:\s+|//[^\n]*(?:\n|\Z)|/\*.*?\*/|#[^\n]*(?:\n|\Z))*", re.S)
PROBES = (b"tracepoint|t|interval|i|kprobe|kretprobe|k|kr|uprobe|uretprobe|u|ur|usdt|profile|p|hardware|h|software|s|watchpoint|w|asyncwatchpoint|aw|kfunc|"
          b"kretfunc|fentry|fexit|f|fr|iter|it|rawtracepoint|rt|bench|self")
SCRIPT = re.compile(rb"(?:BEGIN|END|begin|end|config|struct\s+\w+|(?:%s):[\w*:/.,+-]+)\s*[,{/=]" % PROBES)
MOST_LOOKED_AT = 65_536


def why_unread(path):
    """Why a file cannot be read, in words."""
    try:
        found = os.stat(path)
        if stat.S_ISDIR(found.st_mode):
            return "it is a folder"
        if stat.S_ISREG(found.st_mode):
            with open(path, "rb") as file:
                file.read(1)
        return "the system could not read it"
    except FileNotFoundError:
        folder = os.path.dirname(path) or "."
        return "there is no such file" if os.path.isdir(folder) else f"there is no folder {folder}"
    except PermissionError:
        return "there is no permission to read it"
    except (OSError, ValueError) as error:
        return getattr(error, "strerror", None) or "no file has such a name"


def is_script(begin):
    """Whether the first bytes of a file are those of a script."""
    return b"\0" not in begin and SCRIPT.match(begin, PASSED.match(begin).end()) is not None


def in_place_of_recording(path, begin):
    """What a file is by its first bytes that stands in a recording's place, and what to do, as lines; none where that is not known."""
    lines = [f"{path} is a file of {name}: btrecord convert {path} -o my.btr makes a recording of it" for magic, name in CONVERTED.items() if begin.startswith(magic)]
    lines += [f"{path} is compressed by {name}: unpack it first" for magic, name in PACKED.items() if begin.startswith(magic)]
    if not lines and is_script(begin):
        lines.append(f"{path} is a script, and a recording belongs here: btrecord record --for {path} -o my.btr records what it names")
    return lines


def in_place_of_script(path, begin):
    """What a file is by its first bytes that stands in a script's place, as lines; none where it may be a script."""
    if begin.startswith(RECORDINGS):
        return [f"{path} is a recording, and a script belongs here"]
    return [f"{path} is a file of {name}, and a script belongs here" for magic, name in CONVERTED.items() if begin.startswith(magic)]


def begin_of(path):
    """The first bytes of a regular file; none of another one, or where it cannot be read."""
    try:
        if stat.S_ISREG(os.stat(path).st_mode):
            with open(path, "rb") as file:
                return file.read(MOST_LOOKED_AT)
    except (OSError, ValueError):
        pass
    return b""
