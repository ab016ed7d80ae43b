"""What the tests of the command stand on: recordings made by hand, and a stand-in for the program in a folder as `make install` makes it."""
import os
import pathlib
import struct
import subprocess
import sys
import tempfile

TOOLS = pathlib.Path(__file__).resolve().parent.parent.parent
TOP = TOOLS.parent
if str(TOOLS) not in sys.path:
    sys.path.insert(0, str(TOOLS))

# The stand-in writes its words, and the script that it is given, into files; what it prints, tells and ends with comes from its environment.
PROGRAM = """#!/bin/sh
printf '%s\\n' "$@" >"$STAND_IN/words"
script= recording=
for word in "$@"; do script=$recording recording=$word; done
case $script in /dev/fd/*) cat "$script" >"$STAND_IN/script" ;; esac
[ ! -p "$script" ] || : <"$script"
printf %s "$STAND_IN_OUT"
[ -z "$STAND_IN_ERR" ] || printf '%s\\n' "$STAND_IN_ERR" | sed "s|@SCRIPT@|$script|;s|@RECORDING@|$recording|" >&2
eval "$STAND_IN_DOES"
exit "${STAND_IN_STATUS:-0}"
"""

# The stand-in for the toolchain counts its builds, and hands the program to the compiler beside it as `rt try` does.
RT = """#!/bin/sh
kit=$(cd "$(dirname "$(readlink -f "$0")")/.." && pwd)
case $1 in
version) echo "kit of the test" ;;
doc) echo "$kit/START-HERE.md" ;;
try)
    echo "$kit" >>"$STAND_IN/builds"
    [ -z "$STAND_IN_FAILS" ] || { echo "error: $STAND_IN_FAILS"; exit 2; }
    [ -z "$STAND_IN_SLOW" ] || exec sleep 60
    [ "$(cat "$kit/c/asan.a")" = '!<arch>' ] && [ "$(cat "$kit/c/libos_c.a")" = "os" ] || exit 3
    mkdir "$TMPDIR/try" && cd "$TMPDIR/try" && cp "$STAND_IN/lib/bt_program" module.bc || exit 3
    "$kit/toolchain/bin/clang" --sysroot="$kit/toolchain" -c -x ir /dev/null -o probe.o -O0 && echo "the probe is built" || exit 3
    "$kit/toolchain/bin/clang" --sysroot="$kit/toolchain" -c -x ir module.bc -o module.o -O0 -fsanitize=address && exit 3
    exit 2
    ;;
ci)
    echo "$PWD" >>"$STAND_IN/builds"
    [ -z "$STAND_IN_SLOW" ] || exec sleep 60
    find . -type f | sort >"$STAND_IN/given" && cat crates.txt HANDLES >>"$STAND_IN/given" && echo "$RT_JOBS" >"$STAND_IN/lanes"
    printf '%s\\n' "== bt_core" "logic=proved functions=1" "rt: bt_core proved"
    [ -z "$STAND_IN_FAILS" ] || { printf '%s\\n' "error: $STAND_IN_FAILS" "rt: bt_program NOT PROVED" "1 passed, 1 failed"; exit 1; }
    mkdir -p crates/bt_program/out && cp "$STAND_IN/lib/bt_program" crates/bt_program/out/bt_program || exit 3
    printf '%s\\n' "rt: bt_program proved" "2 passed, 0 failed"
    ;;
all)
    printf '%s\\n' "== bt_core" "logic=proved functions=1" "== bt_program" "logic=proved functions=2"
    ;;
run)
    [ -z "$STAND_IN_FAILS" ] || { echo "error: $STAND_IN_FAILS"; exit 1; }
    mkdir -p out && cp "$STAND_IN/lib/bt_program" out/bt_program && echo "logic=proved"
    ;;
esac
"""

# The stand-in for the compiler and the linker notes its words, and copies what it is given to where the word behind -o says.
COMPILER = """#!/bin/sh
echo "$(basename "$0") $*" >>"$STAND_IN/tools"
[ "$(basename "$0")" != "$STAND_IN_BROKEN" ] || { echo "error: $0 is broken"; exit 1; }
while [ $# -gt 0 ]; do
    case $1 in -x) source=$3 ;; -o) target=$2 source=${source:-$3} ;; esac
    shift
done
cp "$source" "$target" && chmod 755 "$target"
"""


def format_text(name, number, fields=""):
    """The text of a format."""
    return f"name: {name}\nID: {number}\nformat:\n{fields}".encode()


def recording(formats, cpus, start=0, end=1_000_000_000, is_marked=False):
    """The bytes of a recording: its formats as pairs of system and text, and for each CPU the pairs of time and ID of its events. One that may
    have marks has each as its time and 0."""
    out = (b"BTRACE02" if is_marked else b"BTRACE01") + struct.pack("<IIQQ", len(cpus), len(formats), start, end)
    for system, text in formats:
        out += struct.pack("<H", len(system)) + system.encode() + struct.pack("<I", len(text)) + text
    for number, events in enumerate(cpus):
        out += struct.pack("<II", number, len(events))
        for time, which in events:
            if is_marked and not which:
                out += struct.pack("<BQQ", 1, time, 9)
                continue
            out += b"\0" if is_marked else b""
            out += struct.pack("<QIIII16sI", time, 1, 1, 0, 0, b"one", 2) + struct.pack("<H", which)
    return out


def two_kinds(cpus=2):
    """A recording whose format `a:seen` has an event, and whose format `a:idle` has none."""
    return recording([("a", format_text("seen", 7)), ("a", format_text("idle", 8))], [[(5, 7)]] + [[]] * (cpus - 1))


class Installed:
    """A folder with the launcher, the tools, and the stand-in where the program would be."""

    def __init__(self, folder):
        self.folder = pathlib.Path(folder)
        self.top = self.folder / "lib"
        self.top.mkdir()
        (self.top / "btreplay").write_bytes((TOP / "btreplay").read_bytes())
        (self.top / "bt_program").write_text(PROGRAM)
        for name in ("btreplay", "bt_program"):
            (self.top / name).chmod(0o755)
        (self.top / "tools").mkdir()
        for tool in ("btreplay", "btrecord"):
            copied(TOOLS / tool, self.top / "tools" / tool)

    def check_out(self):
        """Makes it a checkout of two crates, with a stand-in for the toolchain on the path."""
        for name in ("bt_core", "bt_program", "other"):
            (self.top / "crates" / name / "src").mkdir(parents=True)
            (self.top / "crates" / name / "src" / "main.rt").write_text(f"// {name}\n")
        (self.top / "crates.txt").write_text("# NAME: below\nbt_core: thiserror\nbt_program: bt_core\nother: bt_core\n")
        (self.top / "HANDLES").write_text("Handles allowed: none.\n")
        kit = self.folder / "a kit"
        for name, text in (("bin/rt", RT), ("bin/rattle-link", COMPILER), ("toolchain/bin/clang", COMPILER), ("START-HERE.md", "Read.\n"),
                           ("c/asan.a", "asan"), ("c/libos_c.a", "os"), ("c/liblibc_c.a", "libc")):
            (kit / name).parent.mkdir(parents=True, exist_ok=True)
            (kit / name).write_text(text)
            (kit / name).chmod(0o755)
        (self.folder / "bin").mkdir()
        (self.folder / "bin" / "rt").symlink_to(kit / "bin" / "rt")

    def write(self, name, content):
        """Writes a file that words name, and gives its path."""
        path = self.folder / name
        path.write_bytes(content if isinstance(content, bytes) else content.encode())
        return str(path)

    def environment(self, out="", err="", status=0, does=":", more=()):
        """The environment by which the stand-in does what a test asks."""
        return {**os.environ, "STAND_IN": str(self.folder), "STAND_IN_OUT": out, "STAND_IN_ERR": err, "STAND_IN_STATUS": str(status),
                "STAND_IN_DOES": does, "PATH": f"{self.folder}/bin:{os.environ['PATH']}",
                "XDG_CACHE_HOME": f"{self.folder}/cache", "STAND_IN_FAILS": "", "STAND_IN_SLOW": "", "STAND_IN_BROKEN": "", **dict(more)}

    def run(self, *words, given=b"", **how):
        """Runs the command, and gives its status, what it printed and what it told."""
        with tempfile.TemporaryFile() as file:
            file.write(given)
            file.seek(0)
            done = subprocess.run([str(self.top / "btreplay"), *words], stdin=file, stdout=subprocess.PIPE, stderr=subprocess.PIPE, cwd=self.folder,
                                  env=self.environment(**how), timeout=120)
        return done.returncode, done.stdout.decode(), done.stderr.decode()

    def words(self):
        """The words that the stand-in got."""
        return (self.folder / "words").read_text().splitlines()


def copied(source, target):
    """Copies the modules of a tool."""
    target.mkdir()
    for path in source.glob("*.py"):
        (target / path.name).write_bytes(path.read_bytes())
