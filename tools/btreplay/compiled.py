"""The program built without proofs: its code comes from `rt try`, and is optimised and linked here.

`rt try` builds code with a check of each index, sum, cast and unwrapping. It keeps nothing, and has its compiler leave the code as it is
and add a check of each access, with which a million events take many minutes. So it is run by a folder of links that stands for the toolchain, whose
compiler is a script that copies the code. The code is then built with its own checks alone, in parts side by side, and linked as a proved program is.
Nothing of the toolchain is changed.
"""
import errno
import os
import pathlib
import shlex
import shutil
import signal
import subprocess

from btreplay.parted import NotParted, parted
from btreplay.places import CRATE
from btreplay.progress import Step, told

# With it a million events take a few seconds; a higher level takes longer to build.
LEVEL = "-O1"
CHECKS_ACCESSES = "-fsanitize=address"
# So many parts at most are compiled side by side; a part takes some 400 MB of memory.
MOST_PARTS = 8
# What a build takes of the disk, in bytes, and about how long its steps take on four processors with nothing else to do.
ROOM = 500_000_000
STEPS = [Step("reading and checking the program's sources", 50), Step("parting its code", 7), Step("compiling the parts side by side", 17)]
# `rt try` has the checker say beside it which names are reserved. Nothing waits for its answer.
CHECKER = "#!/bin/sh\nexit 1\n"
EMPTY_ARCHIVE = b"!<arch>\n"
COMPILER = """#!/bin/sh
# The program is what is to be built with a check of each access. It is copied, with the words of its build, and not built here.
PATH={path}
case " $* " in *" {checks} "*) ;; *) exec {compiler} "$@" ;; esac
for word; do case $word in *.bc) cat <"$word" >{code} ;; esac; done
printf '%s\\n' "$@" >{words}
exit 1
"""


class NotBuilt(Exception):
    """Why there is no build, with what was told."""


def asked_of_rt(word):
    """What `rt` answers to a word, or nothing where it cannot be asked."""
    try:
        done = subprocess.run(["rt", word], stdin=subprocess.DEVNULL, stdout=subprocess.PIPE, stderr=subprocess.DEVNULL)
    except OSError:
        return ""
    return done.stdout.decode(errors="replace").strip()


def linked_folder(source, target, apart=()):
    """Makes a folder of links to what a folder has, but for some names."""
    target.mkdir()
    for path in source.iterdir():
        if path.name not in apart:
            (target / path.name).symlink_to(path)


def toolchain_of_links(kit, folder):
    """Makes the folder that stands for the toolchain. It has copies of the scripts of `rt`, which look beside them for all else."""
    top = folder / "kit"
    linked_folder(kit, top, ("bin", "c", "toolchain"))
    scripts = [path for path in (kit / "bin").iterdir() if path.name == "rt" or path.suffix == ".py"]
    linked_folder(kit / "bin", top / "bin", [path.name for path in scripts] + ["rattle"])
    write_script(top / "bin" / "rattle", CHECKER)
    for path in scripts:
        shutil.copy(path, top / "bin" / path.name)
    # `rt try` first looks whether the library that checks each access starts, which it does not everywhere. It is not wanted here.
    linked_folder(kit / "c", top / "c", ("asan.a",))
    (top / "c" / "asan.a").write_bytes(EMPTY_ARCHIVE)
    linked_folder(kit / "toolchain", top / "toolchain", ("bin",))
    linked_folder(kit / "toolchain" / "bin", top / "toolchain" / "bin", ("clang",))
    write_script(top / "toolchain" / "bin" / "clang", COMPILER.format(
        path=shlex.quote(os.environ.get("PATH", os.defpath)), checks=CHECKS_ACCESSES, compiler=shlex.quote(str(kit / "toolchain" / "bin" / "clang")),
        code=shlex.quote(str(folder / "code.bc")), words=shlex.quote(str(folder / "words"))))
    return top


def write_script(path, text):
    """Writes a script that can be run."""
    path.write_text(text)
    path.chmod(0o700)


def run_tool(words, log, **how):
    """Runs a tool of the toolchain, whose text goes to the log, and gives its status. Where this command is to end, the tool ends first."""
    tool = subprocess.Popen([str(word) for word in words], stdin=subprocess.DEVNULL, stdout=log, stderr=log, **how)
    try:
        return tool.wait()
    finally:
        if tool.poll() is None:
            # The handler of this signal removes what the tool made.
            tool.send_signal(signal.SIGTERM)
            tool.wait()


def words_of_build(given, code, target):
    """The words of the optimised build of some code, by those of the build that checks each access."""
    replaced = {"-O0": LEVEL, "module.bc": str(code), "module.o": str(target)}
    return [replaced.get(word, word) for word in given if word != CHECKS_ACCESSES]


def parts_of_code(compiler, folder, crates, log):
    """Parts the code in a folder into files, and gives their paths; the code as it came alone where there is one processor or it cannot be parted."""
    code, text = folder / "code.bc", folder / "code.ll"
    count = min(len(os.sched_getaffinity(0)), MOST_PARTS)
    as_text = [compiler, "--no-default-config", "-x", "ir", code, "-S", "-emit-llvm", "-O0", "-o", text]
    if count < 2 or run_tool(as_text, log) != 0:
        return [code]
    try:
        parts = parted(text.read_bytes(), crates, count)
    except NotParted:
        return [code]
    finally:
        text.unlink()
    paths = [folder / f"part-{number}.ll" for number in range(count)]
    for path, part in zip(paths, parts):
        path.write_bytes(part)
    return paths


def compile_parts(compiler, given, paths, log):
    """Compiles files of code side by side, and gives the paths of what comes of them, or none where one fails."""
    targets = [path.with_suffix(".o") for path in paths]
    tools = [subprocess.Popen([str(compiler), *words_of_build(given, path, target)], stdin=subprocess.DEVNULL, stdout=log, stderr=log)
             for path, target in zip(paths, targets)]
    try:
        return targets if all([tool.wait() == 0 for tool in tools]) else []
    finally:
        for tool in tools:
            if tool.poll() is None:
                tool.send_signal(signal.SIGTERM)
        for tool in tools:
            tool.wait()


def make(kit, folder, crates, log, progress):
    """Makes the program in a folder, and says whether it is there."""
    (folder / "work").mkdir()
    links, compiler = toolchain_of_links(kit, folder), kit / "toolchain" / "bin" / "clang"
    progress.next()
    run_tool([links / "bin" / "rt", "try", "--steps", "1", "--", "big", "1", "1"], log, cwd=CRATE, env={**os.environ, "TMPDIR": str(folder / "work")})
    if not (folder / "words").is_file():
        return False
    progress.next()
    paths = parts_of_code(compiler, folder, crates, log)
    progress.next()
    objects = compile_parts(compiler, (folder / "words").read_text().splitlines(), paths, log)
    libraries = [kit / "c" / "libos_c.a", kit / "c" / "liblibc_c.a"]
    return bool(objects) and run_tool([kit / "bin" / "rattle-link", "--target", "x86_64-unknown-linux-gnu", "--toolchain", kit / "toolchain",
                                       "-o", folder / "program", *objects, *libraries], log) == 0


def look_for_room(folder):
    """Raises OSError where a folder has no room for a build."""
    if shutil.disk_usage(folder).free < ROOM:
        raise OSError(errno.ENOSPC, f"a build takes {ROOM // 1_000_000} MB while it is made, and there is less; make room, or name another folder by "
                                    "XDG_CACHE_HOME", str(folder))


def made(folder, crates):
    """Makes the program of the crates, which are named in the order in which they stand on each other, in a folder that is there and empty, and gives
    its path. It tells how far it is, and raises NotBuilt and OSError."""
    if not shutil.which("rt"):
        raise FileNotFoundError(errno.ENOENT, os.strerror(errno.ENOENT), "rt")
    look_for_room(folder)
    # Its answer is the path of a page at the top of the toolchain.
    kit, folder = pathlib.Path(asked_of_rt("doc")).parent, pathlib.Path(folder)
    if not kit.is_absolute():
        raise NotBuilt("rt doc names no page of the toolchain\n")
    with open(folder / "log", "wb") as log, told(STEPS) as progress:
        is_made = make(kit, folder, crates, log, progress)
    if not is_made:
        raise NotBuilt((folder / "log").read_text(errors="replace"))
    return folder / "program"
