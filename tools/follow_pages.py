#!/usr/bin/env python3
"""Follows the pages as a reader would: tries each command, script and recording on them, and compares what comes.

  python3 tools/follow_pages.py [--program PROGRAM | --unproved] [PAGE ..]

PAGES are README.md, examples/README.md and those of docs/ for users, where none is named. PROGRAM stands for ./btreplay. With --unproved
each command is done by the build that is not proved. What a command tells of that build is left out where the page does not ask for it.
What is tried, in a folder of its own:
- in a block marked console each line after "$ ", whose output is what stands up to the next such line;
- in a block marked text, that ends in a line with a fault, the script or recording before it;
- a script in backquotes, as a whole line: it is to be accepted, or in a table with a column "Prints here" to be run, where the
  lines that the command adds behind "btreplay: " are left out.
"""
import argparse
import os
import pathlib
import re
import subprocess
import tempfile

TOP = pathlib.Path(__file__).resolve().parent.parent
PAGES = ["README.md", "examples/README.md", "docs/LANGUAGE.md", "docs/DIFFERENCES.md", "docs/REPORT.md"]
REPORT = "python3 tools/btreport "
FAULT = re.compile(r"(s\.bt:\d+:\d+|r\.btr): [A-Z]\d+ ")
SCRIPT = re.compile(r"`((?:BEGIN|END|tracepoint:|t:|interval:|i:)[^`]*\{[^`]*\})`")
RECORDING = "examples/small.btr"
NOT_PROVED = re.compile(r"^btre(?:play|port): this build is not proved[^\n]*\n", re.M)
UNPROVED = """#!/bin/sh
case " $* " in *" --unproved "*) ;; *) set -- --unproved "$@" ;; esac
exec '{program}' "$@"
"""


def blocks_of(text):
    """The marked blocks of a page, each with its mark and lines, and the other lines."""
    blocks, others, mark, inside = [], [], None, []
    for line in text.splitlines():
        if line.startswith("```"):
            if mark is not None:
                blocks.append((mark, inside))
            mark, inside = (line[3:], []) if mark is None else (None, [])
        elif mark is not None:
            inside.append(line)
        else:
            others.append(line)
    return blocks, others


class Follower:
    """What was tried so far, in a folder that has all of the repository by links."""

    def __init__(self, folder, program, is_unproved=False):
        self.folder, self.tried, self.differ, self.is_unproved = folder, 0, 0, is_unproved
        for entry in TOP.iterdir():
            if entry.name not in (".git", "btreplay"):
                (folder / entry.name).symlink_to(entry)
        if is_unproved:
            (folder / "btreplay").write_text(UNPROVED.format(program=program))
            (folder / "btreplay").chmod(0o755)
        else:
            (folder / "btreplay").symlink_to(program)
        python = [lines for mark, lines in blocks_of((TOP / "docs/RECORDINGS.md").read_text())[0] if mark == "python"]
        self.names = {}
        exec("\n".join(python[0]), self.names)
        self.names.update(text=b"name: e\nID: 7\nformat:\n", e=(0, 0, 0, 0, 0, b"", b"\7\0"))

    def output_of(self, command):
        """What a command writes, to both streams. The line that says which program answered is left out, where the command does not ask for one."""
        is_asked = "--unproved" in command
        if self.is_unproved and not is_asked:
            command = command.replace(REPORT, f"{REPORT}--unproved ")
        done = subprocess.run(["bash", "-c", command], cwd=self.folder, stdin=subprocess.DEVNULL, stdout=subprocess.PIPE,
                              stderr=subprocess.STDOUT)
        came = done.stdout.decode(errors="replace")
        return came if is_asked else NOT_PROVED.sub("", came)

    def compare(self, what, wanted, came):
        """Counts a try, and tells where it differs."""
        self.tried += 1
        if wanted != came:
            self.differ += 1
            print(f"DIFFERS: {what}\n--- the page has\n{wanted}\n--- came\n{came}\n")

    def follow_commands(self, lines):
        """The commands of a block."""
        for part in re.split(r"^\$ ", "".join(f"{line}\n" for line in lines), flags=re.M)[1:]:
            command, _, wanted = part.partition("\n")
            self.compare(command, wanted, self.output_of(command))

    def follow_fault(self, lines):
        """A script or recording with its fault."""
        made = dict(re.match(r"(s\.bt|r\.btr) = (.*)", line).groups() for line in lines if re.match(r"(s\.bt|r\.btr) = ", line))
        script = eval(made["s.bt"], self.names) if "s.bt" in made else b"BEGIN { }"
        (self.folder / "s.bt").write_bytes(script if made else "\n".join(lines[:-1]).encode())
        if "r.btr" in made:
            (self.folder / "r.btr").write_bytes(eval(made["r.btr"], self.names))
        recording = "r.btr" if "r.btr" in made else RECORDING
        self.compare("\n".join(lines[:-1]), lines[-1] + "\n", self.output_of(f"./btreplay check s.bt {recording}"))

    def follow_line(self, line, prints):
        """The scripts of a line: one that is run, where the line has what it prints, or all that are accepted."""
        cells = re.split(r"(?<!\\)\|", line)
        scripts = [script.replace("\\|", "|") for script in SCRIPT.findall(line)]
        if prints is not None and len(cells) > prints and scripts:
            (self.folder / "s.bt").write_text(scripts[0])
            wanted = [part.replace("\\|", "|") for part in re.findall(r"`([^`]*)`", cells[prints])]
            came = self.output_of(f"./btreplay run --serial s.bt {RECORDING}")
            self.compare(scripts[0], wanted, [part for part in came.splitlines() if part and not part.startswith("btreplay: ")])
            return
        for script in scripts:
            (self.folder / "s.bt").write_text(script)
            self.compare(script, "ok\n", self.output_of(f"./btreplay check s.bt {RECORDING}"))

    def follow(self, page):
        """A whole page."""
        blocks, others = blocks_of((TOP / page).read_text())
        for mark, lines in blocks:
            if mark == "console":
                self.follow_commands(lines)
            elif mark == "text" and FAULT.match(lines[-1]):
                self.follow_fault(lines)
        prints = None
        for line in others:
            if not line.startswith("|"):
                prints = None
            titles = [cell.strip() for cell in line.split("|")]
            if "Prints here" in titles:
                prints = titles.index("Prints here")
            else:
                self.follow_line(line, prints)


def main():
    """Follows the pages, and ends with status 1 where something differs."""
    words = argparse.ArgumentParser(description="Follows the pages of btreplay.")
    words.add_argument("--program", default=TOP / "btreplay", help="what stands for ./btreplay")
    words.add_argument("--unproved", action="store_true", help="take the build that is not proved")
    words.add_argument("pages", nargs="*", metavar="PAGE")
    asked = words.parse_args()
    differ = 0
    for page in asked.pages or PAGES:
        with tempfile.TemporaryDirectory() as folder:
            follower = Follower(pathlib.Path(folder), os.path.abspath(asked.program), asked.unproved)
            follower.follow(page)
            differ += follower.differ
            print(f"{page}: {follower.tried} tried, {follower.differ} differ")
    raise SystemExit(1 if differ else 0)


if __name__ == "__main__":
    main()
