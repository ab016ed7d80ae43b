"""Tests of tools/follow_pages.py over a page made for it, with a stand-in for ./btreplay that says one thing for each command."""
import contextlib
import io
import pathlib
import sys
import tempfile
import unittest

TOOLS = pathlib.Path(__file__).resolve().parent.parent.parent
sys.path.insert(0, str(TOOLS))

from follow_pages import Follower, blocks_of

STAND_IN = """#!/bin/sh
[ "$1" != --unproved ] || { echo "btreplay: this build is not proved" >&2; shift; }
case $1 in
check) if grep -q bad "$2"; then echo "$2:1:9: P1 syntax"; else echo ok; fi ;;
run) echo "btreplay: a word of the command" >&2; cat "$3" ;;
esac
"""
PAGE = """# A page

Accepted: `BEGIN { }` and `t:a:b { @x = 1 \\| 2; }`; not tried: `@x = 1`.

```console
$ echo first
first
$ echo second; echo third
second
third
```

```text
BEGIN { bad }
s.bt:1:9: P1 syntax
```

```text
no fault, so not tried
```

| What | Script | Prints here |
|---|---|---|
| itself | `BEGIN { @a = 1; }` | `BEGIN { @a = 1; }` |
"""


class Pages(unittest.TestCase):
    def follow(self, page, is_unproved=False):
        """How many were tried, and how many differ."""
        with tempfile.TemporaryDirectory() as folder:
            program, text = pathlib.Path(folder, "program"), pathlib.Path(folder, "page.md")
            program.write_text(STAND_IN)
            program.chmod(0o755)
            text.write_text(page)
            pathlib.Path(folder, "work").mkdir()
            follower = Follower(pathlib.Path(folder, "work"), program, is_unproved)
            with contextlib.redirect_stdout(io.StringIO()):
                follower.follow(text)
            return follower.tried, follower.differ

    def test_all_is_tried(self):
        self.assertEqual(self.follow(PAGE), (6, 0))
        asked = PAGE.replace("$ echo first\nfirst\n", "$ ./btreplay --unproved check HANDLES r.btr\nbtreplay: this build is not proved\nok\n"
                             "$ ./btreplay check HANDLES r.btr 2>&1\nok\n")
        self.assertEqual(self.follow(asked, is_unproved=True), (7, 0))
        self.assertEqual(self.follow(asked.replace("btreplay: this build is not proved\n", ""), is_unproved=True), (7, 1))

    def test_differences_are_found(self):
        for right, other in (("echo first\nfirst", "echo first\nthird"), ("s.bt:1:9: P1 syntax", "s.bt:1:8: P1 syntax"),
                             ("| `BEGIN { @a = 1; }` |\n", "| `BEGIN { @a = 2; }` |\n"), ("`BEGIN { }`", "`BEGIN { bad }`")):
            with self.subTest(other):
                self.assertEqual(self.follow(PAGE.replace(right, other)), (6, 1))

    def test_blocks(self):
        blocks, others = blocks_of("a\n```sh\nb\n```\nc\n")
        self.assertEqual((blocks, others), ([("sh", ["b"])], ["a", "c"]))


if __name__ == "__main__":
    unittest.main()
