"""What `make install` and `make deb` put where, with a program that stands in."""
import pathlib
import shutil
import subprocess
import tempfile
import unittest

TOP = pathlib.Path(__file__).resolve().parents[3]
WANTED = ("bin/btreplay", "bin/btrecord", "bin/btreport", "bin/btfleet", "lib/btreplay/bt_program", "lib/btreplay/tools/btreplay/__main__.py",
          "lib/btreplay/tools/reckoning/layout.py", "share/man/man1/btreplay.1", "share/man/man1/btrecord.1",
          "share/bash-completion/completions/btreplay", "share/doc/btreplay/LICENSE-MIT", "share/doc/btreplay/LICENSE-APACHE",
          "share/doc/btreplay/NOTICE", "share/doc/btreplay/CHANGELOG.md")


@unittest.skipUnless(shutil.which("make"), "there is no make")
class Package(unittest.TestCase):
    """Both of them into a folder of the test's own."""

    def setUp(self):
        folder = tempfile.TemporaryDirectory()
        self.addCleanup(folder.cleanup)
        self.folder = pathlib.Path(folder.name)
        self.program = self.folder / "program"
        self.program.write_text("#!/bin/sh\nexit 0\n")
        self.program.chmod(0o755)

    def make(self, *words):
        """Runs make, which has to end well."""
        done = subprocess.run(["make", "-s", "-C", str(TOP), f"PROGRAM={self.program}", *words], stdin=subprocess.DEVNULL, stdout=subprocess.PIPE,
                              stderr=subprocess.STDOUT)
        self.assertEqual(0, done.returncode, done.stdout.decode(errors="replace"))

    def test_what_is_installed_is_removed_again(self):
        self.make("install", f"DESTDIR={self.folder}/root", "PREFIX=/usr")
        self.assertEqual([], [name for name in WANTED if not (self.folder / "root/usr" / name).exists()])
        self.make("uninstall", f"DESTDIR={self.folder}/root", "PREFIX=/usr")
        left = [str(path) for path in (self.folder / "root").rglob("*") if not path.is_dir() or path.name == "btreplay"]
        self.assertEqual([], left)

    @unittest.skipUnless(shutil.which("dpkg-deb"), "there is no dpkg-deb")
    def test_a_package(self):
        package = self.folder / "btreplay.deb"
        self.make("deb", f"DEB={package}")
        told = subprocess.run(["dpkg-deb", "--contents", str(package)], stdout=subprocess.PIPE, check=True).stdout.decode()
        names = [line.split()[5] for line in told.splitlines()]
        self.assertEqual([], [name for name in WANTED if f"./usr/{name}" not in names])
        self.assertEqual(["root/root"], sorted({line.split()[1] for line in told.splitlines()}))
        field = subprocess.run(["dpkg-deb", "--field", str(package), "Version"], stdout=subprocess.PIPE, check=True).stdout.decode().strip()
        self.assertEqual((TOP / "VERSION").read_text().strip(), field)


if __name__ == "__main__":
    unittest.main()
