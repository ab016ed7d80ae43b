"""Tests of which hosts there are and where recordings are asked, over what a scheduler and hosts tell: no engine is wanted here."""
import os
import pathlib
import tempfile
import time
import unittest
import unittest.mock

import fleet_hosts  # noqa: F401  (it finds btfleet)

from btfleet.faults import Refused
from btfleet.here import placed_here
from btfleet.hosts import each_of, host_named, hosts_of
from btfleet.operands import operands
from btfleet.placing import expected, placed, wanted_of
from btfleet.recording import NoRecording, Recording, look
from btfleet.result import Result
from btfleet.plan import plan_of
from btfleet.child import Child, Ended, Limits
from btfleet.fleet import Fleet, Unasked, Waits
from btfleet.survey import Seen, seen_of
from btfleet.wire import FORM, Unreadable, coded, read

ONE, OTHER = Recording(1, 7, 10, 5, "ab"), Recording(1, 7, 10, 6, "ab")
MOVED = Recording(2, 7, 10, 5, "ab")


def known(name, boot, mounts="m", machine="vm", at="10.0.0.1", **more):
    """What a scheduler knows of a worker."""
    fields = {"machine": "id", "boot": boot, "mounts": mounts, "name": machine}
    return {"name": name, "host": at, "nthreads": 2, "btfleet": {"form": FORM, "machine": fields}, **more}


def fleet(**workers):
    """The hosts of workers by their addresses."""
    return hosts_of({f"tcp://{address}": info for address, info in workers.items()})


class Hosts(unittest.TestCase):
    def test_workers_of_one_machine_are_one_host(self):
        """By its boot and its view of the files; the name is the one that was given, or what --nworkers counts on."""
        for names, wanted in ((["web5-0", "web5-1", "web5-2"], "web5"), (["web5"], "web5"), (["b", "a"], "a"), (["tcp://1:1", "tcp://1:2"], "vm"),
                              ([0, 1], "vm")):
            with self.subTest(names):
                host, = fleet(**{f"w{number}": known(name, "boot") for number, name in enumerate(names)})
                self.assertEqual((host.name, len(host.workers)), (wanted, len(names)))
                self.assertLessEqual({wanted, "vm", "10.0.0.1"}, host.names)
        self.assertEqual([host.name for host in fleet(a=known("c1", "boot", "m1"), b=known("c2", "boot", "m2"), c=known("d", "other"))], ["c1", "c2", "d"])

    def test_a_name_of_two_machines(self):
        hosts = fleet(a=known("", "boot1"), b=known("", "boot2"))
        for does in (lambda: each_of(hosts), lambda: host_named("vm", hosts)):
            with self.assertRaises(Refused) as refused:
                does()
            self.assertEqual((refused.exception.status, str(refused.exception)),
                             (1, "vm is tcp://a (machine id, boot boot1) and tcp://b (machine id, boot boot2), which are not one host: start their workers "
                                 "with names of their own (--name)"))

    def test_names(self):
        """A given name stands before that of a machine, and what --nworkers counts on names a host of which one worker is left."""
        hosts = fleet(a=known("web1", "boot1", machine="db"), b=known("db", "boot2"), c=known("web-2", "boot3", machine="x", at="h"))
        self.assertEqual(host_named("db", hosts).workers[0].address, "tcp://b")
        self.assertEqual(host_named("web", hosts).workers[0].address, "tcp://c")
        self.assertIsNone(host_named("web9", hosts))


class Placed(unittest.TestCase):
    def places(self, words, hosts, held):
        """The words, names and holders of recordings, by what each host holds under its name, and what is told of them."""
        seen = {host.place(): held[host.name] if isinstance(held[host.name], Seen) else Seen(dict(held[host.name])) for host in hosts}
        names = {host.place(): host.name for host in hosts}
        found, notes = placed(operands(words, True), hosts, seen)
        return [(asked.word, asked.host, [names[place] for place in asked.holders], asked.cause if not asked.seen else "") for asked in found], notes

    def refusal(self, words, hosts, held):
        """Why words are refused."""
        with self.assertRaises(Refused) as refused:
            self.places(words, hosts, held)
        self.assertEqual(refused.exception.status, 1)
        return str(refused.exception)

    def setUp(self):
        self.hosts = fleet(a=known("web1", "boot1"), b=known("web2", "boot2"), c=known("web3", "boot3"))

    def test_any_host(self):
        held = {"web1": {"/r": ONE}, "web2": {"/r": MOVED}, "web3": {"/r": "lacks it"}}
        self.assertEqual(self.places(["/r"], self.hosts, held), ([("/r", "web1", ["web1", "web2"], "")], []))
        self.assertEqual(self.refusal(["/r"], self.hosts, {**held, "web2": {"/r": OTHER}}),
                         "/r is another file on web1 than on web2: name one by web1:/r, or that of each host by '*:/r'")
        silent = {**held, "web3": Seen(fault="it is silent")}
        self.assertEqual(self.places(["/r"], self.hosts, silent)[1], ["/r: web3 could not be asked whether it is another file there"])
        self.assertEqual(self.places(["/x"], self.hosts, {**{name: {"/x": "lacks it"} for name in held}, "web3": silent["web3"]})[0],
                         [("/x", "", [], "there is no such file there that can be read, and web3 could not be asked")])

    def test_each_host(self):
        """One that lacks it or is silent is one of them; what hosts of one machine see as one file is one recording."""
        held = {"web1": {"/r": ONE}, "web2": {"/r": "lacks it"}, "web3": Seen(fault="it is silent")}
        self.assertEqual(self.places(["*:/r"], self.hosts, held)[0],
                         [("web1:/r", "web1", ["web1"], ""), ("web2:/r", "web2", [], "lacks it"), ("web3:/r", "web3", [], "it is silent")])
        hosts = fleet(a=known("c1", "boot", "m1"), b=known("c2", "boot", "m2"))
        self.assertEqual(self.places(["*:/r"], hosts, {"c1": {"/r": ONE}, "c2": {"/r": ONE}})[0], [("c1:/r", "c1", ["c1", "c2"], "")])
        self.assertEqual(len(self.places(["*:/r"], hosts, {"c1": {"/r": ONE}, "c2": {"/r": Recording(2, 8, 1, 1, "x")}})[0]), 2)

    def test_one_file_is_not_counted_twice(self):
        shared = {"web1": {"/r": ONE, "/s": ONE}, "web2": {"/r": MOVED}, "web3": {"/r": "lacks it"}}
        why = "are one file, as on a shared disk or copied with its disk: name it by /r alone"
        self.assertEqual(self.refusal(["*:/r"], self.hosts, shared), f"web1:/r and web2:/r {why}")
        self.assertEqual(self.refusal(["web1:/r", "web2:/r"], self.hosts, shared), f"web1:/r and web2:/r {why}")
        self.assertEqual(self.refusal(["web1:/r", "web1:/s"], self.hosts, shared), "web1:/r and web1:/s are one file, which would be counted twice")

    def test_names_of_hosts(self):
        held = {name: {"/r": Recording(1, number, 1, 1, "x")} for number, name in enumerate(("web1", "web2", "web3"))}
        self.assertEqual(self.places(["web2:/r", "web9:/r"], self.hosts, held)[0],
                         [("web2:/r", "web2", ["web2"], ""), ("web9:/r", "web9", [], "no worker is on a host of this name")])
        wanted = [(host.name, sorted(paths)) for host, paths in wanted_of(operands(["web2:/r", "web2:/s", "web3:/r"], True), self.hosts)]
        self.assertEqual(wanted, [("web2", ["/r", "/s"]), ("web3", ["/r"])])
        found, _ = placed(operands(["*:/r"], True), self.hosts, {host.place(): Seen(held[host.name]) for host in self.hosts})
        self.assertEqual([asked.word for asked in expected(found, ["web1", "web7"], self.hosts, operands(["*:/r"], True))],
                         ["web1:/r", "web2:/r", "web3:/r", "web7:/r"])


class OnThisMachine(unittest.TestCase):
    def setUp(self):
        folder = tempfile.TemporaryDirectory()
        self.addCleanup(folder.cleanup)
        self.folder = pathlib.Path(folder.name)
        self.one = self.folder / "one.btr"
        self.one.write_bytes(b"abc")

    def test_one_file_is_not_counted_twice(self):
        os.link(self.one, self.folder / "hard.btr")
        os.symlink(self.one, self.folder / "link.btr")
        for other in (f"web2:{self.one}", str(self.folder / "hard.btr"), str(self.folder / "link.btr")):
            with self.subTest(other), self.assertRaises(Refused) as refused:
                placed_here(operands([f"web1:{self.one}", other], False))
            self.assertEqual(str(refused.exception), f"web1:{self.one} and {other} are one file, which would be counted twice")
        found = placed_here(operands([f"web1:{self.one}", "nothere.btr"], False))
        self.assertEqual([(asked.host, asked.path, bool(asked.seen), asked.cause) for asked in found][0], ("web1", str(self.one), True, ""))
        self.assertEqual(found[1].cause, "there is no such file")

    def test_what_is_no_recording(self):
        """Nothing is opened that may wait, and nothing outside of the folders that are let, links followed."""
        os.mkfifo(self.folder / "pipe")
        os.mkdir(self.folder / "let")
        os.symlink(self.one, self.folder / "let" / "link")
        let = (str(self.folder / "let"),)
        (self.folder / "let" / "in").write_bytes(b"x")
        outside = f"the host lets recordings be read from {let[0]} alone"
        for path, folders, why in ((self.folder / "pipe", (), "it is no regular file there"), ("/dev/zero", (), "it is no regular file there"),
                                   (self.folder, (), "it is no regular file there"), ("/no/file", (), "there is no such file there that can be read"),
                                   ("a\0b", (), "there is no such file there that can be read"), (self.one, let, outside),
                                   (self.folder / "let" / "link", let, outside), (f"{let[0]}/../one.btr", let, outside)):
            with self.subTest(path), self.assertRaises(NoRecording) as fault:
                look(path, folders)
            self.assertEqual(str(fault.exception), why)
        self.assertEqual(look(self.folder / "let" / "in", let).size, 1)

    def test_another_file_is_another_recording(self):
        before = look(self.one)
        self.assertEqual(look(self.one), before)
        other = self.folder / "other"
        other.write_bytes(b"abd")
        os.utime(other, ns=(before.written, before.written))
        os.replace(other, self.one)
        self.assertNotEqual(look(self.one), before)


class WantOfMemory(unittest.TestCase):
    def test_a_run(self):
        """A run that the kernel killed is told as that; one that another one killed is not."""
        for counts, why in (([4, 5], "its run was killed for want of memory"), ([4, 4], "")):
            with self.subTest(counts), unittest.mock.patch("btfleet.child.killed_for_memory", side_effect=counts):
                ended = Child(["sh", "-c", "kill -9 $$"], Limits()).ended()
                self.assertEqual((ended.status, ended.why), (-9, why))

    def test_workers(self):
        """Where a host's new worker tells of more processes that were killed, that is told of what its workers died of."""
        for counts, why in ((("5", "5"), ""), ((5, 5), ""), ((5, 6), ", and processes were killed there for want of memory meanwhile")):
            with self.subTest(counts):
                ended = Fleet(None, None, None)
                asked = placed_here(operands(["/none"], False))[0]
                for address, count in zip(("tcp://1", "tcp://2"), counts):
                    info = known("web1", "boot")
                    info["btfleet"]["killed_for_memory"] = count
                    host, = hosts_of({address: info})
                    ended.employ({address: info})
                asked.holders = [host.place()]
                ended.left[0] = waits = Waits(asked, deaths=4)
                ended.again(waits, host.workers[0], "")
                (_, found), = ended.came
                self.assertEqual(str(found), f"each worker that was asked died of it{why}")


class Limited(unittest.TestCase):
    def test_what_a_run_may_take(self):
        """Memory, time, and what it prints; a child of it is ended with it."""
        started = time.monotonic()
        ended = Child(["sh", "-c", "sleep 50 & sleep 50"], Limits(seconds=0.5)).ended()
        self.assertEqual((ended.status, ended.why), (-9, "its run took more than 0.5 seconds"))
        self.assertLess(time.monotonic() - started, 40)
        ended = Child(["sh", "-c", "while :; do echo 0123456789; done"], Limits(printed=1000)).ended()
        self.assertEqual((ended.status, ended.why, len(ended.printed)), (-9, "it printed more than 1,000 bytes", 1000))
        ended = Child(["sh", "-c", "sleep 0.2; ulimit -v; echo told >&2"], Limits(memory=1 << 30)).ended()
        self.assertEqual((ended.status, ended.printed, ended.told, ended.why), (0, b"1048576\n", b"told\n", ""))

    def test_one_that_is_ended(self):
        """Before it begins nothing is run."""
        child = Child(["sh", "-c", "echo x"], Limits())
        child.end("it is over")
        self.assertEqual((child.ended().why, child.process), ("it is over", None))


class Messages(unittest.TestCase):
    def test_both_ways(self):
        self.assertEqual(read(coded({"a": [1, "\n"]}, b"\x00\n\xff")), ({"a": [1, "\n"]}, b"\x00\n\xff"))
        for message in (None, {}, "{}", b"", b"\x80\x04", b"[]\n", b"5\n", b"[" * 100_000):
            with self.subTest(message if message is None else message[:9] if isinstance(message, bytes) else message):
                self.assertRaises(Unreadable, read, message)

    def test_what_a_host_tells(self):
        """What is no recording is none, with its cause."""
        told = {"/a": ONE.fields(), "/b": {"fault": "none there"}, "/c": {"device": "1"}, "/d": 5}
        seen = seen_of({"found": told, "program": "p"}, ["/a", "/b", "/c", "/d", "/e"])
        self.assertEqual(seen.recording("/a"), ONE)
        self.assertEqual([seen.recording(path) for path in ("/b", "/c", "/d", "/e")], [None] * 4)
        self.assertEqual(seen.why("/b"), "none there")
        self.assertEqual(seen_of({}, ["/a"]).why("/a"), "the host does not say what lies there")


class Statuses(unittest.TestCase):
    def result(self, *causes, least=0):
        """What comes of recordings that fail for these causes, or of one that answers for none."""
        result = Result(plan_of("t:a:b { @a = count(); }"), False, "s.bt", least)
        result.asked = placed_here(operands([f"/none/{number}" for number in range(len(causes))], False))
        for asked, cause in zip(result.asked, causes):
            result.take(asked, Unasked(cause) if cause else Ended(0, b"", b""))
        return result

    def test_statuses(self):
        for causes, least, status in (([None], 0, 0), ([None, "x"], 0, 7), (["x"], 0, 3), (["the scheduler is gone: it"] * 2, 0, 8),
                                      (["the scheduler is gone: it", "x"], 0, 3), ([None, "x"], 1, 7), ([None, "x"], 2, 3), ([], 1, 3)):
            with self.subTest(causes):
                self.assertEqual(self.result(*causes, least=least).status(), status)

    def test_failures_of_one_cause_are_one_line(self):
        told = self.result(*["x"] * 12, "y", None).told()
        words = ", ".join(f"/none/{number}" for number in range(10))
        self.assertEqual(told, [f"12 recordings: x: {words} and 2 more, which --json lists", "/none/12: y", "the result has 1 of 14 recordings"])


if __name__ == "__main__":
    unittest.main()
