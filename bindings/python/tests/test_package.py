"""Tests of the package: one exception, values that print, compare, copy and pickle, addresses, the loader,
lengths that nobody can lie about."""

import copy
import inspect
import ipaddress
import os
import pathlib
import pickle
import subprocess
import sys
import unittest

import hello
from hello import Answer, library

ROOT = pathlib.Path(__file__).resolve().parents[3]
LISTED = {
    int(number): meaning
    for number, _, _, meaning, _ in (
        line.split("\t") for line in (ROOT / "docs" / "answers.txt").read_text("utf-8").splitlines() if line[:1] != "#"
    )
}


def host():
    """A host that has heard a neighbor and has an open walk."""
    room = hello.Room(2, 4)
    made = [room.host(k, hello.Settings(f"192.0.2.{1 + k}", 1, 4, time=k)) for k in range(2)]
    for each in made:
        each.initialize().check()
        each.self_report().check()
    sender, receiver = made
    receiver.receive(1, sender.send(1).message)
    room.net_table.add((10, 0, 0), 2)
    receiver.open_walk(1, sender.send(1).message).answer.check()
    return receiver


def bench():
    """A bench that has run."""
    text = "seat 192.0.2.1\nseat 192.0.2.2\ncable 0.1 1.1\nsend cable 0 end 0 tray 0\narrival tray 0\n"
    made = hello.Bench(hello.bench_file.to_octets(hello.bench_file.read_text(text)[0]), hello.NetTable(2))
    made.set_up().check()
    made.run()
    return made


def states():
    """One of each kind of state, none of them blank."""
    given = host()
    return [
        hello.Settings("10.1.2.3", 2, 9, links=[hello.LinkSetting(True, hello.Address(1, 2, 3, 4))], marks={0, 8}),
        given.settings,
        given.room.net_table,
        given.clock,
        given.links,
        given.walk,
        given.room.entries,
        hello.Progress(7),
        bench()._hosts,
    ]


class Exceptions(unittest.TestCase):
    def test_words(self):
        self.assertEqual({int(answer): answer.words for answer in Answer}, LISTED)

    def test_one_exception(self):
        for answer in Answer:
            if answer is Answer.DONE:
                self.assertIsNone(answer.check())
                continue
            with self.assertRaises(hello.Refused) as caught:
                answer.check()
            refused = caught.exception
            self.assertEqual((refused.answer, refused.number, refused.words), (answer, int(answer), LISTED[answer]))
            self.assertIn(str(int(answer)), str(refused))
            self.assertIn(LISTED[answer], str(refused))
            self.assertIsInstance(refused, ValueError)
            again = pickle.loads(pickle.dumps(refused))
            self.assertEqual((again.answer, str(again)), (refused.answer, str(refused)))

    def test_each_module_raises_it(self):
        for call in (
            lambda: hello.text.to_text(b""),
            lambda: hello.text.from_text(""),
            lambda: hello.capture.recover(bytes(65_537)),
            lambda: hello.ntp.read(b""),
            lambda: host().tick().check(),
        ):
            with self.assertRaises(hello.Refused):
                call()


class Values(unittest.TestCase):
    def test_repr(self):
        self.assertEqual(repr(hello.Clock(1, 2, 3, 4)), "Clock(clock=1, delta=2, hold=3, date=4)")
        self.assertEqual(repr(host()), "Host(number=1, address='192.0.2.2')")
        self.assertEqual(repr(host().room), "Room(hosts=2, nhosts=4)")
        self.assertEqual(repr(bench()), "Bench(events=2, done=2, nhosts=2)")
        for state in states():
            self.assertTrue(repr(state).startswith(type(state).__name__ + "("))
            self.assertNotIn(" object at ", repr(state))

    def test_equal(self):
        for one, other in zip(states(), states()):
            self.assertEqual(one, other)
            self.assertNotEqual(one, None)
        self.assertNotEqual(hello.Clock(1), hello.Clock(2))
        self.assertNotEqual(hello.HostTable(1), hello.HostTable(2))
        self.assertNotEqual(hello.ClassTable(4), hello.NetTable(4))
        for made in (host, bench):
            self.assertEqual(made(), made())
        changed = host()
        changed.clock.hold = 9
        self.assertNotEqual(changed, host())
        changed = bench()
        changed.entries[7] = hello.Entry(delay=1)
        self.assertNotEqual(changed, bench())

    def test_copies(self):
        for way in (copy.copy, copy.deepcopy, lambda state: pickle.loads(pickle.dumps(state))):
            for state, same in zip(states(), states()):
                made = way(state)
                self.assertIs(type(made), type(state))
                self.assertEqual((made, state), (same, same))
        table = hello.HostTable(2)
        other = copy.copy(table)
        other[1] = hello.Entry(delay=5)
        self.assertEqual(table[1], hello.Entry())

    def test_copies_of_hosts(self):
        for way in (copy.deepcopy, lambda made: pickle.loads(pickle.dumps(made))):
            for made in (host, bench):
                first = made()
                other = way(first)
                self.assertEqual(other, first)
            one, other = host(), way(host())
            while one.walk.opened:
                self.assertEqual(one.step(), other.step())
            self.assertEqual(one, other)
            self.assertIs(one.tick(), Answer.DONE)
            self.assertNotEqual(one, other)

    def test_a_host_of_a_bench_copies_apart(self):
        made = bench()
        clock = copy.copy(made.host(0).clock)
        walk = copy.copy(made.host(0).walk)
        clock.hold = 200
        walk.copy = bytes(len(walk.copy) - 1) + b"\1"
        self.assertEqual(made, bench())


class Addresses(unittest.TestCase):
    def test_forms(self):
        right = hello.Address(192, 0, 2, 1)
        for given in ("192.0.2.1", ipaddress.IPv4Address("192.0.2.1"), (192, 0, 2, 1), b"\xc0\0\2\1", right):
            self.assertEqual(hello.Settings(given, 1, 4).address, right)
            self.assertEqual(hello.address(given), right)
            self.assertIs(host().lookup(given).answer, Answer.IN_WALK)
        self.assertEqual((str(right), right.ip), ("192.0.2.1", ipaddress.IPv4Address("192.0.2.1")))

    def test_wrong(self):
        for wrong in ("192.0.2", "192.0.2.256", "", "example.org", (1, 2, 3), "2001:db8::1"):
            with self.assertRaises(ValueError):
                hello.Settings(wrong, 1, 4)
        for wrong in (7, None, 1.5):
            with self.assertRaises(TypeError):
                hello.Settings(wrong, 1, 4)


class Dates(unittest.TestCase):
    def test_dates(self):
        self.assertEqual(hello.date(1984, 2, 29), 2 << 10 | 29 << 5 | 12)
        self.assertEqual((hello.date(1972, 1, 1), hello.date(2003, 12, 31)), (1 << 10 | 1 << 5, 12 << 10 | 31 << 5 | 31))
        for day in ((1983, 2, 29), (1971, 12, 31), (2004, 1, 1), (1983, 13, 1), (1983, 0, 1), (1983, 4, 31), (1983, 1, 0)):
            with self.assertRaises(ValueError):
                hello.date(*day)
        with self.assertRaises(OverflowError):
            hello.date(1 << 16, 1, 1)


class Lengths(unittest.TestCase):
    """The lengths that the library gets are those of the memory, whatever a subclass says."""

    def test_host_table(self):
        class Longer(hello.HostTable):
            def __len__(self):
                return 16 * 255

            def _size(self):
                return 16 * 255

        room = hello.Room(0, 4)
        room.entries = Longer(0)
        self.assertIs(room.host(0, hello.Settings("192.0.2.1", 1, 4)).initialize(), Answer.OUT_OF_RANGE)

    def test_walk(self):
        walk = hello.Walk(8)
        walk._room = 10_000
        given = host()
        given.walk = walk
        sender = hello.Room(1, 4).host(0, hello.Settings("192.0.2.1", 1, 4))
        sender.initialize().check()
        self.assertIs(given.open_walk(1, sender.send(1).message).answer, Answer.OUT_OF_RANGE)

    def test_octets(self):
        class Longer(bytes):
            def __len__(self):
                return 1 << 20

        self.assertIs(hello.packet(Longer(b"\x45")), Answer.IP_FORM)
        self.assertEqual(hello.checksum(Longer(b"\1\2")), hello.checksum(b"\1\2"))
        self.assertEqual(hello.text.to_text(Longer(12 * b"\0")), "hello 0 0 0 0 0\n")
        self.assertEqual(hello.capture.recover(Longer(bytes(4))).capture, bytes(4))

    def test_hosts_of_a_bench(self):
        class More(hello.BenchHosts):
            def __len__(self):
                return 16

        made = bench()
        made._hosts = More(1)
        self.assertIs(made.set_up(), Answer.OUT_OF_RANGE)

    def test_no_int_for_octets(self):
        for call in (hello.packet, hello.checksum, hello.text.to_text, hello.capture.recover, hello.ntp.read):
            for wrong in (32, True, "octets", None, [1, 2]):
                with self.assertRaises(TypeError):
                    call(wrong)
        with self.assertRaises(TypeError):
            hello.Bench(20, hello.NetTable(2))


class Loader(unittest.TestCase):
    def python(self, program, **variables):
        environment = {**os.environ, "PYTHONPATH": str(ROOT / "bindings" / "python"), **variables}
        return subprocess.run([sys.executable, "-c", program], env=environment, capture_output=True, text=True)

    def test_no_library(self):
        done = self.python("import hello; hello.checksum(b'')", HELLO_SO="/no/such/libhello.so")
        self.assertEqual(done.returncode, 1)
        self.assertIn("ImportError", done.stderr)
        self.assertIn("HELLO_SO", done.stderr)
        self.assertIn("/no/such/libhello.so", done.stderr)

    def test_bench_files_need_no_library(self):
        done = self.python("from hello import bench_file; bench_file.read_text('seat 192.0.2.1\\n')", HELLO_SO="/no/such/file")
        self.assertEqual((done.returncode, done.stderr), (0, ""))

    def test_all_functions_are_there(self):
        for name in hello.library.Function.all:
            self.assertTrue(hasattr(hello.loader.library(), name), name)


class Surface(unittest.TestCase):
    def test_all(self):
        for name in hello.__all__:
            self.assertTrue(hasattr(hello, name), name)
        self.assertTrue((pathlib.Path(hello.__file__).parent / "py.typed").exists())

    def test_every_public_function_has_types(self):
        modules = [hello, *(getattr(hello, name) for name in ("bench_file", "capture", "library", "loader", "ntp", "text"))]
        found = 0
        for module in modules:
            for name in getattr(module, "__all__", None) or vars(module):
                made = getattr(module, name)
                if name.startswith("_") or not getattr(made, "__module__", "").startswith("hello"):
                    continue
                members = vars(made).items() if inspect.isclass(made) else [(name, made)]
                for member, function in members:
                    function = function.fget if isinstance(function, property) else function
                    if member.startswith("_") and member != "__init__" or not inspect.isfunction(function):
                        continue
                    if function.__code__.co_filename.startswith("<"):
                        continue
                    parameters = inspect.signature(function).parameters
                    untyped = [one for one in parameters if one != "self" and one != "cls" and one not in function.__annotations__]
                    self.assertEqual(untyped, [], f"{module.__name__}.{name}.{member}")
                    self.assertIn("return", function.__annotations__, f"{module.__name__}.{name}.{member}")
                    found += 1
        self.assertGreater(found, 100)

    def test_plain_calls_check_kinds(self):
        with self.assertRaises(TypeError):
            library.net_remove(hello.Clock(), 1)


if __name__ == "__main__":
    unittest.main()
