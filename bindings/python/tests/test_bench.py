"""Tests of a bench: the small file of docs/ and the exercises, each run by the library to the end that
it promises, in one run and cut in pieces; and what set-up and run refuse."""

import pathlib
import random
import unittest

from hello import bench_file
import hello
from hello import Answer, library

ROOT = pathlib.Path(__file__).resolve().parents[3]
SMALL = ROOT / "docs" / "bench" / "small.txt"
WALKS, LONG = "14-open-walk", "07-ghost"
"""An exercise with walks, which no bench file has, and one that is several files."""
EXERCISES = sorted(
    path for path in (ROOT / "apps" / "exercises").glob("*.txt") if path.stem not in (WALKS, LONG)
)


def read(path):
    """The file of a text, its octets, and what it promises."""
    file, promises = bench_file.read_text(path.read_text("utf-8"))
    return file, bench_file.to_octets(file), promises


def bench_of(octets, nhosts):
    """A bench that is set up by these octets."""
    bench = hello.Bench(octets, hello.NetTable(nhosts))
    if bench.set_up() != Answer.DONE:
        raise AssertionError("the file is refused")
    return bench


def state_of(bench):
    """All that a bench holds."""
    hosts = [bench.host(number) for number in range(hello.HOSTS)]
    clocks = [(h.clock.clock, h.clock.delta, h.clock.hold, h.clock.date) for h in hosts]
    links = [tuple(h.links) for h in hosts]
    walks = [(h.walk.opened, h.walk.length, h.walk.copy) for h in hosts]
    entries = tuple(bench.entries[place] for place in range(len(bench.entries)))
    return clocks, links, walks, entries, bench.slots, bench.answers, bench.done


def tables(bench, seats):
    """The entries by (seat, host), as promises ask for them."""
    return {
        (number, id): bench_file.Entry(*entry[:4])
        for number in range(seats)
        for id, entry in enumerate(bench.host(number).table)
    }


class Exercises(unittest.TestCase):
    """Files that are run to the end that they promise."""

    def pieces(self, bench, cuts):
        """Runs a bench in pieces that end there, and looks at it after each."""
        for cut in cuts:
            before = bench.done
            self.assertEqual(bench.run(cut - before), (Answer.DONE, cut - before))
            yield cut

    def test_promises(self):
        for path in (SMALL, *EXERCISES):
            file, octets, promises = read(path)
            bench = bench_of(octets, file.seats[0].nhosts)
            self.assertEqual((bench.events, bench.done, bench.answers), (len(file.events), 0, ()))
            cuts = sorted({promise.after for promise in promises} | {len(file.events)})
            for cut in self.pieces(bench, cuts):
                now = tables(bench, len(file.seats))
                for promise in promises:
                    if promise.after == cut:
                        self.assertIsNone(promise.broken(now, bench.answers), path.name)
            self.assertEqual(len(bench.answers), len(file.events))

    def test_pieces_end_as_one_run(self):
        choose = random.Random(891)
        for path in (SMALL, *EXERCISES):
            file, octets, _ = read(path)
            nhosts, events = file.seats[0].nhosts, len(file.events)
            one = bench_of(octets, nhosts)
            self.assertEqual(one.run(), (Answer.DONE, events))
            self.assertEqual(one.run(), (Answer.DONE, 0))
            end = state_of(one)
            for most in (1, 100, 1_000):
                cut = bench_of(octets, nhosts)
                count = 0
                while cut.done < events:
                    ran = cut.run(choose.randint(0, most))
                    self.assertEqual(ran.answer, Answer.DONE)
                    count += ran.count
                    self.assertEqual(cut.done, count)
                self.assertEqual(state_of(cut), end, path.name)
            # Set up again, a bench that has run is as a fresh one, except after the file's own part.
            self.assertEqual(one.set_up(), Answer.DONE)
            self.assertEqual((one.done, one.answers), (0, ()))
            self.assertEqual(one.run(), (Answer.DONE, events))
            self.assertEqual(state_of(one), end, path.name)

    def test_named_answers(self):
        """Each event gets the answer that its exercise names: 0 if it names none."""
        for path in EXERCISES:
            file, _, named = bench_file.read_long_text(path.read_text("utf-8"))
            bench = bench_of(bench_file.to_octets(file), file.seats[0].nhosts)
            bench.run()
            self.assertEqual(bench_file.unlike(named, bench.answers), [], path.name)

    def test_long(self):
        """An exercise of many files, which are run one after the other on the same hosts."""
        text = (ROOT / "apps" / "exercises" / f"{LONG}.txt").read_text("utf-8")
        exercise = bench_file.read_exercise(text)
        self.assertGreater(len(exercise.pieces()), 100)
        with self.assertRaisesRegex(bench_file.Wrong, "a file has 2,048 at most"):
            bench_file.read_text(text)
        bench = bench_of(bench_file.to_octets(exercise.pieces()[0]), exercise.file.seats[0].nhosts)
        places = {}
        for promise in exercise.promises:
            places.setdefault(promise.after, []).append(promise)
        answers = []
        for piece in exercise.pieces():
            bench.file, bench.done = bench_file.to_octets(piece), 0
            start, end = len(answers), len(answers) + len(piece.events)
            for cut in sorted({place for place in places if start < place <= end} | {end}):
                self.assertEqual(bench.run(cut - start - bench.done).answer, Answer.DONE)
                now = tables(bench, len(exercise.file.seats))
                for promise in places.get(cut, ()):
                    self.assertIsNone(promise.broken(now, ()))
            answers += bench.answers
        self.assertEqual(len(answers), len(exercise.file.events))
        self.assertEqual(bench_file.unlike(exercise.answers, answers), [])

    def test_walks_are_for_the_room(self):
        text = (ROOT / "apps" / "exercises" / f"{WALKS}.txt").read_text("utf-8")
        with self.assertRaisesRegex(bench_file.Wrong, "a bench file has no event for a walk"):
            bench_file.read_long_text(text)
        self.assertIsNotNone(bench_file.read_exercise(text).only_room)


PAIR = "seat 192.0.2.1\nseat 192.0.2.2\ncable 0.1 1.1\n"
KINDS = "tick 0\nadjust 1\nset 0 -500\nsecond 1\nself-report 0\nsend cable 0 end 0 tray 7\narrival tray 7\n"


class Borrowed:
    """What the plain calls borrow, with as much as a file of two hosts and seven events needs."""

    def __init__(self, **lengths):
        length = {
            "hosts": 2,
            "copies": 2 * hello.LONGEST_MESSAGE,
            "run": 2 * hello.PLACES,
            "slots": hello.SLOTS * hello.SLOT_LENGTH,
            "answers": 7,
            **lengths,
        }
        self.hosts = hello.BenchHosts(length["hosts"])
        self.copies = bytearray(length["copies"])
        self.run = hello.HostTable(length["run"])
        self.slots = bytearray(length["slots"])
        self.answers = bytearray(length["answers"])
        self.progress = hello.Progress()

    def all(self):
        return self.hosts, self.copies, self.run, self.slots, self.answers, self.progress


class Refusals(unittest.TestCase):
    """18, 19 and 12, in that order, and nothing changes at any of them."""

    octets = bench_file.to_octets(bench_file.read_text(PAIR + KINDS)[0])

    def both(self, bench, answer):
        """Set-up and run both answer so, and change nothing."""
        before = state_of(bench)
        for allowance in (0, 1, hello.EVENTS):
            self.assertEqual(bench.run(allowance), (answer, 0))
        self.assertEqual(bench.set_up(), answer)
        self.assertEqual(state_of(bench), before)

    def spoiled(self, *changes):
        octets = bytearray(self.octets)
        for place, octet in changes:
            octets[place] = octet
        return bytes(octets)

    def test_order(self):
        bench = bench_of(self.octets, 2)
        bench.run(6)
        event, header, bad_table = (-1 - 13, 9), (3, 17), hello.NetTable(0)
        for changes, table, answer in (
            ((event, header), bad_table, Answer.HEADER),
            ((header,), hello.NetTable(2), Answer.HEADER),
            ((event,), bad_table, Answer.ABSENT),
            ((event,), hello.NetTable(2), Answer.ABSENT),
            ((), hello.NetTable(3), Answer.ABSENT),
            ((), bad_table, Answer.ABSENT),
        ):
            bench.file, bench.net_table = self.spoiled(*changes), table
            self.both(bench, answer)
        # Settings have an NHOSTS that is that of the table: a bad one without hosts is 12.
        bench.file, bench.net_table = bench_file.to_octets(bench_file.File((), (), ())), bad_table
        bench.done = 0
        self.both(bench, Answer.OUT_OF_RANGE)
        bench.file, bench.net_table = self.octets, hello.NetTable(2)
        bench.done = 6
        self.assertEqual(bench.run(), (Answer.DONE, 1))

    def test_lengths_and_octets(self):
        bench = hello.Bench(b"", hello.NetTable(2))
        for octets, answer in (
            (b"", Answer.HEADER),
            (self.octets[:19], Answer.HEADER),
            (self.octets[:-1], Answer.HEADER),
            (self.octets + b"\0", Answer.HEADER),
            (self.spoiled((15, 0)), Answer.HEADER),
            (self.spoiled((20, 224)), Answer.ABSENT),
            (self.spoiled((20 + 2 * 321 + 1, 2)), Answer.ABSENT),
        ):
            bench.file = octets
            self.both(bench, answer)

    def test_short(self):
        """Each thing that is borrowed and one too short is 12; as long as it needs, none is."""
        for short in ("hosts", "copies", "run", "slots", "answers"):
            length = {"hosts": 2, "answers": 7, "run": 2 * hello.PLACES}.get(short)
            length = length or len(getattr(Borrowed(), short))
            borrowed = Borrowed(**{short: length - 1})
            self.assertEqual(library.bench_set_up(self.octets, hello.ClassTable(2), *borrowed.all()), 12, short)
            ran = library.bench_run(self.octets, hello.ClassTable(2), *borrowed.all(), 1)
            self.assertEqual(ran, (12, 0), short)
        borrowed = Borrowed()
        self.assertEqual(library.bench_set_up(self.octets, hello.ClassTable(2), *borrowed.all()), 0)
        self.assertEqual(library.bench_run(self.octets, hello.ClassTable(2), *borrowed.all(), 9), (0, 7))

    def test_slots_and_progress(self):
        borrowed = Borrowed()
        table = hello.ClassTable(2)
        self.assertEqual(library.bench_set_up(self.octets, table, *borrowed.all()), 0)
        self.assertEqual(library.bench_run(self.octets, table, *borrowed.all(), 6), (0, 6))
        label = slice(7 * hello.SLOT_LENGTH, 7 * hello.SLOT_LENGTH + 4)
        good = bytes(borrowed.slots[label])
        self.assertEqual(good, bytes((0, 32, 0, 0)))
        for bad in (bytes((0, 32, 1, 0)), bytes((0, 32, 0, 2)), bytes((4, 29, 0, 0))):
            borrowed.slots[label] = bad
            before = bytes(borrowed.slots)
            self.assertEqual(library.bench_run(self.octets, table, *borrowed.all(), 1), (12, 0))
            self.assertEqual((bytes(borrowed.slots), borrowed.progress.done), (before, 6))
        # Of a slot that was never filled nothing more is looked at.
        borrowed.slots[label] = bytes((0, 0, 99, 99))
        self.assertEqual(library.bench_run(self.octets, table, *borrowed.all(), 0), (0, 0))
        borrowed.slots[label] = good
        for done, ran in ((8, (12, 0)), (7, (0, 0)), (6, (0, 1))):
            borrowed.progress.done = done
            self.assertEqual(library.bench_run(self.octets, table, *borrowed.all(), 5), ran)

    def test_an_event_of_its_own(self):
        """A host that is put out of range refuses its own events, which count."""
        bench = bench_of(self.octets, 2)
        bench.host(0).clock.hold = 256
        self.assertEqual(bench.run(), (Answer.DONE, 7))
        refused = Answer.OUT_OF_RANGE
        done = Answer.DONE
        # The send of host 0 is refused too, so that nothing is in the slot when it is to arrive.
        self.assertEqual(bench.answers, (refused, done, refused, done, refused, refused, Answer.IP_FORM))
        self.assertEqual(bench.slots[7], (b"", 0, 0))

    def test_types(self):
        bench = bench_of(self.octets, 2)
        for allowance in (-1, 1 << 64):
            with self.assertRaises(OverflowError):
                bench.run(allowance)
        with self.assertRaises(OverflowError):
            bench.done = -1
        with self.assertRaises(OverflowError):
            bench.host(hello.HOSTS)
        for file in (None, 5, "text"):
            with self.assertRaises(TypeError):
                bench.file = file
        bench.net_table = None
        with self.assertRaises(TypeError):
            bench.set_up()
        borrowed = Borrowed()
        for place, value in ((0, borrowed.run), (1, b"copies"), (2, borrowed.hosts), (5, 0)):
            wrong = list(borrowed.all())
            wrong[place] = value
            with self.assertRaises(TypeError, msg=place):
                library.bench_set_up(self.octets, hello.ClassTable(2), *wrong)


if __name__ == "__main__":
    unittest.main()
