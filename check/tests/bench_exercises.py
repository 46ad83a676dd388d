"""The small file of docs/ and the exercises, each run to the end that it promises; and that the tool takes
the files that answers 18 and 19 take."""

import pathlib
import random
import tempfile
import unittest

from hello import bench_file
from bench_runs import EXERCISES, ROOT, broken, returned
from test_bench_file import any_file

SMALL = ROOT / "docs" / "bench"
COUNT = 15
"""The number of exercises."""


def octets(path):
    """The octets of the text at a path."""
    file, _ = bench_file.read_text(path.read_text("utf-8"))
    return bench_file.to_octets(file)


class Small(unittest.TestCase):
    def test_octets(self):
        named = (SMALL / "small.octets").read_text("utf-8")
        made = octets(SMALL / "small.txt")
        self.assertEqual(bench_file.octets_of_listing(named), made)
        self.assertEqual(bench_file.listing(made), named)

    def test_run(self):
        self.assertEqual(broken(SMALL / "small.txt"), [])


def for_bench():
    """The exercises that a bench can run: one with walks is for the room alone."""
    paths = sorted(EXERCISES.glob("*.txt"))
    return [path for path in paths if bench_file.read_exercise(path.read_text("utf-8")).only_room is None]


class Exercises(unittest.TestCase):
    def test_all_are_there(self):
        numbers = [path.name[:2] for path in sorted(EXERCISES.glob("*.txt"))]
        self.assertEqual(numbers, [f"{number:02}" for number in range(1, COUNT + 1)])
        self.assertEqual(len(for_bench()), COUNT - 1)

    def test_words(self):
        """Each has what people read, and no stage gives its end away before it is done."""
        for path in EXERCISES.glob("*.txt"):
            exercise = bench_file.read_exercise(path.read_text("utf-8"))
            for name in ("title", "task", "question", "explanation"):
                self.assertTrue(exercise.said(name), path.name)
            self.assertNotEqual(exercise.said("title", "de"), exercise.said("title"), path.name)
            self.assertEqual(exercise.said("title", "fr"), exercise.said("title"))
            self.assertTrue(exercise.hints, path.name)
            self.assertTrue(any(stage.predictions for stage in exercise.stages), path.name)
            for stage in exercise.stages:
                self.assertNotIn(" up", stage.words["en"].replace("up to", ""), path.name)
                self.assertNotIn("down", stage.words["en"].replace("took him down", ""), path.name)

    def test_the_page_tells_their_events(self):
        rows = (ROOT / "docs" / "BENCH.md").read_text("utf-8").split("\n| no. | file |")[1].splitlines()
        for path in EXERCISES.glob("*.txt"):
            number = int(path.name[:2])
            events = len(bench_file.read_exercise(path.read_text("utf-8")).file.events)
            printed_events = next(row.split(" | ")[2] for row in rows if row.startswith(f"| {number} | "))
            self.assertEqual(f"{events:,}", printed_events, path.name)

    def test_promises(self):
        for path in for_bench():
            file, promises, _ = bench_file.read_long_text(path.read_text("utf-8"))
            self.assertEqual(broken(path), [], path.name)
            self.assertEqual(max(promise.after for promise in promises), len(file.events))

    def test_a_broken_promise_is_found(self):
        with tempfile.TemporaryDirectory() as folder:
            for number, name, kept, other in (
                (1, "01-handshake", "delay 100 offset 500", "delay 100 offset 501"),
                (2, "02-half-delay", "offset 449", "offset 450"),
                (4, "04-silence", "promise answer 10", "promise answer 0"),
                (5, "04-silence", "promise answer 10\n", "\n"),
                (7, "07-ghost", "least 10200", "least 10300"),
                (10, "10-hops", "0,100,200,200,100,300,400,500", "0,100,200,200,100,300,400,down"),
                (11, "11-three-rounds", "wait 9950", "wait 9950\n    second all times 110"),
                (13, "13-fifty-one", "wait 51", "wait 50"),
            ):
                text = (EXERCISES / f"{name}.txt").read_text("utf-8")
                path = pathlib.Path(folder) / f"{number}.txt"
                path.write_text(text.replace(kept, other), "utf-8")
                self.assertNotEqual(text, path.read_text("utf-8"))
                self.assertNotEqual(broken(path), [], name)

    def test_no_ghost_in_a_closed_ring(self):
        """In a ring that is closed from the start the ghost is gone after 7 rounds."""
        text = (EXERCISES / "07-ghost.txt").read_text("utf-8").replace("send all except 14\n", "send all\n")
        text = text.replace("send all except 14,15", "send all except 15")
        set_up, silent = text.partition("\nstage ")[0], "do silent-round times 2\n"
        for rounds, words in ((6, []), (7, ["DELAY"])):
            with tempfile.TemporaryDirectory() as folder:
                path = pathlib.Path(folder) / "ghost.txt"
                path.write_text(
                    f"{set_up}\ndo open-round times 17\n{silent}do round times {rounds}\n"
                    "promise host 15 least 29999\n"
                )
                reported = broken(path)
            self.assertEqual(len(reported), 1)
            self.assertEqual("is 30,000" in reported[0], bool(words), reported)


class Refusals(unittest.TestCase):
    """The tool and the independent program take the same files."""

    def spoiled(self, choose):
        """The octets of a random file, most often with one of them changed, or of another length."""
        octets = bytearray(bench_file.to_octets(any_file(choose)))
        end = len(octets)
        place = min(end - 1, choose.choice([choose.randrange(20), choose.randrange(110), choose.randrange(end)]))
        new = choose.choice([0, 1, 2, 8, 9, 32, 128, 255, octets[place] + 1, octets[place] - 1])
        changed = choose.randrange(20)
        if changed == 0:
            return octets[: choose.randrange(end)]
        if changed == 1:
            return octets + b"\0"
        if changed > 3:
            octets[place] = new % 256
        return octets

    def taken(self, octets):
        try:
            bench_file.from_octets(bytes(octets))
        except bench_file.Fault:
            return False
        return True

    def test_same(self):
        choose = random.Random(891)
        seen = set()
        with tempfile.TemporaryDirectory() as folder:
            path = pathlib.Path(folder) / "file.bench"
            for _ in range(400):
                octets = self.spoiled(choose)
                path.write_bytes(octets)
                answer = returned(path)[0]
                seen.add(answer)
                self.assertEqual(self.taken(octets), answer == 0, octets.hex())
        self.assertEqual(seen, {0, 18, 19})


if __name__ == "__main__":
    unittest.main()
