"""Tests of the file of calls: made again it comes to the same answers and the same end."""

import json
import random
import unittest

from classroom.room import Room
from classroom.room.replay import replay


def room_at_work():
    """A room with line clocks and crystals, losses, a walk, refusals and clock setting."""
    room = Room(
        {
            "seats": [{}, {"difference": 300, "clock_host": 0}, {"crystal": True, "by_hand": True}],
            "cables": [
                {"ends": [[0, 1], [1, 1]], "ways": [[0, 40], [5, 60]], "loss": [10, 10]},
                {"ends": [[1, 2], [2, 1]], "ways": [[0, 40], [5, 60]], "loss": [10, 10]},
            ],
            "seed": 3,
            "interval": 1,
        }
    )
    choose = random.Random(7)
    for _ in range(120):
        room.go_on(room.now + choose.randrange(700))
        waiting = list(room.seats[2].waiting)
        calls = [{"call": name} for name in ("step", "read", "second", "self_report")]
        calls.append({"call": "send", "link": 1})
        calls += [{"call": "write", "link": 1, "text": text} for text in ("hello", "hello 0 0 0 1 0\n")]
        calls += [{"call": name, "message": n} for n in waiting for name in ("receive", "open_walk")]
        room.seat(2, {"do": "call", **choose.choice(calls)})
    return room


class Replay(unittest.TestCase):
    @classmethod
    def setUpClass(cls):
        cls.lines = list(room_at_work().lines())

    def test_same_end(self):
        report = replay(self.lines)
        self.assertIsNone(report.first_difference)
        self.assertTrue(report.equal)
        self.assertEqual(report.calls, len(self.lines) - 2)

    def test_many_kinds_of_calls(self):
        lines = [json.loads(line) for line in self.lines[1:-1]]
        self.assertGreaterEqual(len({line["call"] for line in lines}), 10)
        self.assertGreaterEqual(len({line["answer"] for line in lines}), 5)

    def altered(self, pick, change):
        """The report on the file with the first line that is picked changed."""
        lines = [json.loads(line) for line in self.lines]
        place = next(k for k, line in enumerate(lines) if pick(line))
        change(lines[place])
        return lines[place].get("line"), replay(json.dumps(line) for line in lines)

    def test_a_file_is_of_its_moment(self):
        room = room_at_work()
        lines = room.lines()
        first = next(lines)
        room.go_on(room.now + 5_000)
        room.teacher({"do": "set_up", "seats": [{}], "cables": []})
        self.assertTrue(replay([first, *lines]).equal)

    def test_another_answer(self):
        line, report = self.altered(lambda l: l.get("call") == "send", lambda l: l.update(answer=2))
        self.assertEqual(report.first_difference, f"line {line}: send answers 0, and not 2")

    def test_another_message(self):
        line, report = self.altered(
            lambda l: l.get("call") == "send", lambda l: l["returned"].update(octets="00")
        )
        self.assertIn(f"line {line}: send returns", report.first_difference)

    def test_one_tick_less(self):
        _, report = self.altered(
            lambda l: l.get("call") == "tick", lambda l: l.update(times=l["times"] - 1)
        )
        self.assertFalse(report.equal)

    def test_another_end(self):
        _, report = self.altered(
            lambda l: "end" in l, lambda l: l["end"]["seats"][1]["table"][0].__setitem__(0, 7)
        )
        self.assertIn("the end of seat 1", report.first_difference)

    def test_a_call_less(self):
        self.assertFalse(replay(self.lines[:-2] + self.lines[-1:]).equal)

    def test_another_form(self):
        first = self.lines[:1]
        for lines in ([], ["x"], ["{}"], ["[]"], ['{"room": 5}'], first, first + ['{"seat": 0}']):
            self.assertFalse(replay(lines).equal)

    def test_nested_deeply(self):
        for line in (100_000 * "[", 100_000 * '{"room":', '{"room": ' + 100_000 * "["):
            report = replay([line])
            self.assertEqual(
                report.first_difference, "after 0 calls the file has another form: a line is nested too deeply"
            )
            report = replay([*self.lines[:3], line])
            self.assertIn("after 2 calls", report.first_difference)


if __name__ == "__main__":
    unittest.main()
