"""Tests of walks: the boxes, their sums and changes, the end that is the arrival's."""

import random
import unittest

from test_room_calls import blackboard, call, until_the_answer

from classroom.room import Refused, Room


def walk(room, seat, message):
    """Walks a message to its end: the replies of all boxes."""
    replies = [call(room, seat, "open_walk", message=message)]
    while room.seats[seat].in_walk:
        replies.append(call(room, seat, "step"))
    return replies


class Blackboard(unittest.TestCase):
    def setUp(self):
        self.room = blackboard()
        until_the_answer(self.room)

    def test_boxes(self):
        walk(self.room, 0, 3)
        self.assertEqual(self.room.seat_view(0)["seat"]["waiting"], [])
        walked = self.room.seat_view(0)["seat"]["walk"]
        self.assertTrue(walked["ended"])
        self.assertIsNone(walked["next"])
        names = [box["name"] for box in walked["boxes"]]
        steps = [f"step {k}" for k in range(1, 6)]
        self.assertEqual(names, steps + ["host 0, line a"] + [f"host 1, line {x}" for x in "abc"])

    def test_sums(self):
        sums = [reply["returned"].get("sum") for reply in walk(self.room, 0, 3)]
        self.assertEqual(
            sums[3],
            "TSP: packet time 45,530 - reading 45,081 = 449; "
            "DELAY: reading 45,081 - packet TSP 45,000 = 81; "
            "OFFSET: half of 81, rounded down, is 40, and TSP 449 + 40 = 489",
        )
        self.assertIn("DELAY 81 is under 100: it becomes 100", sums[5])
        self.assertIn("DELAY 100 + the packet's 30,000 = 30,100", sums[6])
        self.assertIn("30,100 + 100 = 30,200 is over the entry's 30,000: nothing", sums[6])
        self.assertIn("100 + 100 = 200 is not over the entry's 30,000: go on", sums[7])
        self.assertIn("OFFSET 489 + the packet's 0 = 489", sums[9])

    def test_changes(self):
        changes = [reply["changes"] for reply in walk(self.room, 0, 3)]
        keep_alive = {"where": "link 1", "field": "KEEP-ALIVE", "before": 3, "after": 4}
        self.assertIn(keep_alive, changes[2])
        delay = {"where": "walk", "field": "DELAY", "before": None, "after": 81}
        self.assertIn(delay, changes[3])
        stored = {"where": "host 1", "field": "DELAY", "before": 30_000, "after": 100}
        self.assertIn(stored, changes[9])
        ended = [change for change in changes[9] if change["where"] == "walk"]
        self.assertEqual([change["field"] for change in ended], ["next"])

    def test_the_last_hundred(self):
        text = "hello 0 45530 45000 1 2\n29800 0\n29801 0\n"
        call(self.room, 0, "write", link=1, text=text, source="192.0.2.2")
        sums = {reply["returned"].get("box"): reply["returned"].get("sum") for reply in walk(self.room, 0, 4)}
        self.assertIn("29,900 + 100 = 30,000 is not over the entry's 30,000", sums["host 0, line a"])
        self.assertIn("29,901 + 100 = 30,001 is over the entry's 30,000", sums["host 1, line a"])
        self.assertIn("host 0, line c", sums)
        self.assertNotIn("host 1, line b", sums)

    def test_other_calls_wait(self):
        call(self.room, 0, "open_walk", message=3)
        for name in ("read", "tick", "second", "adjust", "self_report"):
            self.assertEqual(call(self.room, 0, name)["answer"], 16)
        self.assertEqual(call(self.room, 0, "send", link=1)["answer"], 16)
        call(self.room, 0, "write", link=1, text="hello 0 0 0 1 0\n")
        self.assertEqual(call(self.room, 0, "receive", message=4)["answer"], 16)
        self.assertIn(4, self.room.seats[0].waiting)
        with self.assertRaises(Refused):
            self.room.seat(0, {"do": "by_hand", "on": False})
        self.assertEqual(call(self.room, 0, "initialize")["answer"], 0)
        self.assertIsNone(self.room.seat_view(0)["seat"]["walk"])

    def test_shown_until_the_next_call(self):
        walk(self.room, 0, 3)
        self.assertIsNotNone(self.room.seat_view(0)["seat"]["walk"])
        call(self.room, 0, "read")
        self.assertIsNone(self.room.seat_view(0)["seat"]["walk"])
        self.assertEqual(call(self.room, 0, "step")["answer"], 17)

    def test_by_itself(self):
        room = Room.fresh()
        call(room, 0, "write", link=1, text="hello 0 0 0 1 0\n")
        with self.assertRaises(Refused):
            call(room, 0, "open_walk", message=1)


def of_text(random):
    """A text that is often taken, and now and then refused."""
    lines = random.choice((0, 3, 3, 3))
    date, time = random.choice((0, 1056, 33_000, 9_999)), random.randrange(1 << 32)
    tsp = random.choice((0, random.randrange(1 << 16)))
    text = f"hello {date} {time} {tsp} 1 {lines}\n"
    for _ in range(lines):
        delay = random.choice((0, 100, 29_900, 30_000, 65_400, random.randrange(65_536)))
        text += f"{delay} {random.randrange(-32_768, 32_768)}\n"
    return text


class Verdicts(unittest.TestCase):
    """What a sum says comes next is what comes next."""

    def check(self, box, reply):
        said, returned = reply["returned"]["sum"], reply["returned"]["next"]
        if box.startswith("step"):
            self.assertEqual(said.endswith(": 10"), reply["answer"] == 10, said)
            self.assertEqual(said.endswith(": 11"), reply["answer"] == 11, said)
            return
        host, line = box.split(", line ")
        following = chr(ord(line) + 1)
        goes_on = returned is not None and returned["name"] == f"{host}, line {following}"
        if line in "ab":
            self.assertEqual(said.endswith("go on"), goes_on, said)
        if line == "b" and reply["changes"][0]["where"] == host:
            self.assertIn("the entry becomes 30,000", said)
        if line == "c":
            after = {c["field"]: c["after"] for c in reply["changes"] if c["where"] == host}
            delay = said.split("; ")[0].split(" ")[-1].replace(",", "")
            self.assertEqual(int(delay), after.get("DELAY", int(delay)))
            offset = said.split("; ")[1].split(" ")[-1].replace(",", "")
            self.assertEqual(int(offset), after.get("OFFSET", int(offset)))

    def test_at_random(self):
        seats = [{"by_hand": True, "clock_host": 1}]
        room, choose = Room({"seats": seats, "cables": [], "nhosts": 3}), random.Random(8)
        seen = set()
        for number in range(1, 500):
            source = f"192.0.2.{choose.choice((2, 2, 2, 3, 9))}"
            call(room, 0, "write", link=1, text=of_text(choose), source=source)
            for _ in range(choose.choice((0, 0, 0, 150))):
                call(room, 0, "second")
            for reply in walk(room, 0, number)[1:]:
                self.check(reply["returned"]["box"], reply)
                seen.add(reply["returned"]["box"])
        self.assertEqual(len(seen), 5 + 3 * 3 + 1)


class SameAsArrival(unittest.TestCase):
    """Each message is walked at one seat and taken at once at a twin of it."""

    def test_twins(self):
        seats = [{"by_hand": True, "clock_host": 1, "crystal": True}]
        rooms = [Room({"seats": seats, "cables": [], "nhosts": 3}) for _ in range(2)]
        choose = random.Random(4)
        answers = set()
        for number in range(1, 600):
            text, source = of_text(choose), f"192.0.2.{choose.choice((1, 2, 2, 2, 3, 9))}"
            for room in rooms:
                call(room, 0, "write", link=1, text=text, source=source)
                if number % 50 == 0:
                    room.go_on(room.now + 120_000)
                    for _ in range(120):
                        call(room, 0, "second")
            last = walk(rooms[0], 0, number)[-1]["answer"]
            self.assertEqual(call(rooms[1], 0, "receive", message=number)["answer"], last)
            if last == 9:
                call(rooms[0], 0, "drop", message=number)
            states = [room.seats[0].state for room in rooms]
            self.assertEqual(states[0], states[1])
            answers.add(last)
        self.assertEqual(answers, {0, 9, 10, 11})


if __name__ == "__main__":
    unittest.main()
