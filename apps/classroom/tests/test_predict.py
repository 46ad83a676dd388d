"""Tests of predictions: what is asked, how it is marked, and that the library alone knows."""

import json
import random
import unittest

from test_room_calls import blackboard, call, until_the_answer
from test_room_walk import of_text

from classroom.room import Refused, Room
from classroom.room.copied import copied
from classroom.room.state import shown, state_of


def predict(room, seat, of, fields, **more):
    """A prediction of a student."""
    return room.seat(seat, {"do": "predict", "of": of, "fields": fields, **more})


def asks(room, seat):
    """The fields that are asked at the next box."""
    return room.seat_view(seat)["seat"]["walk"]["asks"]


def wrong(fields):
    """Values that are right at no box."""
    return {field: "192.0.2.99" if field in ("then", "NEIGHBOR-ADDRESS") else -99_999 for field in fields}


class OfAWalk(unittest.TestCase):
    def setUp(self):
        self.room = blackboard()
        until_the_answer(self.room)
        self.room.teacher({"do": "predict", "mode": "required"})
        call(self.room, 0, "open_walk", message=3)

    def test_the_blackboard(self):
        """A sends at 40,000 and gets the answer at 45,081: all of it predicted."""
        entry = {"entry DELAY": 100, "entry OFFSET": 489, "entry TTL": 120, "entry PID": 1}
        for place, fields in (
            ("step 1", {"reading": 45_081}),
            ("step 2", {"KEEP-ALIVE": 4}),
            ("step 3", {"TSP": 449, "DELAY": 81, "OFFSET": 489}),
            ("step 4", {"NEIGHBOR-ADDRESS": "192.0.2.2", "then": "on", "DELAY": 81}),
            ("step 5", {"then": "on", "DELAY": 100}),
            ("host 0, line a", {"then": "end"}),
            ("host 1, line a", {"then": "on"}),
            ("host 1, line b", {"then": "on", "entry DELAY": 30_000, "entry TTL": 0}),
            ("host 1, line c", entry),
        ):
            self.assertEqual(set(asks(self.room, 0)), set(fields))
            reply = predict(self.room, 0, "step", fields)
            self.assertEqual((reply["place"], reply["try"], reply["right"]), (place, 1, True), reply)
            self.assertEqual(reply["reply"]["returned"]["box"], place)
            self.assertTrue(reply["words"])
        self.assertFalse(self.room.seats[0].in_walk)
        student = self.room.lesson.students[0]
        self.assertEqual((student.tried, student.right, student.second), (9, 9, 0))

    def test_a_hint_then_the_answer(self):
        predict(self.room, 0, "step", {"reading": 45_081})
        predict(self.room, 0, "step", {"KEEP-ALIVE": 4})
        before = shown(state_of(self.room.seats[0].host))
        slip = {"TSP": 449, "DELAY": 100, "OFFSET": 498}
        reply = predict(self.room, 0, "step", slip)
        self.assertEqual([mark["right"] for mark in reply["fields"]], [True, False, False])
        self.assertEqual((reply["done"], reply["try"]), (False, 1))
        self.assertEqual(reply["hints"], ["hint.3.DELAY", "hint.3.OFFSET"])
        self.assertNotIn("81", json.dumps(reply))
        self.assertEqual(shown(state_of(self.room.seats[0].host)), before)
        self.assertEqual(self.room.seat_view(0)["seat"]["trying"], [reply])
        reply = predict(self.room, 0, "step", {**slip, "DELAY": 81})
        self.assertEqual((reply["done"], reply["try"], reply["right"]), (True, 2, False))
        self.assertEqual([mark["expected"] for mark in reply["fields"]], [449, 81, 489])
        self.assertEqual(reply["reply"]["returned"]["box"], "step 3")
        student = self.room.lesson.students[0]
        self.assertEqual((student.right, student.second, student.missed), (2, 0, 1))

    def test_the_second_try_counts(self):
        predict(self.room, 0, "step", {"reading": 1})
        self.assertTrue(predict(self.room, 0, "step", {"reading": 45_081})["right"])
        student = self.room.lesson.students[0]
        self.assertEqual((student.right, student.second, student.missed), (0, 1, 0))

    def test_no_call_before_it(self):
        for name, more in (("step", {}), ("walk_on", {"to": "end"})):
            with self.assertRaises(Refused):
                call(self.room, 0, name, **more)
        self.assertEqual(self.room.teacher({"do": "call", "seat": 0, "call": "step"})["answer"], 0)
        self.room.teacher({"do": "predict", "mode": "offered"})
        self.assertEqual(call(self.room, 0, "step")["answer"], 0)
        self.room.teacher({"do": "predict", "mode": "off"})
        with self.assertRaises(Refused):
            predict(self.room, 0, "step", {"TSP": 1, "DELAY": 1, "OFFSET": 1})

    def test_other_forms(self):
        for fields in (None, {"reading": 1.5}, {"reading": True}, {"TSP": 1}, {}, {"reading": "x" * 99}):
            with self.assertRaises(Refused):
                predict(self.room, 0, "step", fields)
        with self.assertRaises(Refused):
            predict(self.room, 0, "step", {"reading": 1}, link=1)
        with self.assertRaises(Refused):
            predict(self.room, 0, "tick", {"reading": 1})
        self.assertEqual(self.room.seats[0].trying, {})

    def test_the_moment_is_not_asked_of_a_running_room(self):
        self.room.teacher({"do": "run"})
        self.assertEqual(asks(self.room, 0), [])
        self.room.teacher({"do": "waits", "on": True})
        self.assertEqual(asks(self.room, 0), ["reading"])


class AtRandom(unittest.TestCase):
    """What a prediction expects is what the library then does, for all kinds of packets."""

    def test_boxes(self):
        seats = [{"by_hand": True, "clock_host": 1, "crystal": True}]
        room, choose = Room({"seats": seats, "cables": [], "nhosts": 3}), random.Random(3)
        room.teacher({"do": "predict", "mode": "required"})
        seen = set()
        for number in range(1, 200):
            source = f"192.0.2.{choose.choice((2, 2, 2, 3, 9))}"
            call(room, 0, "write", link=1, text=of_text(choose), source=source)
            if number % 20 == 0:
                room.go_on(room.now + 120_000)
                room.make(room.seats[0], "second", times=120)
            if call(room, 0, "open_walk", message=number)["answer"]:
                continue
            while room.seats[0].in_walk:
                fields = wrong(asks(room, 0))
                first = predict(room, 0, "step", fields)
                self.assertFalse(first["done"])
                second = predict(room, 0, "step", fields)
                expected = {mark["field"]: mark["expected"] for mark in second["fields"]}
                self.check(room, second, expected)
                seen.add(second["reply"]["returned"]["box"])
        self.assertEqual(len(seen), 5 + 3 * 3 + 1)

    def check(self, room, made, expected):
        """The expected values are those of the host after the call, and of its walk."""
        seat, box = room.seats[0], made["reply"]["returned"]["box"]
        link, walk = seat.state.links[0], seat.state.walk
        if "KEEP-ALIVE" in expected:
            self.assertEqual(expected["KEEP-ALIVE"], link.keep_alive)
        if "TSP" in expected:
            self.assertEqual(expected["TSP"], link.tsp)
        if "DELAY" in expected:
            self.assertEqual(expected["DELAY"], walk[2])
        if "OFFSET" in expected:
            self.assertEqual(expected["OFFSET"], walk[3])
        if "entry DELAY" in expected:
            entry = seat.state.table[int(box.split(",")[0].split(" ")[1])]
            self.assertEqual(expected["entry DELAY"], entry.delay)
            self.assertEqual(expected["entry TTL"], entry.ttl)
        if "entry OFFSET" in expected:
            self.assertEqual((expected["entry OFFSET"], expected["entry PID"]), (entry.offset, entry.pid))
        if "then" in expected and box.startswith("step"):
            self.assertEqual(expected["then"], "on" if walk else "end")

    def test_a_copy_changes_nothing(self):
        room = Room.fresh()
        room.go_on(60_000)
        for seat in room.seats:
            before = shown(state_of(seat.host))
            copy = copied(seat.host)
            self.assertEqual(shown(state_of(copy)), before)
            for name in ("initialize", "second", "self_report", "adjust"):
                self.assertEqual(getattr(copy, name)(), 0)
            copy.set(5_000)
            copy.send(1)
            self.assertNotEqual(shown(state_of(copy)), before)
            self.assertEqual(shown(state_of(seat.host)), before)


class OfAnArrival(unittest.TestCase):
    def setUp(self):
        self.room = blackboard()
        until_the_answer(self.room)
        self.room.teacher({"do": "predict", "mode": "required"})

    def test_right(self):
        with self.assertRaises(Refused):
            call(self.room, 0, "receive", message=3)
        fields = {"answer": 0, "host 1 DELAY": 100, "host 1 OFFSET": 489}
        reply = predict(self.room, 0, "receive", fields, message=3)
        self.assertEqual((reply["right"], reply["reply"]["answer"]), (True, 0))
        self.assertIn(["sum.raised", {"delay": 81}], reply["words"])
        self.assertEqual(self.room.seats[0].state.table[1].offset, 489)

    def test_what_is_not_named(self):
        reply = predict(self.room, 0, "receive", {"answer": 0, "host 0 DELAY": 0}, message=3)
        self.assertEqual((reply["done"], reply["more"], reply["hints"]), (False, 2, ["hint.receive"]))
        self.assertNotIn("489", json.dumps(reply))
        reply = predict(self.room, 0, "receive", {"answer": 10}, message=3)
        self.assertFalse(reply["right"])
        expected = {mark["field"]: mark["expected"] for mark in reply["fields"]}
        self.assertEqual(expected, {"answer": 0, "host 1 DELAY": 100, "host 1 OFFSET": 489})


class OfASend(unittest.TestCase):
    def setUp(self):
        self.room = blackboard()

    def test_before_and_after_the_neighbor_is_heard(self):
        room = self.room
        room.teacher({"do": "predict", "mode": "required"})
        with self.assertRaises(Refused):
            call(room, 0, "send", link=1)
        now = room.seats[0].reading(room.now)
        fresh = {"NHOSTS": 0, "KEEP-ALIVE": 0, "TIME": now, "TSP of the message": 0}
        reply = predict(room, 0, "send", fresh, link=1)
        self.assertTrue(reply["right"], reply)
        self.assertEqual(reply["words"][0][0], "sum.send.none")
        self.assertEqual(reply["reply"]["call"], "send")

    def test_heard(self):
        until_the_answer(self.room)
        call(self.room, 0, "receive", message=3)
        self.room.teacher({"do": "predict", "mode": "offered"})
        now = self.room.seats[0].reading(self.room.now)
        link = self.room.seats[0].state.links[0]
        heard = {"NHOSTS": 2, "KEEP-ALIVE": 3, "TIME": now, "TSP of the message": (link.tsp + now) % 65_536}
        self.assertTrue(predict(self.room, 0, "send", heard, link=1)["right"])


class Queues(unittest.TestCase):
    def test_each_link_has_its_own(self):
        """Seventy sends on one link push nothing out of the queue of another."""
        cables = [{"ends": [[k, 1], [1, 1 + k // 2]], "ways": [[0, 0], [0, 0]]} for k in (0, 2)]
        room = Room({"seats": 3 * [{"by_hand": True}], "cables": cables})
        call(room, 2, "send", link=1)
        for _ in range(70):
            call(room, 0, "send", link=1)
        links = [message.link for message in room.seats[1].waiting.values()]
        self.assertEqual((links.count(1), links.count(2)), (64, 1))
        lost = room.seat_view(1)["seat"]["lost"]
        self.assertEqual([(each["link"], each["count"], each["message"]) for each in lost], [(1, 6, 7)])


class Sent(unittest.TestCase):
    def test_where_a_message_is(self):
        cable = {"ends": [[0, 1], [1, 1]], "ways": [[30, 30], [30, 30]], "loss": [0, 100]}
        room = Room({"seats": 2 * [{"by_hand": True}], "cables": [cable]})
        way = call(room, 0, "send", link=1)["returned"]["way"]
        self.assertEqual(way, {"message": 1, "to": 1, "arrival": 30, "lost": False})
        sent = {"message": 1, "link": 1, "to": 1, "arrival": 30}
        self.assertEqual(room.seat_view(0)["seat"]["sent"], [sent])
        self.assertTrue(call(room, 1, "send", link=1)["returned"]["way"]["lost"])
        self.assertEqual(room.seat_view(1)["seat"]["sent"], [])


class InOneMessage(unittest.TestCase):
    def test_to_the_end(self):
        """One message ends a walk as single boxes do."""
        rooms = [blackboard(), blackboard()]
        for room in rooms:
            until_the_answer(room)
            call(room, 0, "open_walk", message=3)
        while rooms[0].seats[0].in_walk:
            last = call(rooms[0], 0, "step")
        self.assertEqual(call(rooms[1], 0, "walk_on", to="end"), last)
        walks = [room.seat_view(0)["seat"]["walk"] for room in rooms]
        self.assertEqual(walks[0], walks[1])

    def test_to_the_next_host(self):
        room = blackboard()
        until_the_answer(room)
        call(room, 0, "open_walk", message=3)
        for place in ("host 0, line a", "host 1, line a"):
            self.assertEqual(call(room, 0, "walk_on", to="host")["returned"]["next"]["name"], place)
        self.assertIsNone(call(room, 0, "walk_on", to="host")["returned"]["next"])


if __name__ == "__main__":
    unittest.main()
