"""Tests of the calls of a seat: replies, changes, messages, texts, views."""

import json
import unittest
from unittest import mock

from classroom.room import Refused, Room, log
from classroom.room.answers import ANSWERS


def call(room, seat, name, **given):
    return room.seat(seat, {"do": "call", "call": name, **given})


def blackboard():
    """The blackboard's exchange: A at 39,900, B 500 ahead; ways of 30 and 51 ms."""
    return Room(
        {
            "seats": [{"by_hand": True}, {"by_hand": True, "difference": 500}],
            "cables": [{"ends": [[0, 1], [1, 1]], "ways": [[30, 30], [51, 51]]}],
            "time": 39_900,
        }
    )


def until_the_answer(room):
    """A sends at 40,000; B gets it at 40,530 and answers at 45,530; it waits at A at 45,081."""
    call(room, 1, "send", link=1)
    room.go_on(51)
    call(room, 0, "receive", message=1)
    room.go_on(100)
    call(room, 0, "send", link=1)
    room.go_on(130)
    call(room, 1, "receive", message=2)
    room.go_on(5_130)
    call(room, 1, "self_report")
    call(room, 1, "send", link=1)
    room.go_on(5_181)


class Replies(unittest.TestCase):
    def test_blackboard(self):
        room = blackboard()
        until_the_answer(room)
        reply = call(room, 0, "receive", message=3)
        self.assertEqual((reply["answer"], reply["name"]), (0, "Done"))
        changed = {(c["where"], c["field"]): (c["before"], c["after"]) for c in reply["changes"]}
        self.assertEqual(changed[("host 1", "DELAY")], (30_000, 100))
        self.assertEqual(changed[("host 1", "OFFSET")], (0, 489))
        self.assertEqual(changed[("host 1", "time")], (0, 45_081))
        self.assertEqual(changed[("link 1", "KEEP-ALIVE")], (3, 4))
        self.assertEqual(call(room, 0, "lookup", address="192.0.2.2")["returned"], {"id": 1, "pid": 1})

    def test_inspection_changes_nothing(self):
        room = blackboard()
        until_the_answer(room)
        reply = call(room, 0, "inspect", message=3)
        returned = {"source": "192.0.2.2", "time": 45_530, "tsp": 45_000, "nhosts": 2}
        self.assertEqual((reply["returned"], reply["changes"]), (returned, []))
        self.assertIn(3, room.seats[0].waiting)

    def test_refusals_in_words(self):
        room = blackboard()
        for name, given, answer in (
            ("step", {}, 17),
            ("lookup", {"address": "192.0.2.2"}, 13),
            ("lookup", {"address": "10.0.0.1"}, 11),
        ):
            reply = call(room, 0, name, **given)
            self.assertEqual(reply["answer"], answer)
            self.assertEqual(reply["meaning"], ANSWERS[answer]["meaning"])
            self.assertEqual(reply["changed_as_told"], ANSWERS[answer]["changes"])
            self.assertEqual(reply["changes"], [])

    def test_set_and_adjust(self):
        room = blackboard()
        field = {"where": "clock", "field": "DELTA", "before": 0, "after": 64}
        self.assertEqual(call(room, 0, "set", ms=64)["changes"], [field])
        after = {c["field"]: c["after"] for c in call(room, 0, "adjust")["changes"]}
        self.assertEqual(after, {"CLOCK": 39_900.5, "DELTA": 63.5})

    def test_answers_are_the_list(self):
        with open("docs/answers.txt", encoding="utf-8") as file:
            rows = [row for row in file if not row.startswith("#")]
        self.assertEqual([int(row.split("\t")[0]) for row in rows], list(ANSWERS))


class Texts(unittest.TestCase):
    def test_written_by_hand(self):
        room = blackboard()
        text = "hello 12331 3600000 4660 1 0\n"
        reply = call(room, 0, "write", link=1, text=text, source="192.0.2.2")
        self.assertEqual(reply["answer"], 0)
        (message,) = room.seat_view(0)["seat"]["waiting"]
        self.assertEqual((message["text"], message["from"]), (text, "192.0.2.2"))
        self.assertEqual(message["octets"].split(" ")[20:22], ["cd", "e9"])
        fields = {field["name"]: (field["value"], field["octets"]) for field in message["fields"]}
        self.assertEqual(fields["CHECKSUM"], ("cde9 hex", [20, 22]))
        self.assertEqual(fields["TIME"], (["packet.time", {"ms": 3_600_000, "clock": "01:00:00.000"}], [24, 28]))
        self.assertEqual(fields["TSP"], (4_660, [28, 30]))
        self.assertEqual(call(room, 0, "inspect", message=message["message"])["answer"], 0)

    def test_looped(self):
        room = blackboard()
        call(room, 0, "write", link=1, text="hello 0 0 0 1 0\n", source="192.0.2.1")
        self.assertEqual(call(room, 0, "receive", message=1)["answer"], 9)
        self.assertEqual(room.seats[0].waiting, {})

    def test_table(self):
        room = blackboard()
        text = "hello 0 0 1 1 2\n30000 -5\n0 7\n"
        call(room, 0, "write", link=1, text=text, source="192.0.2.2")
        (message,) = room.seat_view(0)["seat"]["waiting"]
        named = {field["name"]: field["value"] for field in message["fields"]}
        self.assertEqual(named["host 0 DELAY"], ["packet.ms", {"ms": 30_000}])
        self.assertEqual(named["host 0 OFFSET"], ["packet.ms", {"ms": -5}])
        self.assertEqual(message["fields"][-1]["octets"], [38, 40])

    def test_refused(self):
        room = blackboard()
        for text, answer in (("hello", 14), ("hello 65536 0 0 1 0\n", 15), ("", 14)):
            self.assertEqual(call(room, 0, "write", link=1, text=text)["answer"], answer)
        self.assertEqual(room.seats[0].waiting, {})

    def test_drop(self):
        room = blackboard()
        call(room, 0, "write", link=1, text="hello 0 0 0 1 0\n")
        self.assertEqual(call(room, 0, "drop", message=1), {"dropped": 1})
        with self.assertRaises(Refused):
            call(room, 0, "drop", message=1)


class FullList(unittest.TestCase):
    def test_all_stands(self):
        room = Room.fresh()
        with mock.patch.object(log, "MOST", 20_000):
            room.go_on(100_000)
            self.assertLess(room.now, 100_000)
            self.assertTrue(room.teacher_view()["room"]["full"])
            for do in ("one_second", "one_message"):
                with self.assertRaises(Refused):
                    room.teacher({"do": do})
            with self.assertRaises(Refused):
                call(room, 0, "read")
            room.teacher({"do": "set_up", "seats": [{}], "cables": []})
            self.assertEqual(call(room, 0, "read")["answer"], 0)

    def test_one_seat_fills_its_part_alone(self):
        """The longest texts without pause, in characters that the list writes longest."""
        room = blackboard()
        text = 4_000 * "\u00e9"
        with self.assertRaisesRegex(Refused, "its part of the list"):
            while True:
                call(room, 0, "write", link=1, text=text)
        self.assertLess(sum(len(line) + 1 for line in room.lines()), log.OF_A_SEAT + 50_000)
        self.assertFalse(room.teacher_view()["room"]["full"])
        self.assertEqual(call(room, 1, "read")["answer"], 0)
        self.assertEqual(room.teacher({"do": "call", "seat": 0, "call": "read"})["answer"], 0)
        room.go_on(1_000)
        room.teacher({"do": "set_up", "seats": [{}], "cables": []})
        self.assertEqual(call(room, 0, "read")["answer"], 0)


class Views(unittest.TestCase):
    def test_first_and_later(self):
        room = Room.fresh()
        first = room.teacher_view()
        self.assertEqual(len(first["answers"]), len(ANSWERS))
        self.assertEqual([box["step"] for box in first["checklist"]], [1, 2, 3, 4, 5, 5, 5, 5, 5])
        room.go_on(1_000)
        later = room.teacher_view(first["mark"])
        self.assertNotIn("answers", later)
        self.assertEqual([c["line"] for c in later["calls"]][0], first["mark"][1] + 1)
        self.assertEqual(room.teacher_view(later["mark"])["calls"], [])

    def test_points(self):
        room = Room.fresh()
        room.go_on(30_000)
        points = room.teacher_view()["points"]
        self.assertEqual(len(points), room.pointed)
        for time, seat, id, error, delay in points:
            self.assertLessEqual(200 * abs(error), 101 * delay)
        new = room.teacher_view([room.number, 0, room.pointed - 2])["points"]
        self.assertEqual(new, points[-2:])

    def test_bound(self):
        room = Room.fresh()
        room.go_on(30_000)
        table = room.teacher_view()["seats"][0]["table"]
        self.assertEqual([entry["bound"] for entry in table], [0, 50.5, 101, 50.5])
        for entry in table:
            self.assertEqual(entry["error"], entry["offset"] - entry["true"])

    def test_a_new_room_begins_anew(self):
        room = Room.fresh()
        room.go_on(5_000)
        mark = room.teacher_view()["mark"]
        room.teacher({"do": "set_up", "seats": [{}], "cables": []})
        view = room.teacher_view(mark)
        self.assertEqual([line["call"] for line in view["calls"]], ["net_afresh", "initialize"])
        self.assertIsNone(room.seat_view(3)["seat"])

    def test_a_student_sees_no_true_difference(self):
        room = Room.fresh()
        room.teacher({"do": "show", "what": "tables"})
        view = json.dumps(room.seat_view(0, first=True))
        for word in ('"true"', '"error"', '"within"'):
            self.assertNotIn(word, view)

    def test_show(self):
        room = Room.fresh()
        for what, keys in (("nothing", None), ("picture", {"number", "name"})):
            room.teacher({"do": "show", "what": what})
            others = room.seat_view(0)["others"]
            self.assertEqual(others and set(others["seats"][0]), keys)

    def test_all_views_are_json(self):
        room = Room.fresh(16)
        room.teacher({"do": "by_hand", "seat": 3, "on": True})
        room.go_on(20_000)
        views = [room.teacher_view()] + [room.seat_view(k, True) for k in range(16)]
        json.dumps(views, allow_nan=False)


if __name__ == "__main__":
    unittest.main()
