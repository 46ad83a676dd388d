"""Tests of the room's time: ticks, crystals, marks, arrivals, waiting for hands."""

import unittest

from classroom.room import Refused, Room

NOON = 43_200_000


def pair(ways=((30, 30), (30, 30)), **second):
    """Two seats that work by hand, and one cable."""
    return Room(
        {
            "seats": [{"by_hand": True}, {"by_hand": True, **second}],
            "cables": [{"ends": [[0, 1], [1, 1]], "ways": [list(way) for way in ways]}],
        }
    )


def call(room, seat, name, **given):
    return room.seat(seat, {"do": "call", "call": name, **given})


def reading(room, seat):
    return call(room, seat, "read")["returned"]["time"]


class Ticks(unittest.TestCase):
    def test_line_clock(self):
        room = pair(difference=500)
        room.go_on(1_234)
        self.assertEqual(reading(room, 0), NOON + 1_234)
        self.assertEqual(reading(room, 1), NOON + 1_734)

    def test_ticks_are_one_line(self):
        room = pair()
        for _ in range(10):
            room.advance(20)
        call(room, 0, "read")
        lines = [line for line in room.log.recent if line["seat"] == 0]
        returned = [(line["call"], line["times"], line["time"]) for line in lines]
        self.assertEqual(returned, [("initialize", 1, 0), ("tick", 200, 200), ("read", 1, 200)])

    def test_parts_of_a_millisecond_add_up(self):
        room = pair()
        self.assertEqual([room.advance(0.25) for _ in range(8)], [0, 0, 0, 1, 0, 0, 0, 1])

    def test_fastest(self):
        room = Room({"seats": 16 * [{"by_hand": True}], "cables": []})
        self.assertEqual(room.advance(2_000), 250)
        crystals = Room({"seats": 16 * [{"by_hand": True, "crystal": True}], "cables": []})
        self.assertEqual(crystals.advance(2_000), 2_000)


class Crystals(unittest.TestCase):
    def test_counter_and_mark(self):
        room = pair(crystal=True, difference=500)
        room.go_on(65_000)
        self.assertEqual(reading(room, 1), NOON + 65_500)
        room.go_on(65_600)
        self.assertEqual(reading(room, 1), NOON + 66_100)
        self.assertEqual(room.log.recent[-1]["with"], {"counter": [64, True, 64]})
        self.assertEqual(reading(room, 1), NOON + 66_100)
        self.assertEqual(room.log.recent[-1]["with"], {"counter": [64, False, 0]})

    def test_overflows_without_a_call(self):
        room = pair(crystal=True)
        room.go_on(3 * 65_536 + 7)
        self.assertEqual(reading(room, 1), NOON + 3 * 65_536 + 7)
        made = [(line["call"], line["times"]) for line in room.log.recent if line["seat"] == 1]
        self.assertEqual(made, [("initialize", 1), ("tick", 2), ("read", 1)])

    def test_a_call_without_a_mark_comes_after_the_tick(self):
        room = pair(crystal=True)
        room.go_on(65_600)
        call(room, 1, "set", ms=5)
        made = [(line["call"], line["with"]) for line in room.log.recent if line["seat"] == 1]
        self.assertEqual(made[1:], [("tick", {"count": 64}), ("set", {"ms": 5, "count": 64})])
        self.assertEqual(reading(room, 1), NOON + 65_600)

    def test_shown_clock_is_the_reading(self):
        room = pair(crystal=True, difference=-77)
        for _ in range(12):
            room.go_on(room.now + 19_973)
            for number in (0, 1):
                shown = room.seat_view(number)["seat"]["clock"]["time"]
                self.assertEqual(shown, reading(room, number))

    def test_midnight(self):
        seats = [{"by_hand": True}, {"by_hand": True, "crystal": True}]
        room = Room({"seats": seats, "cables": [], "time": 86_399_000})
        room.go_on(1_000)
        for number in (0, 1):
            self.assertEqual(reading(room, number), 86_400_000)
        room.go_on(1_001)
        for number in (0, 1):
            self.assertEqual(reading(room, number), 1)
            self.assertEqual(room.seat_view(number)["seat"]["clock"]["day"], "1984-02-01")


class Arrivals(unittest.TestCase):
    def test_way(self):
        room = pair()
        call(room, 0, "send", link=1)
        self.assertEqual(room.teacher_view()["on_their_way"][0]["arrives"] - room.now, 30)
        room.go_on(29)
        self.assertEqual(room.seats[1].waiting, {})
        room.go_on(30)
        self.assertEqual([m.arrived for m in room.seats[1].waiting.values()], [30])

    def test_no_time_at_all(self):
        room = pair(((0, 0), (0, 0)))
        call(room, 0, "send", link=1)
        self.assertEqual(len(room.seats[1].waiting), 1)

    def test_loss(self):
        room = pair()
        room.teacher({"do": "cable", "cable": 0, "ways": [[0, 0], [0, 0]], "loss": [100, 0]})
        call(room, 0, "send", link=1)
        call(room, 1, "send", link=1)
        self.assertEqual((len(room.seats[1].waiting), len(room.seats[0].waiting)), (0, 1))

    def test_same_seed_same_ways(self):
        def ends(seed):
            room = Room({**SET_UP, "seed": seed})
            room.go_on(60_000)
            return list(room.lines())[1:]

        self.assertEqual(ends(5), ends(5))
        self.assertNotEqual(ends(5), ends(6))

    def test_one_message(self):
        room = pair()
        with self.assertRaises(Refused):
            room.teacher({"do": "one_message"})
        call(room, 0, "send", link=1)
        self.assertEqual(room.teacher({"do": "one_message"}), {"time": 30})

    def test_a_full_cable_and_a_full_seat(self):
        room = pair()
        for _ in range(256):
            call(room, 0, "send", link=1)
        with self.assertRaises(Refused):
            call(room, 0, "send", link=1)
        room.go_on(30)
        self.assertEqual(list(room.seats[1].waiting), list(range(193, 257)))


SET_UP = {
    "seats": [{}, {"difference": 250}, {"crystal": True}],
    "cables": [
        {"ends": [[0, 1], [1, 1]], "ways": [[0, 40], [0, 40]], "loss": [20, 20]},
        {"ends": [[1, 2], [2, 1]], "ways": [[0, 40], [0, 40]], "loss": [20, 20]},
    ],
}


class ByItself(unittest.TestCase):
    def test_learns(self):
        room = Room.fresh()
        room.go_on(60_000)
        for seat in room.teacher_view()["seats"]:
            for entry in seat["table"]:
                self.assertTrue(entry["live"] and entry["within"], entry)
                self.assertEqual(entry["delay"], 100 * min(
                    (entry["id"] - seat["number"]) % 4, (seat["number"] - entry["id"]) % 4))

    def test_true_differences(self):
        room = Room.fresh()
        room.go_on(70_001)
        trues = [entry["true"] for entry in room.teacher_view()["seats"][1]["table"]]
        self.assertEqual(trues, [-500, 0, -1_700, 2_500])

    def test_each_second(self):
        room = Room({"seats": [{}], "cables": [], "interval": 2})
        room.go_on(4_000)
        made = [line["call"] for line in room.log.recent if line["call"] != "tick"]
        second = ["second", "adjust"]
        report = second + ["self_report"]
        afresh = ["net_afresh", "initialize"]
        self.assertEqual(made, afresh + second + report + second + report)


class Hands(unittest.TestCase):
    def test_waits(self):
        room = pair()
        room.teacher({"do": "waits", "on": True})
        call(room, 0, "send", link=1)
        room.advance(100)
        self.assertEqual((room.now, room.waiting_for()), (30, [1]))
        with self.assertRaises(Refused):
            room.teacher({"do": "one_second"})
        call(room, 1, "receive", message=1)
        room.advance(100)
        self.assertEqual(room.now, 130)

    def test_a_walk_keeps_ticks_waiting(self):
        room = pair()
        call(room, 0, "send", link=1)
        room.go_on(30)
        call(room, 1, "open_walk", message=1)
        room.go_on(10_030)
        self.assertEqual(room.seats[1].due(room.now), 10_000)
        while room.seats[1].in_walk:
            call(room, 1, "step")
        self.assertEqual(reading(room, 1), NOON + 10_030)

    def test_initialize_drops_the_walk_and_the_ticks(self):
        for crystal in (False, True):
            room = pair(crystal=crystal, difference=5)
            call(room, 0, "send", link=1)
            room.go_on(30)
            call(room, 1, "open_walk", message=1)
            call(room, 1, "step")
            room.go_on(2 * 65_536)
            self.assertEqual(call(room, 1, "initialize")["answer"], 0)
            self.assertEqual(room.seats[1].due(room.now), 0)
            self.assertEqual(reading(room, 1), NOON + 5)

    def test_time_stands_for_a_long_walk(self):
        room = pair()
        call(room, 0, "send", link=1)
        room.go_on(30)
        call(room, 1, "open_walk", message=1)
        room.go_on(2_000_000)
        self.assertEqual(room.now, 601_000)
        self.assertEqual(room.waiting_for(), [1])

    def test_time_stands_for_a_crystal_at_step_1(self):
        room = pair(crystal=True)
        call(room, 0, "send", link=1)
        room.go_on(30)
        call(room, 1, "open_walk", message=1)
        room.go_on(200_000)
        self.assertEqual(room.waiting_for(), [1])
        call(room, 1, "step")
        self.assertEqual(room.seats[1].host.walk.reading, NOON + room.now)
        to = room.now + 200_000
        room.go_on(to)
        self.assertEqual(room.now, to)
        while room.seats[1].in_walk:
            call(room, 1, "step")
        self.assertEqual(reading(room, 1), NOON + to)


if __name__ == "__main__":
    unittest.main()
