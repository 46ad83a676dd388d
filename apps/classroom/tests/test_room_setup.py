"""Tests of set-ups: what is refused, and what a good one comes to."""

import unittest

from classroom.room import Refused, Room

TWO = [{}, {}]


def cable(first=(0, 1), second=(1, 1), **more):
    return {"ends": [list(first), list(second)], "ways": [[0, 5], [0, 5]], **more}


BAD = {
    "no seat": {"seats": []},
    "seventeen seats": {"seats": 17 * [{}]},
    "seats that are no list": {"seats": {}},
    "an unknown key": {"size": 4},
    "an unknown key of a seat": {"seats": [{"nane": "Ada"}]},
    "a switch that is a number": {"seats": [{"crystal": 1}]},
    "a number that is a switch": {"seats": [{"difference": True}]},
    "a number with parts": {"seats": [{"difference": 1.0}]},
    "a clock before the day": {"seats": [{"difference": -43_200_001}]},
    "a clock behind the day": {"seats": [{"difference": 43_200_000}]},
    "a clock host that is none": {"seats": [{"clock_host": 1}]},
    "a long name": {"seats": [{"name": 25 * "x"}]},
    "an interval of nothing": {"interval": 0},
    "fewer hosts than seats": {"nhosts": 1},
    "more hosts than may be": {"nhosts": 33},
    "a time behind the day": {"time": 86_400_000},
    "a cable from a seat to itself": {"cables": [cable((0, 1), (0, 2))]},
    "two cables at a link": {"cables": [cable(), cable((0, 1), (1, 2))]},
    "a link 0": {"cables": [cable((0, 0))]},
    "a link 9": {"cables": [cable((0, 9))]},
    "a seat that is none": {"cables": [cable((2, 1))]},
    "a way that is turned round": {"cables": [{**cable(), "ways": [[5, 0], [0, 5]]}]},
    "a way that is too long": {"cables": [{**cable(), "ways": [[0, 60_001], [0, 5]]}]},
    "more than all is lost": {"cables": [cable(loss=[0, 101])]},
    "a cable with one end": {"cables": [{**cable(), "ends": [[0, 1]]}]},
}


class SetUps(unittest.TestCase):
    def test_refused(self):
        room = Room.fresh()
        for what, given in BAD.items():
            with self.assertRaises(Refused, msg=what):
                room.teacher({"do": "set_up", "seats": TWO, "cables": [], **given})
        self.assertEqual(room.number, 1)

    def test_least_and_most(self):
        seats = [{"difference": -43_200_000}, {"difference": 43_199_999}] + 14 * [{}]
        cables = [cable((0, k), (k, 8)) for k in range(1, 9)]
        room = Room({"seats": seats, "cables": cables, "nhosts": 32, "interval": 60})
        self.assertEqual(len(room.seat_view(0)["seat"]["links"]), 8)
        self.assertEqual(len(room.seat_view(15)["seat"]["links"]), 1)
        times = [room.seat_view(k)["seat"]["clock"]["time"] for k in range(3)]
        self.assertEqual(times, [0, 86_399_999, 43_200_000])

    def test_a_seat_that_is_none(self):
        room = Room.fresh(2)
        for number in (2, -1, True, None):
            with self.assertRaises(Refused):
                room.seat(number, {"do": "call", "call": "read"})
        for given in ({"cable": 1}, {"cable": True}, {"cable": 0, "ways": [[0, 1]]}):
            with self.assertRaises(Refused):
                room.teacher({"do": "cable", "ways": [[0, 1], [0, 1]], **given})


if __name__ == "__main__":
    unittest.main()
