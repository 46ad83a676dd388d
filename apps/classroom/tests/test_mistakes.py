"""Tests of mistakes that were seen in a class, one by one."""

import unittest

from test_room_calls import call

from classroom.room import Room
from classroom.room.board import marks, rows, table_right
from classroom.room.texts import english

CABLE = {"ends": [[0, 1], [1, 1]], "ways": [[30, 30], [30, 30]]}


def pair(**more):
    """Two hosts that work by themselves, one 500 ms ahead."""
    return Room({"seats": [{"name": "A"}, {"name": "B", "difference": 500, **more}], "cables": [CABLE]})


def broken(room):
    """The conditions of the bound that no longer hold, in English."""
    return [english(text) for text in room.teacher_view()["promise"]]


class Promised(unittest.TestCase):
    """Which condition of the bound no longer holds, and since when."""

    def test_a_room_that_runs(self):
        room = pair()
        room.go_on(100_000)
        self.assertEqual(broken(room), [])

    def test_initialized(self):
        room = pair()
        room.go_on(186_000)
        call(room, 1, "initialize")
        self.assertEqual(broken(room)[0], "B was initialized at 3:06")
        self.assertEqual(broken(room)[1], "clocks differ by more than 16,384 ms since B was initialized at 3:06")

    def test_moved(self):
        room = pair()
        room.go_on(5_000)
        call(room, 1, "set", ms=50)
        self.assertEqual(broken(room), [])
        call(room, 1, "set", ms=700)
        self.assertEqual(broken(room), ["the clock of B was moved by 700 ms at 0:05"])
        call(room, 1, "set", ms=20_000)
        self.assertIn("clocks differ by more than 16,384 ms since the clock of B was moved at 0:05", broken(room))

    def test_from_the_start(self):
        self.assertIn("sets its clock by another host", broken(pair(clock_host=0))[0])
        far = Room({"seats": [{}, {"difference": 16_385}], "cables": []})
        self.assertIn("clocks differ by more than 16,384 ms since the room was set up", broken(far)[0])

    def test_cables_and_written_messages(self):
        room = pair()
        room.teacher({"do": "cable", "cable": 0, "ways": [[0, 16_384], [0, 0]]})
        self.assertIn("may take more than 16,383 ms", broken(room)[0])
        room = pair(by_hand=True)
        written = call(room, 1, "write", link=1, text="hello 0 0 0 1 0\n")["returned"]["message"]
        self.assertEqual(broken(room), [])
        call(room, 1, "receive", message=written)
        self.assertIn("took a message that no host has sent", broken(room)[0])


class AtOneInstant(unittest.TestCase):
    def test_all_are_initialized(self):
        """The differences of the clocks stay: 500 stays 500."""
        room = pair()
        room.go_on(10_000)
        room.teacher({"do": "net_afresh", "nhosts": 6})
        reply = room.teacher({"do": "initialize_all"})
        self.assertEqual([each["answer"] for each in reply["answers"]], [0, 0])
        readings = [seat.reading(room.now) for seat in room.seats]
        self.assertEqual(readings[1] - readings[0], 500)
        self.assertEqual(room.teacher({"do": "initialize_all"}), {"answers": []})


class Faults(unittest.TestCase):
    """What 14 and 15 found, and where."""

    def fault(self, text):
        room = Room({"seats": [{"by_hand": True}], "cables": []})
        reply = call(room, 0, "write", link=1, text=text)
        return reply["answer"], english(reply["returned"]["fault"])

    def test_found(self):
        for text, answer, words in (
            ("hello 0 0 65536 1 0\n", 15, "Line 1, number 3: 65536 does not fit its field."),
            ("hello 0 0 0 1 2\n0 0\n0 40000\n", 15, "Line 3, number 2: 40000 does not fit its field."),
            ("hullo 0 0 0 1 0\n", 14, "Line 1 has another form"),
            ("hello 0 0 0 1 2\n0 0\n0;0\n", 14, "Line 3 has another form"),
            ("hello 0 0 0 1 2\n0 0\n", 14, "Line 1 says 2 hosts, but 1 lines follow."),
            ("hello 0 0 0 1 0", 14, "Line 1 has no line end."),
        ):
            found = self.fault(text)
            self.assertEqual(found[0], answer, text)
            self.assertIn(words, found[1])


class Board(unittest.TestCase):
    def test_a_table_is_right(self):
        room = Room.fresh()
        self.assertFalse(any(table_right(room, seat) for seat in room.seats))
        room.go_on(60_000)
        self.assertTrue(all(table_right(room, seat) for seat in room.seats))
        call(room, 2, "initialize")
        self.assertFalse(table_right(room, room.seats[2]))

    def test_an_unplugged_cable(self):
        """A host that no cable leads to has to be down."""
        room = pair()
        room.go_on(60_000)
        self.assertTrue(table_right(room, room.seats[0]))
        room.teacher({"do": "cable", "cable": 0, "ways": CABLE["ways"], "loss": [100, 100]})
        self.assertFalse(table_right(room, room.seats[0]))
        room.go_on(room.now + 200_000)
        self.assertTrue(table_right(room, room.seats[0]))

    def test_order_and_csv(self):
        room = pair()
        room.seat(1, {"do": "name", "name": "=Eve, \"the\" B"})
        presence = {0: (True, 1.0), 1: (False, 2.0)}
        found = rows(room, presence)
        self.assertEqual([row["seat"] for row in found], [1, 0])
        self.assertEqual(found[0]["needs"], ["needs.gone"])
        lines = marks(room, presence).split("\r\n")
        self.assertTrue(lines[0].startswith("seat,name,host,connected"))
        # No name is taken for a formula.
        self.assertTrue(lines[2].startswith("1,\"'=Eve, \"\"the\"\" B\",B,no"))


if __name__ == "__main__":
    unittest.main()
