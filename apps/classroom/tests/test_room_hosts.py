"""Several hosts at one seat: they are reported, learned and shown with that seat's clock."""

import unittest

from classroom.room import Refused, Room


def two_seats(**changes):
    """Two seats with a cable, 20 ms each way; changes are for the second one."""
    return {
        "seats": [{"name": "Ada"}, {"name": "Ben", "difference": 700, **changes}],
        "cables": [{"ends": [[0, 1], [1, 1]], "ways": [[20, 20], [20, 20]]}],
    }


class SeveralHosts(unittest.TestCase):
    def test_they_come_up_with_their_seat(self):
        room = Room(two_seats(also=[2, 4]))
        room.go_on(30_000)
        ada, ben = room.teacher_view()["seats"]
        self.assertEqual(ada["nhosts"], 5)
        self.assertEqual([entry["here"] for entry in ben["table"]], [0, 1, 1, 0, 1])
        self.assertEqual([entry["here"] for entry in ada["table"]], [1, 0, 0, 0, 0])
        learned = [(e["id"], e["name"], e["offset"], e["true"], e["within"]) for e in ada["table"] if e["live"]]
        self.assertEqual(
            learned,
            [(0, "Ada", 0, 0, True)]
            + [(id, name, 700, 700, True) for id, name in ((1, "Ben"), (2, "@Ben"), (4, "@Ben"))],
        )
        self.assertEqual(ada["table"][3]["name"], "")

    def test_the_view_has_the_set_up(self):
        seats = Room(two_seats(also=[2], clock_host=0)).teacher_view()["seats"]
        self.assertEqual([(seat["also"], seat["clock_host"]) for seat in seats], [([], None), ([2], 0)])

    def test_a_host_lives_at_one_seat(self):
        set_up = two_seats(also=[2])
        set_up["seats"][0]["also"] = [2]
        with self.assertRaises(Refused):
            Room(set_up)
        for also in ([0], [1], [32], [2, 2], ["2"], [True], 2, None, [-1]):
            with self.assertRaises(Refused, msg=also):
                Room(two_seats(also=also))


if __name__ == "__main__":
    unittest.main()
