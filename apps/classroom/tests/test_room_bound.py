"""Demand 3 in rooms that lose messages and hand them over out of turn: each error is in its band."""

import random
import unittest

from classroom.room import Room


def room_of(choose):
    """Up to eight seats, joined at random, with ways and differences as large as may be."""
    count = choose.randrange(2, 9)
    used, cables = [0] * count, []
    for _ in range(2 * count):
        ends = choose.sample(range(count), 2)
        if max(used[end] for end in ends) < 8:
            for end in ends:
                used[end] += 1
            most = choose.choice((0, 40, 300, 16_383))
            ways = [sorted(choose.randrange(most + 1) for _ in range(2)) for _ in range(2)]
            loss = [choose.choice((0, 30)) for _ in range(2)]
            cables.append({"ends": [[e, used[e]] for e in ends], "ways": ways, "loss": loss})
    seats = [{"difference": choose.randrange(-8_192, 8_193), "crystal": True} for _ in range(count)]
    return Room({"seats": seats, "cables": cables, "interval": 2, "seed": choose.randrange(99)})


class Bound(unittest.TestCase):
    def test_errors(self):
        choose, live = random.Random(9), 0
        for _ in range(8):
            room = room_of(choose)
            for _ in range(8):
                room.go_on(room.now + 30_000)
                for seat in room.teacher_view()["seats"]:
                    for entry in seat["table"]:
                        if entry["live"]:
                            live += 1
                            self.assertTrue(entry["within"], (seat["name"], entry))
            for time, seat, id, error, delay in room.points:
                self.assertLessEqual(200 * abs(error), 101 * delay)
        self.assertGreater(live, 500)


if __name__ == "__main__":
    unittest.main()
