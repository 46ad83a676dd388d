"""Messages of any form: only Refused is raised, and a refused message changes nothing."""

import copy
import json
import random
import unittest

from classroom.room import Refused, Room

CABLE = {"ends": [[0, 1], [1, 1]], "ways": [[0, 5], [0, 5]], "loss": [0, 9]}
GOOD = [
    {"do": "set_up", "seats": [{}, {"crystal": True}], "cables": [CABLE], "nhosts": 3},
    {"do": "run"},
    {"do": "pause"},
    {"do": "speed", "factor": 2},
    {"do": "one_second"},
    {"do": "one_message"},
    {"do": "waits", "on": False},
    {"do": "by_hand", "seat": 1, "on": True},
    {"do": "cable", "cable": 0, "ways": [[1, 2], [3, 4]], "loss": [0, 0]},
    {"do": "show", "what": "tables"},
    {"do": "exercise", "number": 1},
    {"do": "next"},
    {"do": "net_add", "net": "10.0.0", "id": 1},
    {"do": "net_change", "row": 1, "id": 0},
    {"do": "net_remove", "row": 1},
    {"do": "net_afresh", "nhosts": 2},
    {"do": "bench_ready", "file": "01-handshake"},
    {"do": "bench_set_up", "net": "class"},
    {"do": "bench_run", "events": 3},
    {"do": "bench_back"},
    {"do": "bench_load", "name": "one", "text": "seat 192.0.2.1\ntick 0 times 9\n"},
    {"do": "bench_load", "name": "none", "octets": "AAAAAAAAAAAAAAAAAAAAFAAAABQ="},
    {"do": "bench_room"},
]
HELLO = "hello 0 0 0 1 0\n"
CALLS = [
    {"do": "by_hand", "on": True},
    *({"do": "call", "call": name} for name in ("tick", "adjust", "second", "self_report")),
    *({"do": "call", "call": name} for name in ("step", "read", "initialize")),
    {"do": "call", "call": "set", "ms": 50},
    {"do": "call", "call": "lookup", "address": "192.0.2.1"},
    {"do": "call", "call": "send", "link": 1},
    {"do": "call", "call": "write", "link": 1, "text": HELLO, "source": "192.0.2.2"},
    *({"do": "call", "call": name, "message": 1} for name in ("inspect", "receive")),
    *({"do": "call", "call": name, "message": 1} for name in ("open_walk", "drop")),
    {"do": "call", "call": "walk_on", "to": "end"},
    {"do": "predict", "of": "step", "fields": {"reading": 1}},
    {"do": "predict", "of": "send", "link": 1, "fields": {"NHOSTS": 0, "KEEP-ALIVE": 0}},
    {"do": "predict", "of": "receive", "message": 1, "fields": {"answer": 0, "host 0 DELAY": 5}},
    {"do": "name", "name": "Ada"},
]
ODD = [
    *(None, True, False, -1, 0, 1, 17, 2**31, 2**63, 10**30, -(10**30), 0.5, 1e308),
    *(float("nan"), float("inf"), "", "x", "10.0", "192.0.2", "192.0.2.256", "192.0.2.²", "\ud800", "\x00"),
    *(500 * "hello\n", 20_000 * "9", [], [1], [[]], [[1, 2], [3, 4]], [[0, 1], [0, 1]], 40 * [{}]),
    *({}, {"a": 1}, {"seats": []}, [None, None]),
]


def state(room):
    return room.log.count, [seat.state for seat in room.seats], room.teacher_view()


def parts(value, path=()):
    """The paths to all parts of a message."""
    yield path
    keyed = isinstance(value, dict)
    items = value.items() if keyed else enumerate(value if isinstance(value, list) else ())
    for key, part in items:
        yield from parts(part, (*path, key))


def changed(choose, message):
    """The message with one or two of its parts changed, missing or added."""
    message = copy.deepcopy(message)
    for _ in range(choose.choice((1, 1, 2))):
        path = choose.choice(list(parts(message)))
        if not path:
            if choose.random() < 0.2:
                return choose.choice(ODD)
            message[choose.choice(("x", "n", "seat", "link", "text", "message"))] = choose.choice(ODD)
            continue
        inner = message
        for key in path[:-1]:
            inner = inner[key]
        if choose.random() < 0.2:
            del inner[path[-1]]
        else:
            inner[path[-1]] = copy.deepcopy(choose.choice(ODD))
    return message


class Fuzz(unittest.TestCase):
    def throw(self, room, choose, send, message):
        before = None if choose.random() < 0.8 else state(room)
        try:
            reply = send(message)
        except Refused as refused:
            self.assertTrue(str(refused))
            if before:
                self.assertEqual(state(room), before, message)
            return False
        json.dumps(reply, allow_nan=False)
        return True

    def test_seats(self):
        choose, taken = random.Random(1), 0
        room = Room({"seats": [{"by_hand": True}, {"by_hand": True}], "cables": [CABLE]})
        for _ in range(6_000):
            message = changed(choose, choose.choice(CALLS))
            number = choose.choice((0, 1, 0, 1, 2, -1, True, None, "0"))
            taken += self.throw(room, choose, lambda m: room.seat(number, m), message)
            if choose.random() < 0.1:
                room.advance(choose.choice((1, 20, 300)))
        self.assertTrue(0 < taken < 6_000)

    def test_teacher(self):
        choose, taken = random.Random(2), 0
        room = Room.fresh(2)
        for _ in range(4_000):
            message = changed(choose, choose.choice(GOOD + [{"seat": 1, **call} for call in CALLS]))
            taken += self.throw(room, choose, room.teacher, message)
            if choose.random() < 0.1:
                room.advance(choose.choice((1, 20, 300)))
        self.assertTrue(0 < taken < 4_000)

    def test_good_ones_are_taken(self):
        room = Room.fresh(2)
        for message in GOOD:
            room.teacher(message)

    def test_no_hash(self):
        room = Room.fresh(2)
        for do in ([], {}, None, 1, b"run", ("run",)):
            with self.assertRaises(Refused):
                room.teacher({"do": do})
        for message in (None, [], "run", 5):
            with self.assertRaises(Refused):
                room.teacher(message)


if __name__ == "__main__":
    unittest.main()
