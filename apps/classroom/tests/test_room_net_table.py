"""Tests of the class's net table: the tutor's calls, the seats that use it, views, list, replay."""

import json
import random
import unittest
from unittest import mock

from test_room_calls import call
from test_room_walk import of_text

from classroom.room import Refused, Room, log
from classroom.room.replay import replay
from classroom.room.teacher import MOST_NUMBER

CABLE = {"ends": [[0, 1], [1, 1]], "ways": [[20, 20], [20, 20]]}
ELSEWHERE = "198.51.100.7"
GREETING = "hello 0 0 0 1 0\n"


def room_of(seats=3, by_hand=True, **more):
    return Room({"seats": [{"by_hand": by_hand} for _ in range(seats)], "cables": [CABLE], **more})


def tutor(room, do, **given):
    return room.teacher({"do": do, **given})


def rows(room):
    """The rows as a student sees them: number, net, host id."""
    shown = room.seat_view(0)["net_table"]["rows"]
    return [(row["row"], row["net"], row["id"]) for row in shown]


def written(room, source=ELSEWHERE):
    """The number of a message without a table that waits at seat 0, from that address."""
    return call(room, 0, "write", link=1, text=GREETING, source=source)["returned"]["message"]


def changed(reply):
    """What a call changed: where, field, before, after."""
    return [tuple(change.values()) for change in reply["changes"]]


class Tutor(unittest.TestCase):
    def test_the_four_calls(self):
        room = room_of()
        self.assertEqual(rows(room), [])
        for k, net in enumerate(("10.0.0", "198.51.100", "10.0.0"), 1):
            reply = tutor(room, "net_add", net=net, id=k - 1)
            self.assertEqual((reply["answer"], reply["returned"]), (0, {"row": k}))
        self.assertEqual(rows(room), [(1, "10.0.0", 0), (2, "198.51.100", 1), (3, "10.0.0", 2)])
        self.assertEqual(tutor(room, "net_change", row=2, id=0)["answer"], 0)
        self.assertEqual(rows(room), [(1, "10.0.0", 0), (2, "198.51.100", 0), (3, "10.0.0", 2)])
        self.assertEqual(tutor(room, "net_remove", row=1)["answer"], 0)
        self.assertEqual(rows(room), [(1, "198.51.100", 0), (2, "10.0.0", 2)])
        self.assertEqual(tutor(room, "net_afresh", nhosts=5)["answer"], 0)
        self.assertEqual(rows(room), [])
        self.assertEqual(room.teacher_view()["net_table"]["nhosts"], 5)

    def test_refusals(self):
        """1, 21, 22 and 12, each with what it means, and nothing changed; in the order 12, 22, 21, 1."""
        room = room_of()
        tutor(room, "net_add", net="10.0.0", id=2)
        refusals = [
            ("net_afresh", {"nhosts": 0}, 1),
            ("net_afresh", {"nhosts": 256}, 1),
            ("net_afresh", {"nhosts": MOST_NUMBER}, 1),
            ("net_add", {"net": "10.0.0", "id": 3}, 1),
            ("net_add", {"net": "10.0.0", "id": 256}, 1),
            ("net_change", {"row": 1, "id": 3}, 1),
            ("net_change", {"row": 0, "id": 3}, 22),
            ("net_change", {"row": 2, "id": 0}, 22),
            ("net_remove", {"row": 0}, 22),
            ("net_remove", {"row": 2}, 22),
            ("net_remove", {"row": MOST_NUMBER}, 22),
        ]
        self.refused(room, refusals)
        for k in range(31):
            tutor(room, "net_add", net=f"10.0.{k}", id=k % 3)
        self.assertEqual([row for row, _, _ in rows(room)], list(range(1, 33)))
        self.refused(room, [("net_add", {"net": "10.0.0", "id": id}, 21) for id in (0, 3)])
        self.refused(room, [("net_remove", {"row": 33}, 22)])
        room.net_table.nhosts = 1
        self.refused(room, [("net_add", {"net": "10.0.0", "id": 3}, 12), ("net_remove", {"row": 0}, 12)])
        self.refused(room, [("net_change", {"row": 0, "id": 9}, 12), ("net_afresh", {"nhosts": 0}, 1)])
        self.assertEqual(tutor(room, "net_afresh", nhosts=3)["answer"], 0)

    def refused(self, room, refusals):
        for do, given, answer in refusals:
            before = room.teacher_view()["net_table"]["rows"]
            reply = tutor(room, do, **given)
            self.assertEqual((reply["answer"], reply["changes"]), (answer, []), (do, given))
            self.assertEqual(reply["returned"], {"row": 0} if do == "net_add" else {})
            self.assertTrue(reply["meaning"])
            self.assertEqual(reply["changed_as_told"], "nothing")
            self.assertEqual(room.teacher_view()["net_table"]["rows"], before)

    def test_changes(self):
        room = room_of()
        self.assertEqual(
            changed(tutor(room, "net_add", net="10.0.0", id=1)),
            [("row 1", "net", None, "10.0.0"), ("row 1", "host id", None, 1)],
        )
        tutor(room, "net_add", net="20.0.0", id=1)
        self.assertEqual(
            changed(tutor(room, "net_change", row=1, id=2)), [("row 1", "host id", 1, 2)]
        )
        self.assertEqual(
            changed(tutor(room, "net_remove", row=1)),
            [
                ("row 1", "net", "10.0.0", "20.0.0"),
                ("row 1", "host id", 2, 1),
                ("row 2", "net", "20.0.0", None),
                ("row 2", "host id", 1, None),
            ],
        )
        reply = tutor(room, "net_afresh", nhosts=4)
        self.assertEqual(changed(reply)[0], ("net table", "NHOSTS", 3, 4))
        self.assertEqual(room.seat_view(1)["net_table"]["last"], reply)

    def test_other_forms(self):
        room = room_of()
        before = room.log.count
        for do, given in (
            ("net_afresh", {}),
            ("net_afresh", {"nhosts": -1}),
            ("net_afresh", {"nhosts": True}),
            ("net_afresh", {"nhosts": MOST_NUMBER + 1}),
            ("net_add", {"id": 1}),
            ("net_add", {"net": "10.0.0"}),
            ("net_add", {"net": "10.0", "id": 1}),
            ("net_add", {"net": "10.0.0.0", "id": 1}),
            ("net_add", {"net": "10.0.256", "id": 1}),
            ("net_add", {"net": "10.0.00", "id": 1}),
            ("net_add", {"net": [10, 0, 0], "id": 1}),
            ("net_add", {"net": "10.0.0", "id": "1"}),
            ("net_remove", {"row": 1.0}),
            ("net_remove", {"row": 1, "id": 1}),
            ("net_change", {"row": 1}),
        ):
            with self.assertRaises(Refused, msg=(do, given)):
                tutor(room, do, **given)
        self.assertEqual(room.log.count, before)

    def test_a_student_changes_nothing_of_it(self):
        room = room_of()
        tutor(room, "net_add", net="10.0.0", id=1)
        for message in (
            {"do": "net_afresh", "nhosts": 3},
            {"do": "net_add", "net": "10.0.0", "id": 1},
            {"do": "net_remove", "row": 1},
            {"do": "net_change", "row": 1, "id": 2},
            {"do": "call", "call": "net_remove", "row": 1},
            {"do": "call", "call": "net_remove"},
            {"do": "call", "call": "initialize", "nhosts": 9},
        ):
            with self.assertRaises(Refused, msg=message):
                room.seat(0, message)
        self.assertEqual(rows(room), [(1, "10.0.0", 1)])

    def test_a_full_list(self):
        room = room_of()
        with mock.patch.object(log, "MOST", 0), self.assertRaises(Refused):
            tutor(room, "net_add", net="10.0.0", id=1)

    def test_a_new_room_has_no_rows(self):
        room = room_of()
        tutor(room, "net_add", net="10.0.0", id=1)
        room.teacher({"do": "set_up", "seats": [{}, {}], "cables": []})
        view = room.teacher_view()["net_table"]
        self.assertEqual(view, {"nhosts": 2, "rows": [], "last": None})


class LookUp(unittest.TestCase):
    """All seats use the one table, as it stands at the call."""

    def test_rows_lead_to_hosts(self):
        room = room_of()
        for seat in range(3):
            self.assertEqual(call(room, seat, "lookup", address=ELSEWHERE)["answer"], 11)
            call(room, seat, "self_report")
        tutor(room, "net_add", net="198.51.100", id=1)
        found = [call(room, seat, "lookup", address=ELSEWHERE) for seat in range(3)]
        self.assertEqual([reply["answer"] for reply in found], [13, 0, 13])
        tutor(room, "net_change", row=1, id=2)
        found = [call(room, seat, "lookup", address=ELSEWHERE) for seat in range(3)]
        self.assertEqual([reply["answer"] for reply in found], [13, 13, 0])
        tutor(room, "net_remove", row=1)
        tutor(room, "net_add", net="0.0.0", id=0)
        self.assertEqual(call(room, 0, "lookup", address=ELSEWHERE)["returned"], {"id": 0, "pid": 0})

    def test_names(self):
        seats = [{"name": "Ada", "also": [2]}, {"name": "Ben"}]
        room = Room({"seats": seats, "cables": [], "nhosts": 4})
        for id in range(4):
            tutor(room, "net_add", net=f"10.0.{id}", id=id)
        names = [row["name"] for row in room.seat_view(1)["net_table"]["rows"]]
        self.assertEqual(names, ["Ada", "Ben", "@Ada", ""])


class InAWalk(unittest.TestCase):
    """A walk looks an address up in the table of that moment, step 5."""

    def at_step_5(self, *nets):
        room = room_of()
        for net in nets:
            tutor(room, "net_add", net=net, id=1)
        message = written(room)
        call(room, 0, "open_walk", message=message)
        for _ in range(4):
            reply = call(room, 0, "step")
        self.assertEqual(reply["returned"]["next"]["name"], "step 5")
        return room

    def test_a_row_less(self):
        room = self.at_step_5("198.51.100")
        tutor(room, "net_remove", row=1)
        reply = call(room, 0, "step")
        self.assertEqual(reply["answer"], 11)
        said = reply["returned"]["sum"]
        self.assertIn(f"NEIGHBOR-ADDRESS {ELSEWHERE} is not found in the net table: 11", said)

    def test_a_row_more(self):
        room = self.at_step_5()
        tutor(room, "net_add", net="198.51.100", id=2)
        reply = call(room, 0, "step")
        self.assertEqual((reply["answer"], reply["returned"]["next"]["name"]), (0, "host 2, line a"))
        said = reply["returned"]["sum"]
        self.assertIn("is found by row 1 of the net table, and host 2, line a is next", said)

    def test_another_id_and_net_zero(self):
        room = self.at_step_5("20.0.0", "0.0.0", "198.51.100")
        tutor(room, "net_change", row=2, id=0)
        said = call(room, 0, "step")["returned"]["sum"]
        self.assertIn("by row 2 of the net table, of net zero, and host 0, line a is next", said)

    def test_the_walk_is_shown_as_it_is(self):
        room = self.at_step_5("198.51.100")
        before = room.seat_view(0)["seat"]["walk"]
        tutor(room, "net_remove", row=1)
        view = room.seat_view(0)
        self.assertEqual((view["seat"]["walk"], view["net_table"]["rows"]), (before, []))

    def test_another_nhosts(self):
        """A step gives 1 and the walk stays, other calls 16; put right, it goes on."""
        room = self.at_step_5()
        tutor(room, "net_afresh", nhosts=4)
        reply = call(room, 0, "step")
        self.assertEqual((reply["answer"], reply["changes"]), (1, []))
        self.assertNotIn("sum", reply["returned"])
        for name in ("read", "second", "self_report", "tick"):
            self.assertEqual(call(room, 0, name)["answer"], 16)
        self.assertEqual(room.seat_view(0)["seat"]["walk"]["next"]["name"], "step 5")
        tutor(room, "net_afresh", nhosts=3)
        tutor(room, "net_add", net="198.51.100", id=1)
        self.assertEqual(call(room, 0, "step")["returned"]["next"]["name"], "host 1, line a")
        tutor(room, "net_afresh", nhosts=4)
        self.assertEqual(call(room, 0, "initialize")["answer"], 0)
        self.assertIsNone(room.seat_view(0)["seat"]["walk"])
        self.assertEqual(call(room, 0, "read")["answer"], 0)
        self.assertTrue(replay(room.lines()).equal)

    def test_as_an_arrival_with_the_table_of_step_5(self):
        """One seat walks, and the tutor changes the table between two boxes; a twin takes it at once."""
        seats = [{"by_hand": True, "crystal": True}]
        walks, takes = (Room({"seats": seats, "cables": [], "nhosts": 3}) for _ in range(2))
        choose, answers, rows_named = random.Random(10), set(), set()
        for _ in range(400):
            given = {"link": 1, "text": of_text(choose), "source": some_address(choose)}
            for room in (walks, takes):
                message = call(room, 0, "write", **given)["returned"]["message"]
            change, at, box = some_change(choose), choose.randrange(1, 9), 0
            last = call(walks, 0, "open_walk", message=message)
            while walks.seats[0].in_walk:
                box += 1
                if box == at:
                    tutor(walks, **change)
                last = call(walks, 0, "step")
                if "by row" in last["returned"]["sum"]:
                    rows_named.add(self.row_leads_there(walks, last))
            if box < at:
                tutor(walks, **change)
            if at <= 5:
                tutor(takes, **change)
            self.assertEqual(call(takes, 0, "receive", message=message)["answer"], last["answer"])
            if at > 5:
                tutor(takes, **change)
            if last["answer"] == 9:
                call(walks, 0, "drop", message=message)
            self.assertEqual(walks.seats[0].state, takes.seats[0].state)
            answers.add(last["answer"])
        self.assertEqual(answers, {0, 9, 10, 11})
        self.assertGreater(len(rows_named), 3)
        self.assertTrue(replay(walks.lines()).equal)

    def row_leads_there(self, room, reply):
        """The row that the sum names; the id of which is the next host's."""
        number = int(reply["returned"]["sum"].split("by row ")[1].split(" ")[0])
        self.assertEqual(room.net_table.rows[number - 1].id, reply["returned"]["next"]["id"])
        return number


NETS = ("198.51.100", "10.0.0", "130.1.2", "0.0.0")


def some_address(choose):
    nets = ("192.0.2.1", "192.0.2.2", "192.0.2.9", "198.51.100.7", "10.7.8.9", "130.1.2.3", "224.0.0.1")
    return choose.choice(nets)


def some_change(choose):
    """A call of the tutor's that may be done or refused."""
    do = choose.choice(("net_add", "net_add", "net_remove", "net_change"))
    net = choose.choice(NETS[: choose.choice((3, 3, 3, 4))])
    given = {"net": net, "row": choose.randrange(6), "id": choose.randrange(4)}
    keys = {"net_add": ("net", "id"), "net_remove": ("row",), "net_change": ("row", "id")}[do]
    return {"do": do, **{key: given[key] for key in keys}}


class AnotherNhosts(unittest.TestCase):
    """Seats answer 1 until they are set afresh with the class's NHOSTS."""

    def test_every_call(self):
        room = room_of()
        message = written(room)
        tutor(room, "net_afresh", nhosts=4)
        for name in ("tick", "adjust", "read", "second", "self_report"):
            self.assertEqual(call(room, 0, name)["answer"], 1, name)
        for name, given in (
            ("set", {"ms": 5}),
            ("lookup", {"address": "192.0.2.1"}),
            ("send", {"link": 1}),
            ("inspect", {"message": message}),
            ("receive", {"message": message}),
            ("open_walk", {"message": message}),
            ("step", {}),
        ):
            self.assertEqual(call(room, 0, name, **given)["answer"], 1, name)
        self.assertIn(message, room.seats[0].waiting)
        self.assertEqual(room.seat_view(0)["seat"]["nhosts"], 3)
        reply = call(room, 0, "initialize")
        self.assertEqual(reply["answer"], 0)
        self.assertIn(("settings", "NHOSTS", 3, 4), changed(reply))
        seat = room.seat_view(0)["seat"]
        self.assertEqual((seat["nhosts"], len(seat["table"])), (4, 4))
        self.assertEqual(call(room, 0, "read")["answer"], 0)
        self.assertEqual(call(room, 1, "read")["answer"], 1)

    def test_put_back(self):
        """Without having been set afresh a seat goes on where it was, but for the ticks refused."""
        room = room_of()
        room.go_on(700)
        before = room.seats[0].state
        tutor(room, "net_afresh", nhosts=4)
        room.go_on(900)
        tutor(room, "net_afresh", nhosts=3)
        self.assertEqual(room.seats[0].state, before)
        self.assertEqual(call(room, 0, "read")["returned"]["time"], 43_200_700)
        lines = [line for line in room.log.recent if (line["seat"], line["call"]) == (0, "tick")]
        self.assertEqual([(line["times"], line["answer"]) for line in lines], [(700, 0), (200, 1)])
        self.assertTrue(replay(room.lines()).equal)

    def test_a_tick_that_was_due(self):
        """A crystal's overflow before the change is ticked before it, and is not lost."""
        room = Room({"seats": [{"by_hand": True, "crystal": True}], "cables": []})
        room.go_on(65_600)
        tutor(room, "net_afresh", nhosts=2)
        self.assertEqual(call(room, 0, "second")["answer"], 1)
        tutor(room, "net_afresh", nhosts=1)
        self.assertEqual(call(room, 0, "read")["returned"]["time"], 43_265_600)
        self.assertTrue(replay(room.lines()).equal)

    def test_an_id_that_is_left_out(self):
        room = room_of()
        tutor(room, "net_afresh", nhosts=2)
        self.assertEqual([call(room, seat, "initialize")["answer"] for seat in range(3)], [0, 0, 1])
        self.assertEqual([room.seat_view(seat)["seat"]["nhosts"] for seat in range(3)], [2, 2, 3])
        tutor(room, "net_afresh", nhosts=3)
        self.assertEqual([call(room, seat, "read")["answer"] for seat in range(3)], [1, 1, 0])
        self.assertTrue(replay(room.lines()).equal)

    def test_seats_that_work_by_themselves(self):
        """What arrives waits until the seat is set afresh."""
        room = room_of(2, by_hand=False, interval=1)
        room.go_on(10_000)
        self.assertTrue(all(entry["live"] for entry in room.seat_view(0)["seat"]["table"]))
        tutor(room, "net_afresh", nhosts=6)
        call(room, 1, "initialize")
        room.go_on(15_000)
        self.assertTrue(room.seats[0].waiting)
        self.assertFalse(room.seats[1].waiting)
        call(room, 0, "initialize")
        room.go_on(30_000)
        self.assertFalse(room.seats[0].waiting)
        live = [entry["live"] for entry in room.seat_view(0)["seat"]["table"]]
        self.assertEqual(live, [True, True, False, False, False, False])
        self.assertTrue(replay(room.lines()).equal)

    def test_the_greatest(self):
        room = room_of(2, by_hand=False, interval=1)
        tutor(room, "net_afresh", nhosts=255)
        for seat in range(2):
            self.assertEqual(call(room, seat, "initialize")["answer"], 0)
        room.go_on(8_000)
        self.assertTrue(room.seat_view(0)["seat"]["table"][1]["live"])
        json.dumps(room.teacher_view(), allow_nan=False)
        self.assertTrue(replay(room.lines()).equal)

    def test_in_an_exercise(self):
        """It goes on to its end, and tells that it did not come out as promised."""
        room = Room.fresh()
        room.teacher({"do": "exercise", "number": 1})
        tutor(room, "net_afresh", nhosts=1)
        for seat in range(2):
            room.teacher({"do": "call", "seat": seat, "call": "initialize"})
        while not room.exercise.ended:
            held = room.teacher({"do": "next"})["holds"]
        self.assertIs(held, False)


class TheList(unittest.TestCase):
    def test_among_the_others(self):
        room = room_of()
        room.go_on(40)
        call(room, 1, "read")
        room.go_on(50)
        tutor(room, "net_add", net="10.0.0", id=7)
        calls = room.teacher_view()["calls"]
        self.assertEqual([call["line"] for call in calls], list(range(1, 11)))
        self.assertEqual(
            [(call["time"], call["seat"], call["call"], call["answer"]) for call in calls],
            [
                (0, None, "net_afresh", 0),
                *((0, seat, "initialize", 0) for seat in range(3)),
                (40, 1, "tick", 0),
                (40, 1, "read", 0),
                *((50, seat, "tick", 0) for seat in (0, 2, 1)),
                (50, None, "net_add", 1),
            ],
        )
        last = json.loads(list(room.lines())[-2])
        self.assertEqual((last["with"], last["returned"]), ({"net": "10.0.0", "id": 7}, {"row": 0}))

    def at_work(self):
        room, choose = room_of(3, by_hand=False, interval=1), random.Random(2)
        for _ in range(60):
            room.go_on(room.now + choose.randrange(400))
            tutor(room, **some_change(choose))
            if choose.random() < 0.1:
                tutor(room, "net_afresh", nhosts=choose.choice((0, 3, 3, 4, 256)))
            seat = choose.randrange(3)
            if choose.random() < 0.3:
                call(room, seat, "initialize")
            call(room, seat, "lookup", address=some_address(choose))
        return [json.loads(line) for line in room.lines()]

    def test_replayed(self):
        lines = self.at_work()
        self.assertIsNone(replay(map(json.dumps, lines)).first_difference)
        made = {(line["call"], line["answer"]) for line in lines[1:-1] if line["seat"] is None}
        some = {("net_add", 0), ("net_add", 1), ("net_remove", 22), ("net_afresh", 1)}
        self.assertLessEqual(some, made)
        self.assertIn(("tick", 1), {(line["call"], line["answer"]) for line in lines[1:-1]})

    def test_another_row(self):
        lines = self.at_work()
        added = next(line for line in lines[1:] if (line["call"], line["answer"]) == ("net_add", 0))
        added["returned"]["row"] += 1
        report = replay(map(json.dumps, lines))
        self.assertIn(f"line {added['line']}: net_add returns", report.first_difference)

    def test_another_end(self):
        lines = self.at_work()
        lines[-1]["end"]["net_table"]["nhosts"] += 1
        self.assertIn("the net table's end", replay(map(json.dumps, lines)).first_difference)

    def test_a_call_of_a_seat_is_none_of_the_tutors(self):
        lines = self.at_work()
        lines[2]["seat"] = None
        self.assertIn("another form", replay(map(json.dumps, lines)).first_difference)


if __name__ == "__main__":
    unittest.main()
