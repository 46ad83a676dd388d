"""Tests of the teacher's bench: loading, set-up, runs in pieces, refused files, the room as a file."""

import base64
import json
import random
import unittest
from pathlib import Path

from hello import bench_file

import hello
from classroom.room import Refused, Room
from classroom.room.bench import of_room
from classroom.room.bench.stand import AT_ONCE
from classroom.room.state import shown, state_of
from classroom.room.texts import english

ROOT = Path(__file__).resolve().parents[3]
PAIR = "seat 192.0.2.1\nseat 192.0.2.2\ncable 0.1 1.1\n"


def text_of(name):
    """The text of a ready file."""
    folder = ROOT / ("docs/bench" if name == "small" else "apps/exercises")
    return (folder / f"{name}.txt").read_text("utf-8")


def octets_of(text):
    return bench_file.to_octets(bench_file.read_text(text)[0])


def load(room, text):
    """Loads the octets of a text."""
    return load_octets(room, octets_of(text))


def load_octets(room, octets):
    letters = base64.b64encode(octets).decode()
    return room.teacher({"do": "bench_load", "name": "a file", "octets": letters})


def set_up(room, net="own"):
    return room.teacher({"do": "bench_set_up", "net": net})


def run(room, events):
    return room.teacher({"do": "bench_run", "events": events})


def to_the_end(room):
    """As the page does: it asks again until no event is left."""
    while (reply := run(room, 2_048))["count"] and reply["done"] < reply["of"]:
        pass
    return reply


def view(room):
    return room.teacher_view()["bench"]


def seats(room):
    """All that the class has."""
    return [shown(state_of(seat.host)) for seat in room.seats], room.log.count, room.now


class Files(unittest.TestCase):
    def setUp(self):
        self.room = Room.fresh(4)

    def test_nothing_is_loaded(self):
        self.assertIsNone(view(self.room))
        for do, more in (("set_up", {"net": "own"}), ("run", {"events": 1}), ("back", {})):
            with self.assertRaisesRegex(Refused, "no bench file is loaded"):
                self.room.teacher({"do": f"bench_{do}", **more})

    def test_all_ready_files(self):
        """Each runs to its end, in pieces, as the library does in one run; no seat is touched."""
        before = seats(self.room)
        names = self.room.teacher_view()["bench_files"]
        # One exercise has walks, which no bench file has; a long one is run by test_a_long_text.
        self.assertEqual(len(names), len(list((ROOT / "apps" / "exercises").glob("*.txt"))))
        self.assertNotIn("14-open-walk", names)
        for name in set(names) - {"07-ghost"}:
            self.room.teacher({"do": "bench_ready", "file": name})
            self.assertEqual(set_up(self.room)["answer"], 0)
            octets = octets_of(text_of(name))
            self.assertEqual(self.room.bench.loaded.octets, octets)
            bench = hello.Bench(octets, hello.NetTable(self.room.bench.loaded.nhosts))
            bench.set_up()
            bench.run()
            to_the_end(self.room)
            now = view(self.room)
            self.assertEqual((now["done"], now["of"]), (bench.events, bench.events))
            promises = len(bench_file.read_text(text_of(name))[1])
            kept = {"of": promises, "looked": promises, "broken": []} if promises else None
            self.assertEqual(now["promised"], kept)
            self.assertEqual(now["answers"], [int(answer) for answer in bench.answers])
            for seat in now["seats"]:
                host = bench.host(seat["number"])
                self.assertEqual(seat["table"], [list(entry) for entry in host.table])
                self.assertEqual(seat["clock"]["date"], host.clock.date)
        self.assertEqual(seats(self.room), before)

    def test_text_and_octets(self):
        for name in ("small", "03-overtaken"):
            text = text_of(name)
            self.room.teacher({"do": "bench_load", "name": name, "text": text})
            by_text = self.room.bench.loaded
            load(self.room, text)
            self.assertEqual(self.room.bench.loaded.octets, by_text.octets)
            self.assertEqual(bench_file.read_text(by_text.text)[0], bench_file.read_text(text)[0])

    def test_wrong_lines_are_reported(self):
        load(self.room, text_of("small"))
        with self.assertRaises(Refused) as refused:
            wrong = PAIR + "tick 2\n" + 20 * "tock 0\n"
            self.room.teacher({"do": "bench_load", "name": "x", "text": wrong})
        lines = str(refused.exception).splitlines()
        self.assertEqual(lines[0], "line 4: seat 2 is not there: there are seats 0 to 1")
        self.assertTrue(lines[1].startswith("line 5: 'tock' is not known"))
        self.assertEqual(lines[-1], "and 9 lines more")
        self.assertEqual(view(self.room)["name"], "a file")

    def test_refused_files(self):
        """The answer, and the record that is at fault; the bench before stays as it was."""
        load(self.room, text_of("small"))
        set_up(self.room)
        run(self.room, 5)
        good = octets_of(PAIR + "self-report 0\nsend cable 0 end 0 tray 0\n")
        for place, octet, answer, fault in (
            (3, 17, 18, "octet 0: the number of seats 17 is out of range"),
            (15, 0, 18, "the cables are said to start at octet 512"),
            (20, 224, 19, "seat 0, at octet 20: the address"),
            (20 + 642 + 2, 2, 19, "cable 0, at octet 662: seat 2 is not there"),
            (len(good) - 14, 8, 19, "event 1, at octet 680: there is no kind 8"),
            (len(good) - 14 + 4, 32, 19, "event 1, at octet 680: tray 32 is not there"),
        ):
            octets = bytearray(good)
            octets[place] = octet
            self.assertIn(fault, english(load_octets(self.room, bytes(octets))["fault"]))
            reply = set_up(self.room)
            self.assertEqual(reply["answer"], answer)
            self.assertIn(fault, english(reply["returned"]["fault"]))
            self.assertEqual(view(self.room)["last"], reply)
            self.assertFalse(view(self.room)["ready"])
            with self.assertRaisesRegex(Refused, "set it up first"):
                run(self.room, 1)
        for octets in (b"", good[:-1], good + b"\0"):
            load_octets(self.room, octets)
            self.assertEqual(set_up(self.room)["answer"], 18)
        with self.assertRaisesRegex(Refused, "33,956 at most"):
            load_octets(self.room, bytes(33_957))

    def test_messages_of_another_form(self):
        for message in (
            {"name": "x"},
            {"name": "x", "text": "", "octets": ""},
            {"name": "x", "octets": "é"},
            {"name": "x", "octets": "AAA"},
            {"name": "x", "octets": 5},
            {"name": "x", "text": 150_001 * "#"},
            {"name": 5, "text": ""},
            {"name": 101 * "x", "text": ""},
        ):
            with self.assertRaises(Refused):
                self.room.teacher({"do": "bench_load", **message})
        load(self.room, text_of("small"))
        set_up(self.room)
        for message in (
            {"do": "bench_ready", "file": "../README"},
            {"do": "bench_set_up", "net": "other"},
            *({"do": "bench_run", "events": events} for events in (0, -1, 2_049, 1.0, True, None)),
        ):
            with self.assertRaises(Refused):
                self.room.teacher(message)
        for do in ("load", "ready", "room", "set_up", "run", "back"):
            with self.assertRaises(Refused):
                self.room.seat(0, {"do": f"bench_{do}"})


class Runs(unittest.TestCase):
    def setUp(self):
        self.room = Room.fresh(2)
        self.room.teacher({"do": "bench_ready", "file": "small"})

    def test_one_event(self):
        with self.assertRaisesRegex(Refused, "set it up first"):
            run(self.room, 1)
        set_up(self.room)
        returned = []
        for event in range(12):
            reply = run(self.room, 1)
            self.assertEqual((reply["answer"], reply["count"], reply["done"]), (0, 1, event + 1))
            returned.append(view(self.room)["last"])
            self.assertEqual((returned[-1]["call"], returned[-1]["event"]), ("bench_event", event))
        events = [[kind, english(words)] for kind, words in view(self.room)["events"]]
        self.assertEqual(events[9], ["set", "seat 1: set by -500 ms; count 90"])
        self.assertEqual(events[7], ["arrival", "the packet in slot 0 arrives (see event 6); count 90"])
        self.assertEqual(english(returned[7]["returned"]["went"]), "from seat 0, link 1, to seat 1, link 1")
        moved = {"seat": 1, "where": "host 0", "field": "DELAY", "before": 30_000, "after": 100}
        self.assertIn(moved, returned[7]["changes"])
        self.assertEqual((returned[8]["answer"], returned[8]["changes"], returned[8]["returned"]), (3, [], {}))
        self.assertEqual(run(self.room, 1)["count"], 0)

    def test_pieces(self):
        """No more than AT_ONCE at once, and the end is that of single events."""
        self.room.teacher({"do": "bench_ready", "file": "03-overtaken"})
        set_up(self.room)
        reply = run(self.room, 2_048)
        self.assertEqual((reply["count"], reply["done"], reply["of"]), (AT_ONCE, AT_ONCE, 272))
        to_the_end(self.room)
        end = view(self.room)
        set_up(self.room)
        choose = random.Random(3)
        while run(self.room, choose.randint(1, 9))["count"]:
            pass
        for part in ("answers", "seats", "trays", "done"):
            self.assertEqual(view(self.room)[part], end[part])

    def test_promises(self):
        """Looked at where they stand, whatever the pieces; not where the seats are not from the set-up."""
        text = text_of("small").replace("offset -500", "offset -499")
        for pieces in (1, 5, 2_048):
            self.room.teacher({"do": "bench_load", "name": "x", "text": text})
            set_up(self.room)
            self.assertEqual(view(self.room)["promised"], {"of": 2, "looked": 0, "broken": []})
            while run(self.room, pieces)["count"]:
                pass
            promised = view(self.room)["promised"]
            self.assertEqual((promised["of"], promised["looked"]), (2, 2))
            broken = ["line 17: after 8 events, seat 1, host 0: OFFSET is -500, not -499"]
            self.assertEqual([english(each) for each in promised["broken"]], broken)
        self.room.teacher({"do": "bench_back"})
        run(self.room, 12)
        self.assertIsNone(view(self.room)["promised"])
        load(self.room, text_of("small"))
        set_up(self.room)
        self.assertIsNone(view(self.room)["promised"])
        self.room.teacher({"do": "bench_load", "name": "x", "text": PAIR + "promise seat 0 host 1 down\n"})
        set_up(self.room)
        self.assertEqual(view(self.room)["promised"], {"of": 1, "looked": 1, "broken": []})

    def test_back(self):
        set_up(self.room)
        run(self.room, 12)
        seats_before = view(self.room)["seats"]
        self.room.teacher({"do": "bench_back"})
        now = view(self.room)
        self.assertEqual((now["done"], now["answers"], now["seats"]), (0, [], seats_before))

    def test_files_one_behind_the_other(self):
        """A file with the same seats and cables is run on the seats as they are."""
        text = text_of("small")
        load_text = {"do": "bench_load", "name": "more", "text": text.partition("self-report all")[0] + "second all\n"}
        set_up(self.room)
        to_the_end(self.room)
        before = view(self.room)["seats"]
        self.room.teacher(load_text)
        now = view(self.room)
        self.assertEqual((now["ready"], now["done"], now["seats"]), (True, 0, before))
        to_the_end(self.room)
        after = view(self.room)["seats"]
        self.assertEqual(after[0]["table"][0][2], before[0]["table"][0][2] - 1)
        self.room.teacher({"do": "bench_ready", "file": "10-hops"})
        self.assertFalse(view(self.room)["ready"])

    def test_a_long_text(self):
        """A text with more events than a file may have is several files, run one after the other."""
        self.room.teacher({"do": "bench_ready", "file": "07-ghost"})
        set_up(self.room)
        first = view(self.room)
        self.assertEqual((first["first"], len(first["events"])), (0, 2_048))
        self.assertEqual(first["of"], len(bench_file.read_long_text(text_of("07-ghost"))[0].events))
        while view(self.room)["done"] < 3 * 2_048 + 5:
            run(self.room, 700)
        now = view(self.room)
        self.assertEqual(now["first"], 3 * 2_048)
        self.assertEqual(len(now["answers"]), now["done"] - now["first"])
        self.assertEqual(now["promised"]["broken"], [])
        last = to_the_end(self.room)
        self.assertEqual((last["done"], last["of"]), (first["of"], first["of"]))
        now = view(self.room)
        self.assertEqual(now["promised"]["broken"], [])
        self.assertEqual(now["promised"]["looked"], now["promised"]["of"])
        self.assertEqual({seat["table"][15][0] for seat in now["seats"][:15]}, {30_000})
        self.room.teacher({"do": "bench_back"})
        self.assertEqual((view(self.room)["done"], view(self.room)["first"]), (0, 0))

    def test_named_answers(self):
        """Of an exercise each answer is looked at: 0, if the text names no other."""
        text = text_of("04-silence").replace("    promise answer 10\n", "")
        self.room.teacher({"do": "bench_load", "name": "other", "text": text})
        set_up(self.room)
        to_the_end(self.room)
        broken = view(self.room)["promised"]["broken"]
        self.assertEqual(len(broken), 20)
        self.assertIn("was answered 10, and the text names 0", english(broken[0]))

    def test_the_classes_net_table(self):
        """Lent as it stands: its rows count, and another NHOSTS is 19."""
        set_up(self.room, "class")
        self.assertEqual(run(self.room, 3)["count"], 3)
        self.room.teacher({"do": "net_afresh", "nhosts": 5})
        reply = run(self.room, 1)
        self.assertEqual((reply["answer"], reply["count"]), (19, 0))
        words = "the file's NHOSTS is 2, that of the class's table 5"
        self.assertIn(words, english(view(self.room)["last"]["returned"]["fault"]))
        self.assertEqual(set_up(self.room, "class")["answer"], 19)
        self.assertEqual(set_up(self.room, "own")["answer"], 0)
        self.room.teacher({"do": "net_afresh", "nhosts": 2})
        self.assertEqual(set_up(self.room, "class")["answer"], 0)
        self.room.teacher({"do": "set_up", "seats": [{}, {}], "cables": []})
        self.assertEqual(to_the_end(self.room)["done"], 12)

    def test_views(self):
        """The bench is in a view where it has changed, the events with a new file alone."""
        first = self.room.teacher_view()
        self.assertEqual(len(first["bench"]["events"]), 12)
        self.assertNotIn("bench", self.room.teacher_view(first["mark"]))
        set_up(self.room)
        second = self.room.teacher_view(first["mark"])
        self.assertNotIn("events", second["bench"])
        self.room.teacher({"do": "bench_ready", "file": "01-handshake"})
        third = self.room.teacher_view(second["mark"])
        self.assertEqual(len(third["bench"]["events"]), 10)
        json.dumps(third, allow_nan=False)

    def test_students_see_nothing(self):
        self.room.teacher({"do": "show", "what": "tables"})
        before = self.room.seat_view(0, True)
        set_up(self.room)
        run(self.room, 5)
        self.assertEqual(self.room.seat_view(0, True), before)


def crystals(seats, **more):
    """A room of crystals in a ring."""
    ring = [
        {"ends": [[k, 1], [(k + 1) % seats, 2]], "ways": [[10, 40], [5, 400]], "loss": [10, 0]}
        for k in range(seats)
    ]
    plans = [{"crystal": True, "difference": 300 * k} for k in range(seats)]
    return Room({"seats": plans, "cables": ring, **more})


class OfARoom(unittest.TestCase):
    """The room as it stands, as a file."""

    def taken(self, room):
        """The file, which answers as the list of calls does, and ends as the room where it is whole."""
        taken = of_room.taken(room)
        bench = hello.Bench(bench_file.to_octets(taken.file), hello.NetTable(room.set_up["nhosts"]))
        self.assertEqual(bench.set_up(), 0)
        self.assertEqual(bench.run(), (0, len(taken.file.events)))
        lines = [json.loads(line) for line in room.lines()][2 + len(room.seats) : -1]
        lines = [line for line in lines if line["line"] <= taken.lines]
        lines = [line for line in lines if line["line"] not in taken.left_out]
        # An inspection before its action is no event of its own.
        lines = [line for line in lines if line["call"] != "inspect"]
        answers = [line["answer"] for line in lines for _ in range(line["times"])]
        self.assertEqual([int(answer) for answer in bench.answers], answers)
        if taken.stopped is None:
            self.assertEqual(taken.lines, room.log.count)
            for number, seat in enumerate(room.seats):
                end = state_of(bench.host(number), len(seat.state.links))
                self.assertEqual(shown(end), shown(state_of(seat.host)))
        return taken

    def test_rooms(self):
        for room, time in (
            (crystals(3), 60_000),
            (crystals(2), 70_000),
            (Room.fresh(2), 900),
            (crystals(3, nhosts=9), 0),
        ):
            room.go_on(time)
            self.assertIsNone(self.taken(room).stopped)

    def test_exercises(self):
        for number in (1, 2, 3, 4, 8, 9):
            room = Room.fresh()
            room.teacher({"do": "exercise", "number": number})
            room.teacher({"do": "to_the_end"})
            self.assertIsNone(self.taken(room).stopped)

    def test_too_long(self):
        room = crystals(4)
        room.go_on(400_000)
        taken = self.taken(room)
        self.assertEqual(len(taken.file.events), 2_048)
        words = "line 2,314: with it there are 2,049 events, and a file has 2,048 at most"
        self.assertEqual(english(taken.stopped), words)

    def test_calls_without_events(self):
        room = crystals(2)
        room.go_on(30_000)
        room.seat(0, {"do": "call", "call": "lookup", "address": "192.0.2.2"})
        looked = room.log.count
        room.go_on(31_000)
        self.assertEqual((self.taken(room).left_out, self.taken(room).stopped), ([looked], None))
        self.assertEqual(room.seat(0, {"do": "call", "call": "step"})["answer"], 17)
        self.assertEqual(self.taken(room).left_out, [looked, room.log.count])
        for call, more, words in (
            ("read", {}, "read of seat 1 has no event"),
            ("initialize", {}, "initialize of seat 1 has no event"),
        ):
            other = crystals(2)
            other.seat(1, {"do": "call", "call": call, **more})
            self.assertEqual(english(self.taken(other).stopped), f"line 4: {words}")
        room.teacher({"do": "net_add", "net": "10.0.0", "id": 40})
        room.teacher({"do": "net_add", "net": "10.0.0", "id": 1})
        taken = self.taken(room)
        self.assertEqual(english(taken.stopped), f"line {room.log.count:,}: net_add of the net table has no event")
        self.assertEqual(taken.left_out[-1], room.log.count - 1)

    def test_what_was_written_by_hand(self):
        room = Room({"seats": [{"by_hand": True}], "cables": []})
        text = "hello 0 0 0 1 0\n"
        write = {"do": "call", "call": "write", "link": 1, "text": text, "source": "192.0.2.9"}
        message = room.seat(0, write)["returned"]["message"]
        room.seat(0, {"do": "call", "call": "receive", "message": message})
        words = "line 5: link 1 of seat 0 has no cable, and so act no event"
        self.assertEqual(english(self.taken(room).stopped), words)
        room = crystals(2)
        room.teacher({"do": "by_hand", "seat": 0, "on": True})
        message = room.seat(0, {"do": "call", "call": "write", "link": 1, "text": text})["returned"]["message"]
        room.seat(0, {"do": "call", "call": "receive", "message": message})
        taken = self.taken(room)
        self.assertEqual(english(taken.stopped), "line 6: the packet was written by hand, and no seat has sent it")
        self.assertEqual((taken.lines, taken.left_out), (5, [4]))

    def test_trays(self):
        """As many packets on their way as there are trays; one more has none."""
        cable = {"ends": [[0, 1], [1, 1]], "ways": [[9, 9], [9, 9]]}
        room = Room({"seats": 2 * [{"crystal": True, "by_hand": True}], "cables": [cable]})
        for _ in range(33):
            room.go_on(room.now + 1)
            room.seat(0, {"do": "call", "call": "send", "link": 1})
        self.assertIsNone(self.taken(room).stopped)
        room.go_on(room.now + 20)
        for message in list(room.seats[1].waiting):
            room.seat(1, {"do": "call", "call": "receive", "message": message})
        taken = self.taken(room)
        self.assertEqual(english(taken.stopped), "line 36: all 32 slots have packets that are still to arrive")
        self.assertEqual(len(taken.file.events), 32)

    def test_loaded(self):
        room = crystals(2)
        room.go_on(20_000)
        reply = room.teacher({"do": "bench_room"})
        self.assertEqual((reply["name"], reply["stopped"], reply["left_out"]), ("room", None, []))
        self.assertEqual(reply["lines"], reply["of"])
        self.assertEqual(set_up(room)["answer"], 0)
        self.assertEqual(to_the_end(room)["done"], reply["events"])
        for seat, there in zip(view(room)["seats"], room.seats):
            self.assertEqual(seat["table"], [list(entry) for entry in there.state.table])


if __name__ == "__main__":
    unittest.main()
