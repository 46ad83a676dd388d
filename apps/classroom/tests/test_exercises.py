"""The exercises in the room: each run to the end that its text promises, in as many copies as there are students
for; by the teacher and by hand; and what counts as right."""

import html
import json
import random
import unittest

from hello import bench_file

from classroom.room import Refused, Room
from classroom.room.exercises import EXERCISES, sheet
from classroom.room.exercises.catalog import FIRST_OWN, FOLDER
from classroom.room.replay import replay
from classroom.server.exercise_paper import exercise

LONG = 7
"""The exercise with the most calls."""
DOWN = 30_000


def begun(number, students=4):
    room = Room.fresh(students)
    room.teacher({"do": "exercise", "number": number})
    return room


def text_of(name):
    return (FOLDER / f"{name}.txt").read_text("utf-8")


def delay(room, at, of):
    return room.seats[at].state.table[of].delay


def answers(room, seat, call):
    return [line["answer"] for line in room.log.recent if (line["seat"], line["call"]) == (seat, call)]


def by_hand(room, number, call, **given):
    """A call from a student's own page."""
    return room.seat(number, {"do": "call", "call": call, **given})


class All(unittest.TestCase):
    def test_numbered(self):
        self.assertEqual(sorted(EXERCISES), list(range(1, 16)))
        self.assertEqual([each.name[:2] for each in EXERCISES.values()], [f"{n:02}" for n in range(1, 16)])

    def test_promises(self):
        """Each stage comes out right, at every copy of sixteen students; what comes of it is shown after it."""
        for number, listed in EXERCISES.items():
            if number == LONG:
                continue
            room = begun(number, 16)
            said = listed.exercise
            for at, stage in enumerate(said.stages):
                view = room.teacher_view()["exercise"]
                self.assertEqual((view["at"], view["explanation"]), (at, None))
                self.assertEqual(view["stages"][at:], [{"words": stage.words, "outcome": None}])
                self.assertEqual({len(copy["results"][at]["checks"]) for copy in view["copies"]}, {0})
                reply = room.teacher({"do": "next"})
                self.assertEqual((reply["stage"], reply["holds"]), (at, True), (number, at))
            view = room.teacher_view()["exercise"]
            self.assertEqual(view["explanation"], said.words["explanation"])
            self.assertEqual({copy["right"] for copy in view["copies"]}, {True})
            self.assertEqual(len(view["copies"]), 16 // len(said.file.seats))
            self.assertTrue(replay(room.lines()).equal, number)

    def test_same_as_the_bench(self):
        """In one copy the room's tables are those of the bench, entry by entry, but for the time of day."""
        for number in (1, 2, 3, 4, 5, 6, 9, 10, 11, 12, 13, 15):
            room = begun(number, 1)
            room.teacher({"do": "to_the_end"})
            room.teacher({"do": "bench_ready", "file": EXERCISES[number].name})
            room.teacher({"do": "bench_set_up", "net": "own"})
            while room.teacher({"do": "bench_run", "events": 2_048})["count"]:
                pass
            bench = room.teacher_view()["bench"]
            self.assertEqual(bench["promised"]["broken"], [])
            for seat, other in zip(room.seats, bench["seats"], strict=True):
                self.assertEqual([list(entry) for entry in seat.state.table], other["table"], number)

    def test_sheet(self):
        """What is printed of an exercise: a text's own words, without a second source."""
        for number, listed in EXERCISES.items():
            made = sheet(number)
            self.assertEqual(made["title"], listed.exercise.said("title"))
            self.assertEqual(len(made["hosts"]), len(listed.exercise.file.seats))
            self.assertEqual(len(made["stages"]), len(listed.exercise.stages))
            json.dumps(made)
        self.assertEqual(sheet(1, "de")["title"], "Der Handschlag")
        self.assertEqual(sheet(1)["hosts"][1]["difference"], 500)
        self.assertIsNone(sheet(99))


class Paper(unittest.TestCase):
    """An exercise on paper, from the same text."""

    def test_paper(self):
        room = Room.fresh(2)
        for number, listed in EXERCISES.items():
            first, second = exercise(room, number).split('<section class="sheet">')[1:]
            said = listed.exercise
            for name in ("title", "task", "question"):
                self.assertIn(html.escape(said.said(name)), first)
            self.assertIn(html.escape(said.said("explanation")), second)
            for stage in said.stages:
                self.assertIn(html.escape(stage.words["en"]), first)
                if stage.outcome:
                    self.assertNotIn(html.escape(stage.outcome["en"]), first)
                    self.assertIn(html.escape(stage.outcome["en"]), second)
        self.assertIn("Der Handschlag", exercise(room, 1, "de"))
        with self.assertRaisesRegex(Refused, "there is no exercise 99"):
            exercise(room, 99)
        text = text_of("01-handshake").replace("title The handshake", "title <b>Mine</b>")
        number = room.teacher({"do": "exercise_load", "name": "mine", "text": text})["number"]
        self.assertIn("&lt;b&gt;Mine", exercise(room, number))
        self.assertNotIn("<b>", exercise(room, number))


class Copies(unittest.TestCase):
    """An exercise for all students at once."""

    def test_eight_pairs(self):
        room = begun(1, 16)
        self.assertEqual(len(room.seats), 16)
        names = [seat.name for seat in room.seats]
        self.assertEqual(names[:4] + names[-2:], ["Ada 1", "Ben 1", "Ada 2", "Ben 2", "Ada 8", "Ben 8"])
        self.assertEqual([cable["ends"] for cable in room.cables.cables][7], [[14, 1], [15, 1]])
        room.teacher({"do": "to_the_end"})
        for seat in range(16):
            others = [id for id in range(16) if delay(room, seat, id) < DOWN]
            self.assertEqual(others, sorted((seat, seat ^ 1)))
            self.assertEqual(room.seats[seat].state.table[seat ^ 1].offset, 500 if seat % 2 == 0 else -500)

    def test_as_many_as_fit(self):
        for students, number, copies, seats, observers in (
            (16, 11, 3, 15, 1),
            (5, 1, 2, 4, 1),
            (1, 1, 1, 2, 0),
            (16, 7, 1, 16, 0),
            (7, 10, 1, 8, 0),
            (16, 12, 5, 15, 1),
            (15, 8, 2, 12, 3),
        ):
            room = begun(number, students)
            view = room.teacher_view()["exercise"]
            self.assertEqual((len(view["copies"]), len(room.seats)), (copies, seats), (students, number))
            self.assertEqual(view["observers"], observers)

    def test_students(self):
        """The number of students is the class's, unless the teacher says another."""
        room = begun(1, 16)
        room.teacher({"do": "exercise", "number": 1, "students": 6})
        self.assertEqual(len(room.seats), 6)
        for students in (0, 17, True, "4"):
            with self.assertRaises(Refused):
                room.teacher({"do": "exercise", "number": 1, "students": students})
        with self.assertRaisesRegex(Refused, "there is no exercise 16"):
            room.teacher({"do": "exercise", "number": 16})

    def test_a_students_view(self):
        room = begun(11, 16)
        view = room.seat_view(7)["exercise"]
        self.assertEqual((view["part"], view["copy"], view["observes"]), ("Cleo", 1, False))
        self.assertEqual([(p["part"], p["seat"]) for p in view["partners"]], [("Ada", 5), ("Ben", 6), ("Dan", 8), ("Eva", 9)])
        for name in ("title", "task", "question", "law"):
            self.assertEqual(view[name]["en"], EXERCISES[11].exercise.said(name))
        self.assertEqual([(stage["words"]["en"], stage["outcome"]) for stage in view["stages"]], [("Round 1.", None)])
        self.assertIsNone(room.seat_view(7)["observed"])
        self.assertEqual(view["predict"], [])

    def test_observers(self):
        """Who has no seat reads so, and sees the tables of a copy."""
        room = begun(11, 16)
        view = room.seat_view(15)
        self.assertIsNone(view["seat"])
        self.assertTrue(view["exercise"]["observes"])
        self.assertIsNone(view["exercise"]["part"])
        copy = view["exercise"]["copy"]
        self.assertEqual([seat["number"] for seat in view["observed"]], list(range(5 * copy, 5 * copy + 5)))
        self.assertIn("table", view["observed"][0])
        self.assertEqual((room.seat_view(16)["exercise"], room.seat_view(16)["observed"]), (None, None))
        room.teacher({"do": "set_up", "seats": [{}], "cables": []})
        self.assertEqual((room.seat_view(15)["exercise"], room.seat_view(15)["observed"]), (None, None))
        json.dumps(view)

    def test_nothing_is_given_away(self):
        """No page has what comes of a stage, what is expected, or the explanation, before it has happened."""
        for number, listed in EXERCISES.items():
            room = begun(number, 16)
            said = listed.exercise
            for view in (room.teacher_view()["exercise"], room.seat_view(0)["exercise"]):
                octets = json.dumps(view, ensure_ascii=False)
                for stage in said.stages:
                    if "en" in stage.outcome:
                        self.assertNotIn(stage.outcome["en"], octets, number)
                self.assertNotIn(said.said("explanation"), octets)
                self.assertEqual(view["stages"][1:], [])
                self.assertNotIn("expected", octets)


class ByHand(unittest.TestCase):
    """It does not matter who makes the calls."""

    def take(self, room, number):
        """A student takes what waits, as soon as it has arrived."""
        room.go_on(room.now + 1_000)
        return by_hand(room, number, "receive", message=next(iter(room.seats[number].waiting)))

    def stage(self, room, place):
        return room.seat_view(place)["exercise"]["at"]

    def test_the_handshake(self):
        """A pair does the exercise; it counts, stage by stage, and ends with the explanation."""
        room = begun(1, 4)
        self.assertTrue(room.waits)
        by_hand(room, 2, "self_report")
        self.assertEqual(self.stage(room, 2), 0)
        by_hand(room, 3, "self_report")
        self.assertEqual(self.stage(room, 2), 1)
        for at, sender in enumerate((2, 3, 2, 3), 1):
            by_hand(room, sender, "send", link=1)
            self.assertEqual(self.stage(room, 3), at)
            self.assertEqual(self.take(room, 5 - sender)["answer"], 0)
            self.assertEqual(self.stage(room, 3), at + 1)
        view = room.seat_view(3)["exercise"]
        self.assertEqual((view["right"], view["ended"]), (True, True))
        self.assertEqual(view["explanation"]["en"], EXERCISES[1].exercise.said("explanation"))
        checks = view["results"][4]["checks"]
        sent = ["exercise.call.send", {"name": "Ben 2", "link": 1}]
        self.assertIn({"what": sent, "expected": 0, "actual": 0, "right": True}, checks)
        entry = ["exercise.entry", {"host": "Ben 2", "seat": "Ada 2", "field": "OFFSET"}]
        self.assertIn({"what": entry, "expected": 500, "actual": 500, "right": True}, checks)
        # The other copy is where it was, and the teacher can carry its stages out.
        self.assertEqual((self.stage(room, 0), room.teacher_view()["exercise"]["at"]), (0, 0))
        room.teacher({"do": "to_the_end"})
        self.assertEqual([copy["right"] for copy in room.teacher_view()["exercise"]["copies"]], [True, True])
        self.assertEqual(len(answers(room, 2, "send")), 2)

    def test_box_by_box(self):
        """An arrival that is made box by box counts as one."""
        room = begun(1, 2)
        for seat in (0, 1):
            by_hand(room, seat, "self_report")
        for sender in (0, 1, 0):
            by_hand(room, sender, "send", link=1)
            room.go_on(room.now + 1_000)
            other = room.seats[1 - sender]
            by_hand(room, 1 - sender, "open_walk", message=next(iter(other.waiting)))
            while other.in_walk:
                by_hand(room, 1 - sender, "step")
        view = room.seat_view(0)["exercise"]
        self.assertEqual((view["at"], [result["right"] for result in view["results"]]), (4, 4 * [True] + [None]))

    def test_half_by_hand(self):
        """The teacher carries out what is left of a stage, and no call twice."""
        room = begun(1, 2)
        by_hand(room, 0, "self_report")
        self.assertTrue(room.teacher({"do": "next"})["holds"])
        self.assertEqual((len(answers(room, 0, "self_report")), len(answers(room, 1, "self_report"))), (1, 1))
        by_hand(room, 0, "send", link=1)
        self.assertTrue(room.teacher({"do": "next"})["holds"])
        self.assertEqual(len(answers(room, 0, "send")), 1)
        self.assertEqual(room.exercise.stage, 2)

    def test_ways_by_hand(self):
        """A message takes the time that the exercise says, and is lost when it says so."""
        room = begun(3, 2)
        room.teacher({"do": "next"})
        by_hand(room, 1, "send", link=1)
        by_hand(room, 1, "self_report")
        room.go_on(room.now + 10)
        by_hand(room, 1, "send", link=1)
        self.assertEqual([way["arrives"] - room.now for way in room.cables.shown()], [5, 30])
        room = begun(12, 3)
        room.teacher({"do": "next"})
        for seat in range(3):
            by_hand(room, seat, "self_report")
        by_hand(room, 1, "send", link=2)
        self.assertEqual(len(room.cables.on_their_way), 1)

    def test_too_many_sends(self):
        """A call that the exercise does not ask for does no harm by itself: what is promised decides."""
        room = begun(1, 2)
        for seat in (0, 1, 0, 1, 0):
            by_hand(room, seat, "self_report")
        by_hand(room, 0, "lookup", address="192.0.2.2")
        self.assertEqual(self.stage(room, 0), 1)
        self.assertTrue(room.teacher({"do": "to_the_end"})["holds"])

    def test_ahead(self):
        """Ada sends before Ben has reported himself: both count."""
        room = begun(1, 2)
        by_hand(room, 0, "self_report")
        by_hand(room, 0, "send", link=1)
        self.assertEqual(self.stage(room, 0), 0)
        by_hand(room, 1, "self_report")
        self.assertEqual(self.stage(room, 0), 1)
        self.take(room, 1)
        self.assertEqual(self.stage(room, 0), 2)


class Verdicts(unittest.TestCase):
    """A stage counts only if each of its calls got the answer that the text names and every promise holds."""

    def test_a_take_that_is_refused(self):
        """`Still down` holds if nothing happens; the take was refused with 16, and so the stage is not right."""
        room = begun(1, 2)
        room.teacher({"do": "next"})
        by_hand(room, 1, "write", link=1, text=self.hello())
        by_hand(room, 1, "open_walk", message=next(iter(room.seats[1].waiting)))
        reply = room.teacher({"do": "next"})
        self.assertEqual((answers(room, 1, "inspect"), answers(room, 1, "act")), ([16], []))
        self.assertEqual(reply["holds"], False)
        result = room.teacher_view()["exercise"]["copies"][0]["results"][1]
        self.assertEqual(result["right"], False)
        taken = ["exercise.call.arrival", {"name": "Ben", "link": 1}]
        self.assertEqual(result["checks"][0], {"what": taken, "expected": 0, "actual": 16, "right": False})
        promised = [check for check in result["checks"] if check["what"][0] == "exercise.entry"]
        self.assertEqual([check["right"] for check in promised], [True, True])
        # Later stages do not change it, and a page that is loaded again is shown it again.
        room.teacher({"do": "next"})
        self.assertEqual(room.teacher_view()["exercise"]["copies"][0]["results"][1], result)

    def hello(self):
        """A message in the text form, as the page offers it."""
        room = begun(1, 2)
        by_hand(room, 0, "send", link=1)
        room.go_on(room.now + 1_000)
        return next(iter(room.seats[1].waiting.values())).shown()["text"]

    def test_refused_by_hand(self):
        """By hand a refused call is no call of the stage: it is made again, and then counts."""
        room = begun(1, 2)
        room.teacher({"do": "next"})
        by_hand(room, 0, "send", link=1)
        room.go_on(room.now + 1_000)
        by_hand(room, 1, "write", link=1, text=self.hello())
        first, written = room.seats[1].waiting
        by_hand(room, 1, "open_walk", message=written)
        self.assertEqual(by_hand(room, 1, "receive", message=first)["answer"], 16)
        view = room.seat_view(1)["exercise"]
        self.assertEqual((view["at"], view["results"][1]["right"]), (1, None))

    def test_a_promise_that_does_not_hold(self):
        """All calls are answered as named, and a number is another: expected and actual are shown."""
        room = begun(1, 2)
        for _ in range(3):
            room.teacher({"do": "next"})
        by_hand(room, 0, "set", ms=400)
        reply = room.teacher({"do": "next"})
        self.assertEqual(reply["holds"], False)
        result = room.exercise.copies[0].results[3]
        self.assertEqual((result.calls.wrong, result.promises.count), ([], 3))
        entry = ["exercise.entry", {"host": "Ada", "seat": "Ben", "field": "OFFSET"}]
        self.assertEqual(result.promises.wrong, [{"what": entry, "expected": -500, "actual": -300, "right": False}])
        self.assertEqual(room.teacher({"do": "to_the_end"})["ended"], True)
        self.assertEqual(room.seat_view(0)["exercise"]["right"], False)
        self.assertTrue(room.seat_view(0)["exercise"]["explanation"])

    def test_a_message_that_is_gone(self):
        room = begun(1, 2)
        room.teacher({"do": "next"})
        by_hand(room, 0, "send", link=1)
        room.go_on(room.now + 1_000)
        by_hand(room, 1, "drop", message=next(iter(room.seats[1].waiting)))
        self.assertEqual(room.teacher({"do": "next"})["holds"], False)
        (check,) = room.exercise.copies[0].results[1].calls.wrong
        self.assertEqual((check["expected"], check["actual"]), (0, None))

    def test_another_answer(self):
        """The fifth message of exercise 4 gets 10, as the text names; another text would be wrong."""
        room = begun(4, 2)
        room.teacher({"do": "to_the_end"})
        checks = room.teacher_view()["exercise"]["copies"][0]["results"][2]["checks"]
        taken = ["exercise.call.arrival", {"name": "Ben", "link": 1}]
        self.assertIn({"what": taken, "expected": 10, "actual": 10, "right": True}, checks)
        # Of many calls that are right the number is shown.
        checks = room.teacher_view()["exercise"]["copies"][0]["results"][3]["checks"]
        self.assertEqual((checks[0]["what"][0], checks[0]["expected"], checks[0]["right"]), ("exercise.calls", 88, True))
        other = text_of("04-silence").replace("promise answer 10", "promise answer 0")
        loaded = room.teacher({"do": "exercise_load", "name": "other", "text": other})
        room.teacher({"do": "exercise", "number": loaded["number"]})
        self.assertFalse(room.teacher({"do": "to_the_end"})["holds"])

    def test_views_where_they_changed(self):
        """The card comes with a view when it has changed, and all of it with the first."""
        room = begun(1, 2)
        first = room.teacher_view()
        self.assertNotIn("exercise", room.teacher_view(first["mark"]))
        room.teacher({"do": "next"})
        second = room.teacher_view(first["mark"])
        self.assertEqual(second["exercise"]["at"], 1)
        self.assertEqual(room.teacher_view()["exercise"], second["exercise"])
        room.teacher({"do": "set_up", "seats": [{}], "cables": []})
        self.assertIsNone(room.teacher_view(second["mark"])["exercise"])


class Predicted(unittest.TestCase):
    """What students write that they expect of a stage."""

    def setUp(self):
        self.room = begun(11, 16)
        self.room.teacher({"do": "predict", "mode": "offered"})
        self.room.teacher({"do": "next"})

    def view(self, place):
        return self.room.seat_view(place)["exercise"]

    def foretell(self, place, *values, stage=1):
        return self.room.seat(place, {"do": "foretell", "stage": stage, "values": list(values)})

    def test_marks(self):
        asked = [(each["seat"], each["host"], each["field"]) for each in self.view(7)["predict"]]
        self.assertEqual(asked, [(5, 6, "DELAY"), (5, 7, "DELAY")])
        self.foretell(7, 100, DOWN)
        self.foretell(8, 100, 200)
        self.assertEqual((self.view(7)["predicted"], self.view(7)["marks"]), ([100, DOWN], []))
        self.assertIsNone(self.view(6)["predicted"])
        self.room.teacher({"do": "next"})
        marks = self.view(8)["marks"]
        self.assertEqual([(each["given"], each["actual"], each["right"]) for each in marks[0]["fields"]], [(100, 100, True), (200, DOWN, False)])
        self.assertEqual((marks[0]["stage"], marks[0]["fields"][1]["host"]), (1, "Cleo 2"))
        self.assertEqual([each["right"] for each in self.view(7)["marks"][0]["fields"]], [True, True])
        self.assertEqual(self.view(6)["marks"], [])
        students = self.room.lesson.students
        self.assertEqual([(students[place].tried, students[place].right) for place in (6, 7, 8)], [(0, 0), (1, 1), (1, 0)])
        json.dumps(self.view(8))

    def test_nothing_is_given_away(self):
        """Before the stage is over no page is sent a value of it, whatever is written."""
        before = json.dumps(self.view(7)["results"])
        self.foretell(7, 1, 2)
        self.assertEqual(json.dumps(self.view(7)["results"]), before)
        self.assertNotIn("actual\": 30000", json.dumps(self.view(7)["marks"]))

    def test_refused(self):
        self.foretell(7, 100, DOWN)
        for values, stage in (((100, DOWN), 1), ((100, DOWN), 0), ((100, DOWN), 2), ((100,), 1), (("100", 1), 1), ((10**7, 1), 1)):
            with self.assertRaises(Refused):
                self.foretell(7, *values, stage=stage)
        self.room.teacher({"do": "predict", "mode": "off"})
        self.assertEqual(self.view(8)["predict"], [])
        with self.assertRaisesRegex(Refused, "no predictions are asked for now"):
            self.foretell(8, 100, DOWN)
        self.room.teacher({"do": "predict", "mode": "required"})
        self.assertEqual(len(self.view(8)["predict"]), 2)
        self.room.teacher({"do": "set_up", "seats": [{}], "cables": []})
        with self.assertRaisesRegex(Refused, "no exercise"):
            self.foretell(0, 100, DOWN)


class Own(unittest.TestCase):
    """An exercise that the teacher has written."""

    def setUp(self):
        self.room = Room.fresh(4)
        self.text = text_of("01-handshake")

    def load(self, text, name="mine"):
        return self.room.teacher({"do": "exercise_load", "name": name, "text": text})

    def test_load(self):
        before = self.room.teacher_view()
        reply = self.load(self.text.replace("title The handshake", "title My own"))
        self.assertEqual((reply["number"], reply["faults"]), (FIRST_OWN, []))
        after = self.room.teacher_view(before["mark"])
        self.assertEqual(after["exercises"][-1], {**after["exercises"][-1], "number": FIRST_OWN, "hosts": 2, "own": True})
        self.assertEqual(after["exercises"][-1]["title"]["en"], "My own")
        self.assertNotIn("exercises", self.room.teacher_view(after["mark"]))
        self.room.teacher({"do": "exercise", "number": FIRST_OWN})
        self.assertTrue(self.room.teacher({"do": "to_the_end"})["holds"])
        # One of the same name takes its place; another one is another.
        self.assertEqual(self.load(self.text)["number"], FIRST_OWN)
        self.assertEqual(self.load(self.text, "yours")["number"], FIRST_OWN + 1)

    def test_faults(self):
        """Each wrong line is reported with its number, what a room cannot do too; and nothing is loaded."""
        lines = self.text.splitlines()
        for wrong, words in (
            ("sned cable 0 end 0 tray 0", "Did you mean 'send'?"),
            ("tick 0", "clocks tick by themselves"),
            ("arrival tray 9", "tray 9 is empty"),
            ("promise seat 2 host 0 down", "seat 2 is not there"),
        ):
            at = lines.index("self-report all") + 1
            reply = self.load("\n".join([*lines[:at], wrong, *lines[at:]]))
            self.assertEqual([(fault["line"], words in fault["words"]) for fault in reply["faults"]], [(at + 1, True)])
            self.assertIsNone(reply["number"])
        for kept, other, words in (
            ("192.0.2.2 name Ben", "192.0.2.3 name Ben", "gives the id 2"),
            ("name Ben time", "name Ben hold 9 time", "HOLD-INTERVAL is 10"),
            ("name Ben time 12:00:00.500", "name Ben clock-tick 30", "'wait' is for crystals"),
            ("cable 0.1 1.1", "cable 0.1 1.1\ncable 0.2 1.1", "has a cable already"),
            ("question After", "# After", "has a line 'question'"),
        ):
            reply = self.load(self.text.replace(kept, other))
            self.assertTrue(any(words in fault["words"] for fault in reply["faults"]), (other, reply))
        self.assertEqual(self.room.own_exercises, {})
        two = self.load(self.text.replace("self-report all", "self-report every\nself-report all\nset 0\n", 1))
        at = lines.index("self-report all") + 1
        self.assertEqual([fault["line"] for fault in two["faults"]], [at, at + 2])

    def test_forms(self):
        for given in ({"name": "a"}, {"text": "a"}, {"name": 3, "text": ""}, {"name": "a", "text": 150_001 * "a"}):
            with self.assertRaises(Refused):
                self.room.teacher({"do": "exercise_load", **given})

    def test_most(self):
        for number in range(25):
            self.load(self.text, f"mine {number}")
        self.assertEqual(len(self.room.own_exercises), 20)
        self.assertEqual(max(self.room.own_exercises), FIRST_OWN + 24)

    def test_further_hosts(self):
        """Hosts that live at a seat beside its own have ids of their own in each copy."""
        text = self.text.replace("seat 192.0.2.1 name Ada", "nhosts 3\nseat 192.0.2.1 name Ada also 2")
        text = text.replace("delays 0,down", "delays 0,down,0").replace("delays down,0", "delays down,0,down")
        text += "promise seat 1 host 2 delay 100 offset -500\n"
        number = self.load(text)["number"]
        self.room.teacher({"do": "exercise", "number": number})
        self.assertEqual([seat.also for seat in self.room.seats], [[4], [], [5], []])
        self.assertTrue(self.room.teacher({"do": "to_the_end"})["holds"])


class Disturbed(unittest.TestCase):
    """Whatever the class does in between, the stages come to their end, and the room's calls can be replayed."""

    def test_hands_and_walks(self):
        choose = random.Random(3)
        for number in (1, 2, 3, 4, 5, 6, 8, 9, 10, 11, 12, 13, 14, 15):
            room = begun(number)
            while not room.exercise.ended:
                room.teacher({"do": "next"})
                seat = choose.choice(room.seats)
                if seat.waiting:
                    given = {"call": "open_walk", "message": next(iter(seat.waiting))}
                else:
                    given = {"call": "send", "link": 1}
                for message in (
                    {"do": "waits", "on": choose.random() < 0.5},
                    {"do": "by_hand", "seat": seat.number, "on": choose.random() < 0.5},
                    {"do": "call", "seat": seat.number, **given},
                    {"do": "one_second"},
                ):
                    try:
                        room.teacher(message)
                    except Refused:
                        pass
            json.dumps([room.teacher_view(), room.seat_view(0)], allow_nan=False)
            self.assertTrue(replay(room.lines()).equal)

    def test_another_nhosts(self):
        choose = random.Random(5)
        for number in (1, 2, 3, 4, 5, 6, 8, 9, 10, 14):
            room = begun(number)
            while not room.exercise.ended:
                seat = choose.randrange(len(room.seats))
                room.teacher({"do": "net_afresh", "nhosts": choose.choice((1, 2, 3, 4, 8))})
                room.teacher({"do": "call", "seat": seat, "call": "initialize"})
                room.teacher({"do": "next"})
            self.assertFalse(all(copy.right for copy in room.exercise.copies))
            self.assertTrue(replay(room.lines()).equal)


class Numbers(unittest.TestCase):
    """The numbers that the exercises are about."""

    def test_ghost(self):
        room, seen = begun(LONG, 16), []
        while not room.exercise.ended:
            self.assertTrue(room.teacher({"do": "next"})["holds"])
            seen.append(min(delay(room, at, 15) for at in range(15)))
        self.assertEqual((seen[2], seen[5], seen[9], seen[-2:]), (300, 2_200, 10_200, [29_900, DOWN]))
        self.assertEqual([delay(room, 0, id) for id in range(8)], [100 * id for id in range(8)])

    def test_silence(self):
        room = begun(4, 2)
        room.teacher({"do": "to_the_end"})
        self.assertEqual(answers(room, 1, "act"), 6 * [0] + 23 * [10])

    def test_no_tsp(self):
        room = begun(9, 2)
        room.teacher({"do": "to_the_end"})
        packets = [line["with"]["packet"] for line in room.log.recent if line["call"] == "act"]
        self.assertEqual({packet.split()[28] + packet.split()[29] for packet in packets}, {"0000"})

    def test_last_hundred(self):
        room = begun(8, 6)
        room.teacher({"do": "to_the_end"})
        self.assertEqual([delay(room, at, at ^ 1) for at in range(6)], 2 * [29_900] + 4 * [DOWN])

    def test_an_open_walk_stops_the_ageing(self):
        room = begun(14, 2)
        for _ in range(3):
            room.teacher({"do": "next"})
        self.assertEqual((delay(room, 0, 1), delay(room, 1, 0)), (DOWN, 100))
        self.assertEqual(room.seats[1].state.table[0].ttl, 120)
        self.assertTrue(room.seats[1].in_walk)
        self.assertEqual(set(answers(room, 1, "second")), {16})

    def test_conditions_that_fail(self):
        """With ways of 50 ms, or without the late message, exercises 13 and 15 come out as the law says."""
        for name, kept, other in (
            ("13-fifty-one", "wait 51", "wait 50"),
            ("15-held-back", "stage The message of round 2 arrives at Ada.", "stage No message arrives.\nsecond 0\n#"),
        ):
            text = text_of(name).replace(kept, other).replace("\narrival tray 9", "")
            room = Room.fresh(3)
            number = room.teacher({"do": "exercise_load", "name": "other", "text": text})["number"]
            room.teacher({"do": "exercise", "number": number})
            for _ in range(4):
                room.teacher({"do": "next"})
            self.assertEqual([delay(room, 0, id) for id in range(3)], [0, 100, 200], name)

    def test_texts(self):
        """The texts are the one source: what the room lists is what the folder has."""
        listed = {row["number"]: row["title"]["en"] for row in Room.fresh(2).teacher_view()["exercises"]}
        for path in FOLDER.glob("*.txt"):
            said = bench_file.read_exercise(path.read_text("utf-8"))
            self.assertEqual(listed[int(path.name[:2])], said.said("title"))
        self.assertEqual(len(listed), len(list(FOLDER.glob("*.txt"))))


if __name__ == "__main__":
    unittest.main()
