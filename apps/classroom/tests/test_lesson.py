"""A whole lesson in real browsers: sixteen students join and write their names, an exercise is given to
all, some predict right and some wrong, one leaves and comes back. The board and the CSV agree with what
each did, and at the end all tables are right."""

import csv
import io
import unittest

from classroom.tests.browsing import PICTURES, Browser
from classroom.tests.serving import Class

STUDENTS = 16
WRONG = (2, 3, 9, 12)
"""The seats whose students predict wrong, twice."""
SECOND = (5, 6)
"""The seats whose students are right at the second try."""
LEAVES = 7


class Lesson(unittest.TestCase):
    @classmethod
    def setUpClass(cls):
        cls.served = Class(STUDENTS)
        cls.addClassCleanup(cls.stop)
        cls.teacher = Browser(1400, 1000)
        cls.addClassCleanup(cls.teacher.close)
        cls.students = Browser(1280, 1000)
        cls.addClassCleanup(cls.students.close)

    @classmethod
    def stop(cls):
        ended, logged = cls.served.stop()
        assert (ended, logged) == (0, ""), (ended, logged)

    def at(self, seat):
        """The page of a seat comes to the front."""
        self.students.driver.switch_to.window(self.windows[seat])
        return self.students

    def open_page(self, seat):
        if seat:
            self.students.driver.switch_to.new_window("window")
        self.students.open(self.served.address[f"/seat/{seat}"])
        self.students.one("#room-state[data-time]")
        self.windows[seat] = self.students.driver.current_window_handle

    def ask(self, message):
        """A message of the teacher's, by a socket of her own page."""
        return self.teacher.run(
            "const [message] = arguments;"
            "const s = new WebSocket(`ws://${location.host}/teacher/socket`);"
            "s.onopen = () => s.send(JSON.stringify({ n: 1, ...message }));"
            "s.onmessage = (m) => { const returned = JSON.parse(m.data); if (returned.n === 1) { s.close(); done(returned); } };",
            message,
        )["reply"]

    def test_a_lesson(self):
        self.windows = {}
        self.marks = {seat: {"tried": 0, "right": 0, "second": 0} for seat in range(STUDENTS)}
        self.teacher.open(self.served.address["/teacher"])
        self.teacher.one("#room[data-time]")
        self.teacher.click("#start-close")
        self.join()
        self.give_the_exercise()
        for seat in range(STUDENTS):
            self.at(seat).click('#routes [data-call="self_report"]')
            self.students.until(lambda: self.students.value('#routes [data-field="live"]') is not None, "a table")
        for seat in range(0, STUDENTS, 2):
            self.predict_send(seat)
        self.ask({"do": "one_message"})
        self.leave_and_return()
        for seat in range(1, STUDENTS, 2):
            self.predict_arrival(seat)
        self.board_agrees()
        self.teacher.picture(PICTURES / "board.png")
        self.to_the_end()
        self.csv_agrees()

    def join(self):
        """Sixteen pages are opened, and each student writes her name."""
        for seat in range(STUDENTS):
            self.open_page(seat)
            self.students.type("#student-name", f"Student {seat}")
            self.students.click("#name-form button")
            self.students.until(lambda: f"Student {seat}" in self.students.text("#name"), "the name")

    def give_the_exercise(self):
        """The handshake, for all sixteen at once: eight pairs; predictions are required."""
        teacher = self.teacher
        teacher.choose("#predict", "required")
        teacher.click('[data-tab="exercises"]')
        teacher.type("#exercise-students", str(STUDENTS))
        teacher.click('#exercise-list [data-exercise="1"] button')
        teacher.until(lambda: teacher.attribute("#exercise", "data-at") == 0, "the exercise")
        self.assertEqual(len(teacher.all("#picture [data-host]")), STUDENTS)
        student = self.at(3)
        student.until(lambda: student.attribute("#exercise", "data-exercise") == 1, "the exercise on her page")

    def tries(self, seat, form, fill):
        """A student tries once, or twice: fill(right) writes into the fields of a form."""
        page, mark = self.students, self.marks[seat]
        mark["tried"] += 1
        if seat in WRONG or seat in SECOND:
            fill(False)
            page.click(f"{form} .predict-check")
            page.one(f"{form} .hint-words")
            self.assertEqual(page.all(f"{form} .predict-skip")[0].is_displayed(), False)
        fill(seat not in WRONG)
        page.click(f"{form} .predict-check")
        mark["second" if seat in SECOND else "right"] += seat not in WRONG

    def predict_send(self, seat):
        """What a fresh host's message says: our reading, and nothing else yet."""
        page = self.at(seat)
        page.click('#links [data-link="1"] [data-call="send"]')
        form = "#links form.predict"

        def fill(right):
            values = {"NHOSTS": 0, "KEEP-ALIVE": 0, "TIME": page.value('#clock [data-field="time"]')}
            for field, value in {**values, "TSP of the message": 0 if right else 17}.items():
                page.type(f'{form} [data-predict="{field}"]', str(value))

        page.one(f"{form} [data-predict]")
        self.tries(seat, form, fill)
        page.until(lambda: "Message" in page.text("#sent"), "the message on its way")
        self.assertEqual(page.attribute("#answer", "data-answer"), 0)

    def predict_arrival(self, seat):
        """The first message is taken, and changes no entry."""
        page = self.at(seat)
        page.one("#messages [data-message]")
        page.click("#messages .receive")
        form = "#messages form.predict"
        page.one(f"{form} [data-predict]")
        self.tries(seat, form, lambda right: page.type(f'{form} [data-predict="answer"]', "0" if right else "10"))
        page.until(lambda: not page.all("#messages [data-message]"), "it is taken")
        self.assertEqual(page.attribute("#answer", "data-answer"), 0)

    def leave_and_return(self):
        """One student closes her page; the board says so, until she comes back."""
        self.at(LEAVES)
        self.students.driver.close()
        self.students.driver.switch_to.window(self.windows[0])
        teacher, here = self.teacher, f'#board tr[data-seat="{LEAVES}"] [data-field="here"]'
        teacher.click('[data-tab="board"]')
        teacher.until(lambda: "gone since" in teacher.text(here), "she is gone")
        self.assertIn("gone", teacher.text(f'#board tr[data-seat="{LEAVES}"] [data-field="needs"]'))
        self.open_page(LEAVES)
        teacher.until(lambda: "here since" in teacher.text(here), "she is back")
        self.assertIn(f"Student {LEAVES}", self.students.text("#name"))

    def board_agrees(self):
        """The rows say what each student did; those that need help come first."""
        teacher = self.teacher
        for seat, mark in self.marks.items():
            row = f'#board tr[data-seat="{seat}"]'
            wanted = (mark["tried"], mark["right"], mark["second"])
            teacher.until(
                lambda: tuple(teacher.attribute(row, f"data-{name}") for name in ("tried", "right", "second")) == wanted,
                f"the marks of seat {seat}",
            )
            self.assertEqual(teacher.text(f'{row} [data-field="name"]'), f"Student {seat}")
        rows = teacher.driver.execute_script(
            "return [...document.querySelectorAll('#board tbody tr')]"
            ".map((row) => [Number(row.dataset.seat), row.classList.contains('needs')])"
        )
        needs = [need for _, need in rows]
        self.assertEqual(needs, sorted(needs, reverse=True))
        self.assertLessEqual(set(WRONG), {seat for seat, need in rows if need})

    def to_the_end(self):
        """The teacher lets the rest be done: all tables are right."""
        teacher = self.teacher
        teacher.choose("#predict", "off")
        teacher.click('[data-tab="tables"]')
        teacher.click("#exercise-end")
        teacher.until(lambda: teacher.text("#exercise-explained"), "the explanation")
        teacher.click('[data-tab="board"]')
        right = '#board [data-field="table"]'
        teacher.until(lambda: teacher.values(right) == STUDENTS * ["true"], "all tables are right")
        self.assertIn(f"{STUDENTS} of {STUDENTS}", teacher.text("#board-words"))
        student = self.at(4)
        student.until(lambda: student.text("#exercise-explained"), "the explanation on her page")
        student.picture(PICTURES / "lesson-student.png")

    def csv_agrees(self):
        text = self.teacher.run("fetch('/teacher/marks.csv').then(r => r.text()).then(done)")
        rows = list(csv.DictReader(io.StringIO(text.removeprefix("\ufeff"))))
        self.assertEqual([int(row["seat"]) for row in rows], list(range(STUDENTS)))
        for row in rows:
            mark = self.marks[int(row["seat"])]
            self.assertEqual({name: int(row[name]) for name in mark}, mark)
            self.assertEqual((row["name"], row["table_right"]), (f"Student {row['seat']}", "yes"))
            self.assertEqual(int(row["missed"]), mark["tried"] - mark["right"] - mark["second"])

    def tearDown(self):
        self.assertEqual(self.teacher.complaints(), [])
        self.assertEqual(self.students.complaints(), [])


if __name__ == "__main__":
    unittest.main()
