"""Exercises in real browsers: a class of five, in which two pairs work and one student observes."""

import html
import tempfile
import unittest

from classroom.room.exercises import EXERCISES
from classroom.room.exercises.catalog import FOLDER
from classroom.tests.browsing import PICTURES, Browser
from classroom.tests.serving import Class

STUDENTS = 5
WIDTHS = (1280, 1920)


class Exercises(unittest.TestCase):
    """Each test sets an exercise up anew."""

    @classmethod
    def setUpClass(cls):
        cls.served = Class(STUDENTS)
        cls.addClassCleanup(cls.stop)
        cls.teacher, cls.ada, cls.ben, cls.observer = (cls.browser() for _ in range(4))
        cls.enter(cls.teacher, "/teacher")
        cls.enter(cls.ada, "/seat/0")
        cls.enter(cls.ben, "/seat/1")
        cls.enter(cls.observer, f"/seat/{STUDENTS - 1}")

    @classmethod
    def browser(cls):
        made = Browser()
        cls.addClassCleanup(made.close)
        return made

    @classmethod
    def stop(cls):
        ended, logged = cls.served.stop()
        assert (ended, logged) == (0, ""), (ended, logged)

    @classmethod
    def enter(cls, browser, place):
        browser.open(cls.served.address[place])
        browser.until(lambda: browser.driver.current_url == cls.served.origin + place, place)

    def tearDown(self):
        for browser in (self.teacher, self.ada, self.ben, self.observer):
            self.assertEqual(browser.complaints(), [])

    # What they do.

    def set_up(self, number):
        """The teacher sets an exercise up, with one click."""
        before = self.teacher.attribute("#room", "data-number")
        self.teacher.click('[data-tab="exercises"]')
        self.teacher.click(f'#exercise-list [data-exercise="{number}"] button')
        self.teacher.until(lambda: self.agreed(before + 1), "a new room")
        self.at(self.teacher, 0)

    def agreed(self, number):
        """Whether the room of that number is there; a question before the loss of the other is agreed to."""
        for button in self.teacher.all(".sure-yes"):
            if button.is_displayed():
                button.click()
        return self.teacher.attribute("#room", "data-number") == number

    def next(self):
        """The teacher lets the next stage be carried out."""
        at = self.teacher.attribute("#exercise", "data-at")
        self.teacher.click("#exercise-next")
        self.at(self.teacher, at + 1)

    def at(self, browser, stage):
        browser.until(lambda: browser.attribute("#exercise", "data-at") == stage, f"stage {stage}")

    def done(self, browser, stage):
        """The results of a stage that is done, as the page shows them: rows of words."""
        css = f'#exercise-stages li[data-stage="{stage}"]'
        browser.until(lambda: browser.all(f"{css} tbody tr"), f"the results of stage {stage}")
        rows = browser.driver.execute_script(
            "return [...document.querySelectorAll(arguments[0])].map((row) => [...row.cells].map((c) => c.textContent))",
            f"{css} tbody tr",
        )
        return browser.attribute(css, "data-right"), rows

    # What they see.

    def test_a_pair_by_hand(self):
        """Two students do the handshake by hand: it counts, and ends with its explanation."""
        self.set_up(1)
        said = EXERCISES[1].exercise
        for browser, part, partner in ((self.ada, "Ada", "Ben (seat 1)"), (self.ben, "Ben", "Ada (seat 0)")):
            self.at(browser, 0)
            self.assertEqual(browser.text("#exercise-title"), f"1. {said.said('title')}")
            self.assertEqual(browser.text("#exercise-part"), f"You are {part} of copy 1. Your partner is {partner}.")
            self.assertEqual(browser.text("#exercise-task"), said.said("task"))
            self.assertEqual(browser.text("#exercise-question"), said.said("question"))
            self.assertEqual(browser.text("#exercise-now"), f"Stage 1 of 5: {said.stages[0].words['en']}")
            self.assertFalse(browser.all("#exercise-after")[0].is_displayed())
        self.assertIn("5 students: 2 copies of 2 hosts. 1 student observes", self.teacher.text("#exercise-for"))
        self.teacher.click("#run")
        for browser in (self.ada, self.ben):
            browser.click('[data-call="self_report"]')
        self.at(self.ada, 1)
        for stage, (sender, other) in enumerate(2 * ((self.ada, self.ben), (self.ben, self.ada)), 1):
            sender.click('#links [data-link="1"] [data-call="send"]')
            other.click("#messages .receive")
            for browser in (sender, other):
                self.at(browser, stage + 1)
                self.assertIn(said.stages[stage].outcome["en"], browser.text("#exercise-last"))
        for browser in (self.ada, self.ben):
            self.assertEqual(browser.text("#exercise-explained"), said.said("explanation"))
            self.assertIn("✓ All 5 stages", browser.text("#exercise-now"))
        self.teacher.until(lambda: self.teacher.attribute('#exercise-copies [data-copy="0"]', "data-stage") == 5, "copy 1")
        self.assertEqual(self.teacher.attribute('#exercise-copies [data-copy="1"]', "data-stage"), 0)
        # The teacher's page says of the first stage alone what is done: the other copy has not begun.
        self.assertEqual(self.teacher.attribute("#exercise", "data-at"), 0)
        self.teacher.click("#pause")
        right, rows = self.done(self.ada, 4)
        self.assertTrue(right)
        self.assertIn(["Ben 1 in Ada 1's table: OFFSET", "500", "500", "✓"], rows)
        self.ada.driver.refresh()
        self.at(self.ada, 5)
        self.assertEqual(self.done(self.ada, 4), (right, rows))
        self.assertEqual(self.ada.text("#exercise-explained"), said.said("explanation"))

    def test_a_refused_take(self):
        """Ben has a walk open: his take is refused with 16. `Still down` holds, and the stage is wrong all the same."""
        self.set_up(1)
        self.next()
        self.at(self.ben, 1)
        self.ben.click("#write .example")
        self.ben.click("#write-send")
        self.ben.click("#messages .open-walk")
        self.ben.until(lambda: self.ben.all("#seat.in-walk"), "the walk")
        self.next()
        self.assertIn("✗ Not as the exercise says: copy 1, stage 2", self.teacher.text("#exercise-held"))
        right, rows = self.done(self.teacher, 1)
        self.assertFalse(right)
        self.assertIn(["Ben 1: take on link 1: answer", "0", "16", "✗"], rows)
        self.assertIn(["Ada 1 in Ben 1's table: DELAY", "30,000", "30,000", "✓"], rows)
        self.assertEqual(self.done(self.ben, 1), (right, rows))
        self.assertNotIn("✗", self.teacher.text('#exercise-copies [data-copy="1"]'))
        for browser in (self.teacher, self.ben):
            browser.driver.refresh()
            self.at(browser, 2)
            self.assertEqual(self.done(browser, 1), (right, rows))
        self.assertIn("✗", self.teacher.text("#exercise-held"))
        self.teacher.choose("#exercise-copy", "1")
        self.teacher.until(lambda: self.done(self.teacher, 1)[0] is True, "the other copy")

    def test_nothing_is_given_away(self):
        """Before a stage neither page has what comes of it."""
        self.set_up(3)
        self.at(self.ada, 0)
        stages = EXERCISES[3].exercise.stages
        for number, stage in enumerate(stages[:4]):
            for browser in (self.teacher, self.ada):
                source = browser.driver.page_source
                for later in stages[number:]:
                    self.assertNotIn(later.outcome.get("en", "no outcome"), source)
                self.assertIn(stage.words["en"], browser.text("#exercise"))
            self.next()
            self.at(self.ada, number + 1)
        self.assertIn(stages[3].outcome["en"], self.teacher.text("#exercise"))
        self.teacher.click("#exercise-end")
        self.teacher.until(lambda: self.teacher.text("#exercise-explained"), "the explanation")
        self.assertIn("in all 2 copies", self.teacher.text("#exercise-held"))

    def test_an_observer(self):
        """The student who is left over reads so, and sees the tables of a copy."""
        self.set_up(1)
        eve = self.observer
        eve.until(lambda: eve.attribute("#exercise", "data-observes"), "the observer")
        self.assertIn("You observe copy 1: Ada (seat 0), Ben (seat 1).", eve.text("#exercise-part"))
        self.assertIn("there is no host at your seat", eve.text("#exercise-part"))
        self.assertFalse(eve.all("#none")[0].is_displayed())
        self.assertFalse(eve.all("#seat")[0].is_displayed())
        for _ in range(5):
            self.next()
        entry = '#observed [data-seat="0"] [data-id="1"] [data-field="delay"]'
        eve.until(lambda: eve.value(entry) == 100, "Ben at Ada")
        self.assertTrue(eve.text("#exercise-explained"))

    def test_a_law(self):
        """A law of liveness with its bound is on both pages; after three rounds every table is right."""
        self.set_up(11)
        law = EXERCISES[11].exercise.said("law")
        self.assertEqual(self.teacher.text("#exercise-law"), law)
        self.at(self.ada, 0)
        self.assertEqual(self.ada.text("#exercise-law"), law)
        for stage in range(3):
            self.next()
            self.assertEqual(self.done(self.teacher, stage)[0], True)
        self.ada.until(
            lambda: self.ada.values('#routes [data-field="delay"]') == ["0", "100", "200", "200", "100"], "Ada's table"
        )

    def load(self, text):
        with tempfile.NamedTemporaryFile(prefix="mine", suffix=".txt") as file:
            file.write(text.encode())
            file.flush()
            self.teacher.all("#exercise-choose")[0].send_keys(file.name)
            self.teacher.until(lambda: self.teacher.text("#exercise-said"), "what became of it")
            return self.teacher.text("#exercise-said")

    def test_an_own_exercise(self):
        """Each fault of a text is shown with its line; put right, the exercise is in the list and runs."""
        self.teacher.click('[data-tab="exercises"]')
        text = (FOLDER / "01-handshake.txt").read_text("utf-8").replace("title The handshake", "title My own pair")
        lines = text.splitlines()
        wrong = [lines.index("cable 0.1 1.1"), lines.index("self-report all")]
        spoiled = list(lines)
        spoiled[wrong[0]], spoiled[wrong[1]] = "cable 0.1 2.1", "self-repot all"
        self.assertIn("Not loaded", self.load("\n".join(spoiled)))
        returned = [row.get_attribute("data-line") for row in self.teacher.all("#exercise-faults li")]
        self.assertEqual({int(line) for line in returned} & {at + 1 for at in wrong}, {at + 1 for at in wrong})
        self.assertIn("Did you mean 'self-report'?", self.teacher.text("#exercise-faults"))
        self.teacher.picture(PICTURES / "exercise-faults.png")
        loaded = self.load(text)
        self.assertIn("of the list", loaded)
        self.assertEqual(self.teacher.all("#exercise-faults li"), [])
        number = int(loaded.split("exercise ")[1].split()[0])
        self.assertIn("My own pair", self.teacher.text(f'#exercise-list [data-exercise="{number}"]'))
        self.set_up(number)
        self.teacher.click("#exercise-end")
        self.teacher.until(lambda: "✓ It came out" in self.teacher.text("#exercise-held"), "the end")
        self.at(self.ada, 5)
        self.assertEqual(self.ada.text("#exercise-title"), f"{number}. My own pair")

    def test_on_paper(self):
        """The teacher prints an exercise: the task, and the solution on another sheet."""
        self.teacher.click('[data-tab="exercises"]')
        address = self.teacher.one('#exercise-list [data-exercise="12"] a').get_attribute("href")
        said = EXERCISES[12].exercise
        page = self.teacher.run("fetch(arguments[0]).then((r) => r.text()).then(done)", address)
        self.assertIn(html.escape(said.said("task")), page)
        self.assertEqual(page.count('<section class="sheet">'), 2)

    def test_what_a_student_expects(self):
        """She writes what she expects of a stage; when it is over, it is marked, and stays after a reload."""
        self.teacher.choose("#predict", "offered")
        self.set_up(1)
        self.next()
        for browser, words in ((self.ada, "down"), (self.ben, "100")):
            self.at(browser, 1)
            browser.type('#exercise-predict input[data-field="0"]', words)
            browser.click("#exercise-predict button")
            browser.until(lambda: browser.text("#exercise-expected"), "what is expected")
            self.assertFalse(browser.all("#exercise-marked")[0].is_displayed())
        self.next()
        self.ada.until(lambda: self.ada.attribute("#exercise-marked", "data-right") is True, "Ada is right")
        self.ben.until(lambda: self.ben.attribute("#exercise-marked", "data-right") is False, "Ben is not")
        self.assertIn("100, and it is 30,000", self.ben.text("#exercise-marked"))
        self.ben.driver.refresh()
        self.ben.until(lambda: "100, and it is 30,000" in self.ben.text("#exercise-marked"), "the mark is kept")
        self.ben.picture(PICTURES / "exercise-expected.png")
        self.teacher.choose("#predict", "off")
        self.ben.until(lambda: not self.ben.all("#exercise-predict")[0].is_displayed(), "nothing is asked")

    def test_nothing_is_cut(self):
        """At both widths the card's words are seen whole, and no page is wider than its window."""
        self.set_up(12)
        for _ in range(3):
            self.next()
        self.at(self.ada, 3)
        for browser, name in ((self.teacher, "teacher"), (self.ada, "student")):
            size = browser.driver.get_window_size()
            for width in WIDTHS:
                browser.driver.set_window_size(width, 1000)
                wide = "return document.documentElement.scrollWidth <= window.innerWidth"
                browser.until(lambda: browser.driver.execute_script(wide), f"{name} at {width}")
                self.assertEqual(browser.cut("#exercise h2, #exercise p, #exercise dd, #exercise li > .words"), [])
                browser.picture(PICTURES / f"exercise-{name}-{width}.png")
            browser.driver.set_window_size(size["width"], size["height"])


if __name__ == "__main__":
    unittest.main()
