"""The pages in German, in a real browser: every tab of the teacher's page, a student's page at work, the
joining page, refusals, dialogs and sheets have no English text. Exercise 1 is in German in full."""

import re
import unittest

from classroom.room.texts import WEB, catalog
from classroom.tests.browsing import PICTURES, Browser
from classroom.tests.serving import Class

TABS = ("tables", "board", "matrix", "seat", "nets", "plot", "calls", "exercises", "bench", "history", "setup")
SHEETS = ("slips", "checklist", "worksheet?seat=1&", "tables")
# All that a page shows, and what is read out: words of elements, titles and labels.
SEEN = """
const found = [document.title];
const walker = document.createTreeWalker(document.body, NodeFilter.SHOW_TEXT);
while (walker.nextNode()) {
  const parent = walker.currentNode.parentElement;
  if (parent.closest("script, #write-text, pre")) continue;
  if (parent.checkVisibility() || parent.closest("option, title")) found.push(walker.currentNode.textContent);
}
for (const node of document.querySelectorAll("[title], [aria-label], [placeholder]")) {
  if (!node.checkVisibility()) continue;
  found.push(...["title", "aria-label", "placeholder"].map((name) => node.getAttribute(name)).filter(Boolean));
}
return found;
"""

ROOM = {
    "seats": [{"name": name, "difference": 250 * k} for k, name in enumerate("ABCD")],
    "cables": [{"ends": [[k, 2 if k else 1], [k + 1, 1]], "ways": [[20, 40], [20, 40]]} for k in range(3)],
    "interval": 5,
}


def english_alone():
    """The texts that are otherwise in German, as patterns with their values: those of two words and more."""
    english, german = catalog("en"), catalog("de")
    texts = {text for key, text in english.items() if text != german[key] and not key.startswith(("wrong", "part."))}
    texts = {text for text in texts if len(re.findall("[A-Za-z]{2,}", re.sub(r"\{\w+\}", "", text))) > 1}
    known = {re.sub(r"\{\w+\}", "", text) for text in german.values()}
    return [
        re.compile(".{1,60}".join(re.escape(part) for part in re.split(r"\{\w+\}", text)))
        for text in sorted(texts)
        if re.sub(r"\{\w+\}", "", text) not in known
    ]


def single_words():
    """Words that are a text of their own in English, and none in German: Tables, Seat, paused."""
    english, german = catalog("en"), catalog("de")
    words = {text for key, text in english.items() if text != german[key] and re.fullmatch("[A-Za-z][a-z]{2,}", text)}
    return words - set(german.values())


class German(unittest.TestCase):
    """A class of four hosts; all pages are read in German."""

    @classmethod
    def setUpClass(cls):
        cls.served = Class(4)
        cls.addClassCleanup(lambda: cls.served.stop())
        cls.browser = Browser(accept="de")
        cls.addClassCleanup(cls.browser.close)
        cls.patterns, cls.words = english_alone(), single_words()

    def open(self, place):
        self.browser.open(self.served.address[place])
        self.browser.until(lambda: self.browser.driver.current_url == self.served.origin + place, place)
        self.browser.one("#room[data-time], #room-state[data-time]")

    def ask(self, **message):
        """A message on a socket of the page's own place; its reply."""
        script = (
            "const s = new WebSocket(location.origin.replace('http', 'ws') + location.pathname + '/socket');"
            "s.onopen = () => s.send(JSON.stringify({n: 1, ...arguments[0]}));"
            "s.onmessage = (e) => { const m = JSON.parse(e.data); if (m.n === 1) { s.close(); done(m); } };"
        )
        return self.browser.run(script, message)

    def assert_german(self, where):
        """Nothing that is seen is an English text."""
        seen = [text.strip() for text in self.browser.driver.execute_script(SEEN)]
        seen = [text for text in seen if text]
        self.assertGreater(len(seen), 3, where)
        found = [text for text in seen if text in self.words]
        found += [text for text in seen for pattern in self.patterns if pattern.search(text)]
        self.assertEqual(sorted(set(found)), [], where)

    def test_teacher(self):
        page = self.browser
        self.open("/teacher")
        self.ask(do="set_up", **ROOM)
        self.ask(do="by_hand", seat=1, on=True)
        self.ask(do="waits", on=True)
        for _ in range(8):
            self.ask(do="one_message")
        page.until(lambda: page.all('[data-host="1"].waits'), "a message waits")
        for tab in TABS:
            page.click(f'[data-tab="{tab}"]')
            if tab == "bench":
                page.click("#bench-load-ready")
                page.click("#bench-set-up")
                page.click("#bench-one")
                page.until(lambda: page.attribute("#bench-work", "data-done") == 1, "an event")
            if tab == "nets":
                page.click("#net-remove button")
                page.one('#net-answer[data-answer="22"]')
            if tab == "history":
                page.one("#history-tables table")
            if tab == "seat":
                page.choose("#seat-choice", "1")
                page.click("#seat .inspect")
                page.one("#seat .said")
            self.assert_german(tab)
            page.picture(PICTURES / f"de-{tab}.png")
        self.ask(do="exercise", number=1, students=4)
        page.click('[data-tab="tables"]')
        page.click("#exercise-next")
        page.one('#exercise-stages li[data-right="true"]')
        self.assert_german("an exercise")

    def test_refusals(self):
        """A refusal of the room, a fault of a text, and a dialog."""
        page = self.browser
        self.open("/teacher")
        self.ask(do="set_up", seats=[{"name": "A", "by_hand": True}, {"name": "B", "by_hand": True}], cables=[])
        page.click("#one-message")
        self.assertIn("keine Nachricht ist unterwegs", page.text("#refused"))
        self.assert_german("a refusal")
        returned = self.ask(do="exercise_load", name="x", text="seat 192.0.2.1\nsit 3\n")["reply"]["faults"]
        self.assertEqual(returned[0]["text"][0].partition(".")[0], "wrong")
        page.click("#one-second")
        page.click('[data-tab="setup"]')
        page.click("#setup-do")
        page.one("dialog.sure")
        self.assert_german("a dialog")
        page.click(".sure-no")

    def test_student(self):
        page = self.browser
        self.open("/teacher")
        self.ask(do="exercise", number=1, students=4)
        self.ask(do="predict", mode="offered")
        self.ask(do="show", what="tables")
        self.open("/seat/0")
        page.one("#exercise")
        self.assert_german("the task")
        for call in ("tick", "adjust", "second", "self_report"):
            page.click(f'[data-call="{call}"]')
            page.one('#answer[data-answer="0"]')
            self.assert_german(call)
        page.click('#links [data-link="1"] [data-call="send"]')
        page.one("#links form.predict")
        self.assert_german("a send")
        page.click("#links .predict-skip")
        page.click('[data-call="lookup"]')
        page.type("#write-text", "hello 1 2 3 1 9\n")
        page.click("#write-send")
        page.one('#answer[data-answer="14"]')
        self.assert_german("a text")
        page.click("#write .example")
        page.click("#write-send")
        page.click("#messages .open-walk")
        page.one("#walk form.predict")
        self.assert_german("a walk")
        page.click("#walk .step-end")
        page.until(lambda: page.all("#walk.walked"), "the end")
        self.assert_german("its end")
        page.click("#answers summary")
        page.click("#glossary summary")
        self.assert_german("the glossary")
        page.picture(PICTURES / "de-student.png")

    def test_sheets_and_joining(self):
        page = self.browser
        page.open(self.served.origin + "/")
        page.one("#join-do")
        self.assert_german("joining")
        page.type("#join-code", "XXXXXX")
        page.type("#join-name", "Ada")
        page.click("#join-do")
        self.assertIn("nicht der Code", page.text("#join-said"))
        self.open("/teacher")
        self.ask(do="set_up", **ROOM)
        self.assertEqual([], [link for link in page.all("#print a") if "language=de" not in link.get_attribute("href")])
        for sheet in SHEETS:
            page.open(f"{self.served.origin}/teacher/print/{sheet}{'' if '?' in sheet else '?'}language=de")
            page.one("h1")
            self.assert_german(sheet)
        page.open(f"{self.served.origin}/teacher/print/exercise?number=3&language=de")
        for words in ("Aufgabe", "Frage", "Nummer", "Anschluss 1 zu Ben", "Lösung"):
            self.assertIn(words, page.text("body"))
        page.open(f"{self.served.origin}/teacher/print/exercise?number=99")
        self.assertIn("es gibt keine Übung 99", page.text("body"))

    def test_something_is_looked_for(self):
        self.assertGreater(len(self.patterns), 400)
        self.assertGreater(len(self.words), 60)
        self.assertIn("Seat", self.words)
        self.assertTrue((WEB / "words-de.json").exists())


if __name__ == "__main__":
    unittest.main()
