"""The teacher's tools in real browsers: the matrix, folded tables, dialogs that ask first, "Fill in",
a walk to its end in one message, and Stop on the bench."""

import unittest

from classroom.tests.browsing import Browser
from classroom.tests.serving import Class

ASK = """
const s = new WebSocket(location.origin.replace('http', 'ws') + location.pathname + '/socket');
const [message] = arguments;
s.onopen = () => message && s.send(JSON.stringify({n: 1, ...message}));
s.onmessage = (event) => {
  const returned = JSON.parse(event.data);
  if (message ? returned.n !== 1 : !returned.view) return;
  s.close();
  done(message ? returned : returned.view);
};
"""
CELLS = """
return Object.fromEntries([...document.querySelectorAll('#matrix td')].map((cell) =>
  [`${cell.dataset.seat}/${cell.dataset.id}`, [cell.dataset.value, cell.classList.contains('down')]]));
"""
FIELDS = ("delay", "offset", "error", "pid")


def room(seats, pairs, **more):
    """A set-up of these pairs of seats."""
    links, cables = seats * [0], []
    for pair in pairs:
        for seat in pair:
            links[seat] += 1
        ends = [[seat, links[seat]] for seat in pair]
        cables.append({"ends": ends, "ways": [[20, 20], [20, 20]]})
    names = [{"name": chr(65 + k), "difference": 100 * k} for k in range(seats)]
    return {"do": "set_up", "seats": names, "cables": cables, **more}


class Tools(unittest.TestCase):
    """A class of sixteen seats. Each test begins with a new room."""

    @classmethod
    def setUpClass(cls):
        cls.served = Class(16)
        cls.addClassCleanup(lambda: cls.served.stop())
        cls.teacher, cls.student = Browser(1400, 1400), Browser()
        for browser, place in ((cls.teacher, "/teacher"), (cls.student, "/seat/1")):
            cls.addClassCleanup(browser.close)
            browser.open(cls.served.address[place])
            browser.until(lambda: browser.driver.current_url == cls.served.origin + place, place)

    def ask(self, **message):
        """The reply to a message of the teacher's."""
        returned = self.teacher.run(ASK, message)
        self.assertNotIn("refused", returned)
        return returned["reply"]

    def view(self):
        """What the teacher's page is shown now, in full."""
        return self.teacher.run(ASK, None)

    def set_up(self, *given, seconds=0, **more):
        """A new room, which goes on by some seconds."""
        self.ask(**room(*given, **more))
        for _ in range(seconds):
            self.ask(do="one_second")
        time = self.view()["room"]["time"]
        for browser, place in ((self.teacher, "#room"), (self.student, "#room-state")):
            browser.until(lambda: browser.attribute(place, "data-time") == time, "the time")

    def calls(self, call):
        """How often the list has a call of seat 1."""
        lines = self.teacher.run("fetch('/teacher/calls.jsonl').then(r => r.text()).then(done)").splitlines()
        return sum('"seat":1' in line.replace(" ", "") and f'"call":"{call}"' in line.replace(" ", "") for line in lines)

    # The matrix.

    def test_matrix(self):
        """Every entry of every seat, of each field; one host; live rows alone."""
        teacher = self.teacher
        self.set_up(4, [(0, 1), (1, 2)], seconds=20)
        teacher.click('[data-tab="matrix"]')
        tables = {seat["number"]: seat["table"] for seat in self.view()["seats"]}
        for field in FIELDS:
            teacher.choose("#matrix-field", field)
            teacher.until(lambda: self.cells() == self.wanted(tables, field, range(4), range(4)), field)
            self.assertEqual(["null", True] in self.cells().values(), field == "error")
        teacher.choose("#matrix-field", "delay")
        teacher.choose("#matrix-host", "2")
        teacher.until(lambda: self.cells() == self.wanted(tables, "delay", range(4), [2]), "one host")
        teacher.tick("#matrix-live")
        teacher.until(lambda: self.cells() == self.wanted(tables, "delay", range(3), [2]), "live rows")
        teacher.choose("#matrix-host", "")
        # D has no cable, and knows itself alone: it reports itself as all seats do.
        live = [k for k in range(4) if any(table[k]["live"] for table in tables.values())]
        teacher.until(lambda: self.cells() == self.wanted(tables, "delay", range(4), live), "all hosts")
        teacher.tick("#matrix-live", False)

    def cells(self):
        return self.teacher.driver.execute_script(CELLS)

    def wanted(self, tables, field, seats, hosts):
        """The matrix of the tables; a number as JavaScript writes it."""
        entries = {(seat, id): tables[seat][id] for seat in seats for id in hosts}
        words = {None: "null"}
        return {f"{seat}/{id}": [str(words.get(e[field], e[field])), not e["live"]] for (seat, id), e in entries.items()}

    # A long table.

    def test_folded(self):
        """With NHOSTS 255 rows that are down are folded, at the teacher and at the student."""
        teacher, student = self.teacher, self.student
        self.set_up(2, [(0, 1)])
        self.ask(do="net_afresh", nhosts=255)
        self.ask(do="initialize_all")
        for _ in range(15):
            self.ask(do="one_second")
        teacher.click('[data-tab="tables"]')
        for browser, place in ((teacher, '#tables [data-seat="1"]'), (student, "#routes")):
            rows = f"{place} tbody tr"
            browser.until(lambda: len(browser.all(rows)) == 2, "two hosts are up")
            self.assertIn("253 hosts are down", browser.text(f"{place} .folded"))
            browser.click(f"{place} .unfold")
            browser.until(lambda: len(browser.all(rows)) == 255, "all rows")
            browser.click(f"{place} .unfold")
            browser.until(lambda: len(browser.all(rows)) == 2, "folded again")
        teacher.click('[data-tab="matrix"]')
        teacher.until(lambda: len(teacher.all("#matrix thead th")) == 3, "hosts that are up")

    # What is asked first.

    def asked(self, browser, click, happened):
        """A click opens a dialog: No and Escape change nothing, Yes does it."""
        for no in (lambda: browser.click(".sure-no"), lambda: browser.one("dialog.sure").send_keys("\ue00c")):
            browser.click(click)
            browser.one("dialog.sure")
            no()
            browser.until(lambda: not browser.all("dialog.sure"), "the dialog is gone")
            self.assertFalse(happened())
        browser.click(click)
        self.assertFalse(happened())
        browser.click(".sure-yes")
        browser.until(happened, click)

    def test_initialize_asks(self):
        self.set_up(2, [(0, 1)], seconds=1)
        before = self.calls("initialize")
        self.asked(self.student, '[data-call="initialize"]', lambda: self.calls("initialize") > before)

    def test_not_promised(self):
        """After a student initializes her host the teacher reads which condition no longer holds, and since when."""
        self.set_up(2, [(0, 1)], seconds=1)
        self.teacher.click('[data-tab="tables"]')
        self.teacher.until(lambda: self.teacher.all("#promise[hidden]"), "all conditions hold")
        self.student.click('[data-call="initialize"]')
        self.student.click(".sure-yes")
        self.assertEqual(self.teacher.text("#promise"), "Not promised: B was initialized at 0:01.")

    def test_a_large_set_asks(self):
        """From -128 to 127 a Set is made at once; else it asks."""
        student = self.student
        self.set_up(2, [(0, 1)], seconds=1)
        for ms in (127, -128):
            before = self.calls("set")
            student.type("#set-ms", str(ms))
            student.click('[data-call="set"]')
            student.until(lambda: self.calls("set") == before + 1, f"set by {ms}")
            self.assertFalse(student.all("dialog.sure"))
        for ms in (128, -129):
            before = self.calls("set")
            student.type("#set-ms", str(ms))
            self.asked(student, '[data-call="set"]', lambda: self.calls("set") == before + 1)

    def test_throwing_away_asks(self):
        student = self.student
        self.set_up(2, [(0, 1)])
        self.ask(do="by_hand", seat=1, on=True)
        self.ask(do="call", seat=0, call="send", link=1)
        self.ask(do="one_second")
        message = student.one("#messages [data-message]").get_attribute("data-message")
        gone = f'#messages [data-message="{message}"]'
        self.asked(student, "#messages .drop", lambda: not student.all(gone))

    def test_a_new_room_asks(self):
        """By the form, and by an exercise; not if nothing has happened yet."""
        teacher = self.teacher
        number = lambda: teacher.attribute("#room", "data-number")
        for tab, click in (("setup", "#setup-do"), ("exercises", '#exercise-list [data-exercise="1"] button')):
            self.set_up(2, [(0, 1)], seconds=1)
            teacher.click(f'[data-tab="{tab}"]')
            before = number()
            self.asked(teacher, click, lambda: number() > before)
            teacher.click(f'[data-tab="{tab}"]')
            before = number()
            teacher.click(click)
            teacher.until(lambda: number() > before, "no dialog")

    # The form of a room.

    def test_fill_in(self):
        """Of a star of sixteen some hosts get no cable, and are named; a tree joins all."""
        teacher = self.teacher
        self.set_up(2, [(0, 1)])
        teacher.click('[data-tab="setup"]')
        teacher.type("#setup-count", "16")
        teacher.choose("#setup-shape", "star")
        teacher.click("#setup-fill")
        alone = self.without_cable()
        self.assertEqual(len(alone), 7)
        self.assertIn(f"These hosts got no cable: {', '.join(alone)}.", teacher.text("#setup-alone"))
        teacher.click("#setup-tree")
        teacher.until(lambda: self.without_cable() == [], "a tree")
        self.assertFalse(teacher.all("#setup-alone")[0].is_displayed())
        for shape in ("line", "ring", "tree"):
            teacher.choose("#setup-shape", shape)
            teacher.click("#setup-fill")
            self.assertEqual(self.without_cable(), [], shape)
            self.assertFalse(teacher.all("#setup-alone")[0].is_displayed())
        before = teacher.attribute("#room", "data-number")
        teacher.click("#setup-do")
        teacher.until(lambda: teacher.attribute("#room", "data-number") > before, "a room")
        self.assertEqual(len(teacher.all("#picture [data-cable]")), 15)

    def without_cable(self):
        """The names of the hosts that no cable of the form ends at."""
        script = (
            "const ends = new Set([...document.querySelectorAll('#setup-cables [data-name=a], #setup-cables [data-name=b]')]"
            ".map((end) => end.value));"
            "return [...document.querySelectorAll('#setup-seats [data-name=name]')].map((e) => e.value)"
            ".filter((_, i) => !ends.has(String(i)));"
        )
        return self.teacher.driver.execute_script(script)

    # A walk, and the bench.

    def test_to_the_end_is_one_message(self):
        """However many boxes a walk has; and so is the way to the next host."""
        student = self.student
        pairs = [(k, k + 1) for k in range(15)]
        self.set_up(16, pairs, seconds=12)
        self.ask(do="by_hand", seat=1, on=True)
        self.ask(do="call", seat=0, call="send", link=1)
        self.ask(do="one_second")
        student.click("#messages .open-walk")
        student.one("#step")
        student.driver.execute_script(
            "window.sent = []; const send = WebSocket.prototype.send;"
            "WebSocket.prototype.send = function (text) { window.sent.push(JSON.parse(text)); return send.call(this, text); };"
        )
        student.click(".step-host")
        student.until(lambda: "host 0" in student.text("#walk-place"), "the first host")
        student.click(".step-end")
        student.until(lambda: student.all("#walk.walked"), "the end")
        sent = student.driver.execute_script("return window.sent")
        self.assertEqual([(each["call"], each["to"]) for each in sent], [("walk_on", "host"), ("walk_on", "end")])
        boxes = len(next(seat for seat in self.view()["seats"] if seat["number"] == 1)["walk"]["boxes"])
        self.assertGreater(boxes, 20)
        self.assertIn(f"after {boxes} boxes", student.text("#walk-place"))

    def test_stop(self):
        """A run to the end of a file stops where it is asked to, and goes on from there."""
        teacher = self.teacher
        self.set_up(2, [(0, 1)])
        self.ask(do="bench_ready", file="07-ghost")
        teacher.click('[data-tab="bench"]')
        teacher.until(lambda: teacher.attribute("#bench-file", "data-name") == "07-ghost", "the file")
        teacher.click("#bench-set-up")
        teacher.until(lambda: teacher.attribute("#bench-file", "data-ready") is True, "set up")
        teacher.driver.execute_script("for (const id of ['bench-end', 'bench-stop']) document.getElementById(id).click();")
        done = lambda: teacher.attribute("#bench-work", "data-done")
        teacher.until(lambda: done() > 0 and not teacher.attribute("#bench-one", "aria-disabled"), "it has stopped")
        first = done()
        self.assertLess(first, teacher.attribute("#bench-work", "data-of"))
        teacher.click("#bench-one")
        teacher.until(lambda: done() == first + 1, "one event more")

    # What is shown, and for how long.

    def test_an_answer_stays(self):
        """A refused call is shown until the student's next action, however many views come meanwhile."""
        student = self.student
        self.set_up(2, [(0, 1)])
        student.type("#lookup-address", "192.0.2.1")
        student.click('[data-call="lookup"]')
        student.one('#answer[data-answer="13"]')
        for _ in range(12):
            self.ask(do="one_second")
        student.until(lambda: student.attribute("#room-state", "data-time") == 12_000, "views")
        self.assertEqual(student.attribute("#answer", "data-answer"), 13)
        self.assertIn("HostDown", student.text("#answer"))
        student.click('[data-call="read"]')
        student.one('#answer[data-answer="0"]')

    def test_a_refusal_belongs_to_its_tab(self):
        teacher = self.teacher
        self.set_up(2, [(0, 1)])
        for seat in (0, 1):
            self.ask(do="by_hand", seat=seat, on=True)
        teacher.click('[data-tab="tables"]')
        shown = lambda: teacher.all("#refused")[0].text
        teacher.click("#one-message")
        teacher.until(lambda: "no message is on its way" in shown(), "a refusal")
        self.ask(do="one_second")
        teacher.until(lambda: teacher.attribute("#room", "data-time") == 1_000, "a view")
        self.assertIn("no message is on its way", shown())
        teacher.click('[data-tab="board"]')
        self.assertEqual(shown(), "")
        teacher.click('[data-tab="tables"]')
        self.assertIn("no message is on its way", shown())
        teacher.click("#one-second")
        teacher.until(lambda: shown() == "", "the next action")

    def test_header_and_own_host(self):
        """A student's header stays in sight and says whose turn it is; her own host is marked."""
        student = self.student
        self.set_up(2, [(0, 1)])
        self.ask(do="show", what="picture")
        student.one('#picture [data-host="1"].own')
        self.assertEqual(len(student.all("#picture .own")), 1)
        self.assertIn("★", student.text('#picture [data-host="1"] .name'))
        self.assertIn("paused", student.text("#room-state"))
        self.ask(do="waits", on=True)
        self.ask(do="by_hand", seat=1, on=True)
        self.ask(do="call", seat=0, call="send", link=1)
        self.ask(do="one_second")
        student.until(lambda: "waits for you" in student.text("#room-state"), "her turn")
        student.driver.execute_script("scrollTo(0, document.body.scrollHeight)")
        top = "return document.querySelector('#room-state').getBoundingClientRect().top"
        self.assertTrue(0 <= student.driver.execute_script(top) < 100)

    def test_a_question_mark_explains(self):
        """Each term of a box has its words behind a "?"; a second press hides them."""
        student = self.student
        self.set_up(2, [(0, 1)])
        self.ask(do="by_hand", seat=1, on=True)
        self.ask(do="call", seat=0, call="send", link=1)
        self.ask(do="one_second")
        student.click("#messages .open-walk")
        student.click('#walk [data-box="2/"] .gloss')
        self.assertIn("KEEP-ALIVE: how many more HELLOs", student.text(".gloss-open"))
        student.click('#walk [data-box="2/"] .gloss')
        student.until(lambda: not student.all(".gloss-open"), "hidden")


if __name__ == "__main__":
    unittest.main()
