"""The class in real browsers: the teacher, two students, and one who tries another's seat."""

import json
import tempfile
import unittest
from pathlib import Path

from hello import bench_file

from classroom.tests.browsing import PICTURES, Browser
from classroom.tests.serving import Class, replayed

HOSTS = 4
FIELDS = ("delay", "offset", "ttl", "pid", "time")


class Story(unittest.TestCase):
    """A class of four hosts. Each test begins with a new room."""

    @classmethod
    def setUpClass(cls):
        cls.served = Class(HOSTS)
        cls.addClassCleanup(cls.stop)
        cls.teacher, cls.first, cls.second = (cls.browser() for _ in range(3))
        cls.enter(cls.teacher, "/teacher")
        cls.enter(cls.first, "/seat/1")
        cls.enter(cls.second, "/seat/2")

    @classmethod
    def browser(cls):
        made = Browser()
        cls.addClassCleanup(made.close)
        return made

    @classmethod
    def stop(cls):
        ended, logged = cls.served.stop()
        assert (ended, logged) == (0, ""), (ended, logged)

    @classmethod
    def enter(cls, browser, place):
        """Opens a place with its key, and waits for the page without it."""
        browser.open(cls.served.address[place])
        browser.until(lambda: browser.driver.current_url == cls.served.origin + place, place)

    # What the teacher and the students do.

    def set_up(self, shape, by_hand=(), difference=0, way=(30, 30)):
        """The teacher sets up four hosts by the form; each clock differs so much from the last."""
        teacher = self.teacher
        before = teacher.attribute("#room", "data-number") or 0
        teacher.click('[data-tab="setup"]')
        teacher.type("#setup-count", str(HOSTS))
        teacher.choose("#setup-shape", shape)
        teacher.click("#setup-fill")
        for seat, row in enumerate(range(1, HOSTS + 1)):
            at = f"#setup-seats tr:nth-child({row})"
            teacher.type(f'{at} [data-name="difference"]', str(seat * difference))
            teacher.tick(f'{at} [data-name="by_hand"]', seat in by_hand)
        for row in range(1, len(teacher.all("#setup-cables tr")) + 1):
            at = f"#setup-cables tr:nth-child({row})"
            for name, ms in (("least", way[0]), ("most", way[1])):
                for direction in ("there", "back"):
                    teacher.type(f'{at} [data-name="{direction}-{name}"]', str(ms))
        teacher.click("#setup-do")
        self.agree(teacher)
        teacher.until(lambda: teacher.attribute("#room", "data-number") == before + 1, "a new room")
        self.assertEqual(teacher.attribute("#room", "data-time"), 0)

    def agree(self, browser):
        """Says yes, where the page asks before something is lost."""
        for yes in browser.all("dialog.sure .sure-yes"):
            yes.click()

    def second_passes(self):
        """The teacher lets the room's time go on by a second."""
        time = self.teacher.attribute("#room", "data-time")
        self.teacher.click("#one-second")
        self.teacher.until(lambda: self.teacher.attribute("#room", "data-time") == time + 1000, "a second")
        for browser in (self.first, self.second):
            browser.until(lambda: browser.attribute("#room-state", "data-time") == time + 1000, "a second")

    def teacher_at(self, seat):
        """The teacher works at a seat."""
        self.teacher.click('[data-tab="seat"]')
        self.teacher.choose("#seat-choice", str(seat))
        self.teacher.until(lambda: self.teacher.attribute("#seat", "data-seat") == seat, f"seat {seat}")

    def calls(self, browser, call):
        """How many calls of that name the list has of the seat that the page shows."""
        seat = browser.attribute("#seat", "data-seat")
        lines = [json.loads(line) for line in self.file().splitlines()]
        return sum((line.get("seat"), line.get("call")) == (seat, call) for line in lines)

    def make(self, browser, call, css):
        """Clicks for a call, and waits until it is made."""
        before = self.calls(browser, call)
        browser.click(css)
        self.agree(browser)
        browser.until(lambda: self.calls(browser, call) == before + 1, call)

    def send(self, browser, *links):
        """Reports itself and sends on links of the seat that the page shows."""
        self.make(browser, "self_report", '#routes [data-call="self_report"]')
        for link in links:
            self.make(browser, "send", f'#links [data-link="{link}"] [data-call="send"]')

    def waiting(self, browser):
        """The number of the message that waits, as soon as there is one."""
        browser.one("#messages [data-message]")
        return browser.attribute("#messages [data-message]", "data-message")

    def receive(self, browser):
        """Takes the message that waits at once: the answer."""
        message = self.waiting(browser)
        browser.click(f'#messages [data-message="{message}"] .receive')
        browser.until(lambda: not browser.all(f'#messages [data-message="{message}"]'), "it is taken")
        return browser.attribute("#answer", "data-answer")

    def entry(self, browser, id):
        """An entry of the host table that the page shows."""
        return tuple(browser.value(f'#routes [data-id="{id}"] [data-field="{field}"]') for field in FIELDS)

    def file(self):
        """The list of calls, as the teacher's page fetches it."""
        return self.teacher.run("fetch('/teacher/calls.jsonl').then(r => r.text()).then(done)")

    # The stories.

    def test_keys_are_gone(self):
        for browser, place, shown in (
            (self.teacher, "/teacher", "#room[data-time]"),
            (self.first, "/seat/1", "#room-state[data-time]"),
        ):
            self.assertEqual(browser.driver.current_url, self.served.origin + place)
            self.assertEqual(browser.driver.execute_script("return document.cookie"), "")
            self.assertNotIn(self.served.key(place), browser.driver.page_source)
            browser.driver.refresh()
            browser.one(shown)

    def test_nothing_from_elsewhere(self):
        for browser in (self.teacher, self.first):
            names = browser.driver.execute_script(
                "return performance.getEntriesByType('resource').map((entry) => entry.name)"
            )
            self.assertTrue(names)
            for name in names:
                self.assertTrue(name.startswith(self.served.origin), name)

    def test_two_students_exchange_messages(self):
        """Each hears the other, sends, and then knows the other's delay."""
        self.set_up("line", by_hand=range(HOSTS))
        first, second = self.first, self.second
        for _ in range(2):
            self.send(first, 2)
            self.second_passes()
            self.receive(second)
            self.send(second, 1)
            self.second_passes()
            self.receive(first)
        self.assertEqual(first.attribute("#answer", "data-answer"), 0)
        self.assertEqual(second.attribute("#answer", "data-answer"), 0)
        for browser, other, link in ((first, 2, 2), (second, 1, 1)):
            delay, _, ttl, pid, _ = self.entry(browser, other)
            self.assertLess(delay, 30000)
            self.assertGreater(ttl, 0)
            self.assertEqual(pid, link)
            neighbor = browser.value(f'#links [data-link="{link}"] [data-field="neighbor"]')
            self.assertEqual(neighbor, f"192.0.2.{other + 1}")
        self.replays()

    def test_a_walk_ends_as_an_arrival(self):
        """Seats 1 and 2 stand alike round seat 0: one walks what arrives, one takes it at once."""
        self.set_up("star", by_hand=range(HOSTS))
        self.teacher_at(0)
        self.hear_from_the_teacher()
        self.receive(self.first)
        self.receive(self.second)
        self.hear_from_the_teacher()
        self.assertEqual(self.receive(self.second), 0)
        boxes = self.walk(self.first)
        self.assertGreater(boxes, 5)
        self.assertEqual(self.first.attribute("#answer", "data-answer"), 0)
        self.assertLess(self.entry(self.first, 0)[0], 30000)
        # Each of the two is the other's neighbor's neighbor; the rest they know alike.
        there = {0: 0, 1: 2, 2: 1, 3: 3}
        for id in range(HOSTS):
            self.assertEqual(self.entry(self.first, id), self.entry(self.second, there[id]), id)
        self.replays()

    def hear_from_the_teacher(self):
        """Both send, the teacher at seat 0 takes it and sends to both; what arrives waits."""
        self.send(self.first, 1)
        self.send(self.second, 1)
        self.second_passes()
        self.receive(self.teacher)
        self.receive(self.teacher)
        self.send(self.teacher, 1, 2)
        self.second_passes()

    def walk(self, browser):
        """Walks the message that waits, box by box, with a picture on the way: how many boxes."""
        message = self.waiting(browser)
        browser.click(f'#messages [data-message="{message}"] .open-walk')
        boxes, pictures = 0, 0
        browser.one("#seat.in-walk")
        self.assertEqual(len(browser.all("#walk .rule")), 9)
        while browser.all("#seat.in-walk"):
            before = browser.text("#walk-place")
            browser.click("#step")
            browser.until(lambda: browser.text("#walk-place") != before, "the next box")
            boxes += 1
            self.assertEqual(browser.cut("#walk .rule"), [])
            if browser.all("#routes .changed") and not pictures:
                browser.picture(PICTURES / "student.png")
                pictures += 1
        return boxes

    def test_another_seat_is_refused(self):
        """A student opens another's page, its socket, the teacher's file, and asks for another's seat."""
        thief = self.browser()
        self.enter(thief, "/seat/3")
        for place in ("/seat/1", "/teacher", "/teacher/calls.jsonl"):
            thief.open(self.served.origin + place)
            self.assertIn("The key is missing or wrong", thief.driver.page_source)
        self.enter(thief, "/seat/3")
        for place in ("/seat/1", "/teacher"):
            opened = thief.run(
                "const s = new WebSocket(`ws://${location.host}${arguments[0]}/socket`);"
                "s.onopen = () => done(true); s.onerror = () => done(false);",
                place,
            )
            self.assertFalse(opened, place)
        before = self.file()
        returned = thief.run(
            "const s = new WebSocket(`ws://${location.host}/seat/3/socket`);"
            "s.onopen = () => s.send(JSON.stringify({n: 7, do: 'call', seat: 1, call: 'initialize'}));"
            "s.onmessage = (m) => { const returned = JSON.parse(m.data); if (returned.n === 7) done(returned); };"
        )
        self.assertIn("refused", returned)
        self.assertNotIn("reply", returned)
        self.assertEqual(self.file(), before)

    def test_the_room_runs(self):
        """Four hosts that work by themselves learn each other; both pages show it."""
        self.set_up("ring", difference=250, way=(200, 450))
        teacher = self.teacher
        self.speed("#faster", "×10")
        teacher.click("#run")
        teacher.click('[data-tab="tables"]')
        live = "#tables [data-id] [data-field='live']"
        teacher.until(lambda: teacher.values(live) == HOSTS * HOSTS * ["true"], "all entries are live")
        self.speed("#slower", "×1")
        while not self.caught():
            pass
        teacher.click("#start-close")
        teacher.picture(PICTURES / "teacher.png")
        within = "#tables [data-id] [data-field='within']"
        self.assertEqual(teacher.values(within), HOSTS * HOSTS * ["true"])
        self.replays()

    def test_the_net_table(self):
        """The teacher edits the table, and each call shows its answer; students see it, read only."""
        self.set_up("line", by_hand=range(HOSTS))
        teacher = self.teacher
        teacher.click('[data-tab="nets"]')
        self.assertEqual(self.tutor("net-add", net="198.51.100", id=2), 0)
        self.assertEqual(self.tutor("net-add", net="10.0.0", id=1), 0)
        self.students_see(("198.51.100", 2), ("10.0.0", 1))
        self.assertEqual(self.tutor("net-change", row=1, id=3), 0)
        self.students_see(("198.51.100", 3), ("10.0.0", 1))
        self.assertEqual(self.first.all('#nets tr[data-row="1"] .changed .was')[0].text, "was 2")
        self.assertEqual(self.tutor("net-change", row=3, id=9), 22)
        self.assertEqual(self.tutor("net-change", row=2, id=HOSTS), 1)
        self.assertEqual(self.tutor("net-remove", row=0), 22)
        self.assertEqual(self.tutor("net-remove", row=1), 0)
        self.students_see(("10.0.0", 1))
        self.add_rows((f"10.0.{row}", row % HOSTS) for row in range(2, 32))
        self.assertEqual(self.tutor("net-add", net="10.0.32", id=0), 0)
        for browser, table in ((teacher, "#net-table"), (self.first, "#nets")):
            browser.until(lambda: self.in_sight(browser, table, 32), "the new row")
            self.assertFalse(self.in_sight(browser, table, 1))
        self.assertEqual(self.tutor("net-add", net="10.0.99", id=9), 21)
        self.assertIn("has 32 rows", teacher.text("#net-answer"))
        self.students_see(("10.0.0", 1), *((f"10.0.{row}", row % HOSTS) for row in range(2, 33)))
        teacher.picture(PICTURES / "net-table.png")
        self.assertEqual(self.tutor("net-afresh", nhosts=0), 1)
        self.assertEqual(self.tutor("net-afresh", nhosts=HOSTS), 0)
        self.students_see()
        teacher.type("#net-add [name=net]", "10.0")
        teacher.click("#net-add button")
        teacher.until(lambda: "3 numbers" in teacher.text("#net-answer"), "the refusal")
        for browser in (self.first, self.second):
            self.assertEqual(browser.all("#nets input, #nets button, #nets select, [id^=net-]"), [])
        teacher.click('[data-tab="calls"]')
        teacher.choose("#calls-seat", "null")
        calls = '#calls tr[data-line] [data-field="call"]'
        teacher.until(lambda: teacher.text(calls) == "initialize the net table", "the tutor's calls alone")
        seats = teacher.all('#calls tr[data-line] [data-field="seat"]')
        self.assertEqual({seat.text for seat in seats}, {"Net table"})
        teacher.choose("#calls-seat", "")
        self.replays()

    def tutor(self, form, **given):
        """The teacher makes a call on the net table, by its form: the answer."""
        teacher = self.teacher
        for name, value in given.items():
            teacher.type(f"#{form} [name={name}]", str(value))
        teacher.driver.execute_script("document.getElementById('net-answer').dataset.answer = 'asked'")
        teacher.click(f"#{form} button")
        teacher.until(lambda: teacher.attribute("#net-answer", "data-answer") != "asked", "the answer")
        return teacher.attribute("#net-answer", "data-answer")

    def add_rows(self, rows):
        """The teacher's browser adds these rows, by a socket of its own and not by the form."""
        messages = [{"n": n, "do": "net_add", "net": net, "id": id} for n, (net, id) in enumerate(rows)]
        done = self.teacher.run(
            "const [messages] = arguments;"
            "const s = new WebSocket(`ws://${location.host}/teacher/socket`);"
            "s.onopen = () => messages.forEach((message) => s.send(JSON.stringify(message)));"
            "s.onmessage = (m) => {"
            "  const returned = JSON.parse(m.data);"
            "  if (returned.n === messages.length - 1) { s.close(); done(returned.reply.answer); }"
            "};",
            messages,
        )
        self.assertEqual(done, 0)

    def in_sight(self, browser, table, row):
        """Whether that row is in the part of the table that is seen without scrolling it."""
        script = (
            "const table = document.querySelector(`${arguments[0]} .scroll`).getBoundingClientRect();"
            "const row = document.querySelector(`${arguments[0]} tr[data-row='${arguments[1]}']`);"
            "const { top, bottom } = row?.getBoundingClientRect() ?? {};"
            "return top >= table.top - 1 && bottom <= table.bottom + 1;"
        )
        return browser.driver.execute_script(script, table, row)

    def students_see(self, *rows):
        """Both students and the teacher see these rows, numbered from 1."""
        wanted = [[str(number), net, str(id)] for number, (net, id) in enumerate(rows, 1)]
        script = (
            "const value = (row, field) => row.querySelector(`[data-field=${field}]`).dataset.value;"
            "return [...document.querySelectorAll('#net-table tr[data-row], #nets tr[data-row]')]"
            ".filter((row) => row.offsetParent)"
            ".map((row) => [row.dataset.row, value(row, 'net'), value(row, 'id')]);"
        )
        for browser in (self.teacher, self.first, self.second):
            browser.until(lambda: browser.driver.execute_script(script) == wanted, f"the rows {wanted}")

    def test_the_net_table_changes_in_mid_walk(self):
        """Two students walk the same message; for one the row is gone when step 5 looks it up."""
        self.set_up("line", by_hand=range(HOSTS))
        self.teacher.click('[data-tab="nets"]')
        self.tutor("net-add", net="198.51.100", id=2)
        for browser in (self.first, self.second):
            browser.type("#write-text", "hello 0 0 0 1 0\n")
            browser.type("#write-source", "198.51.100.7")
            browser.click("#write-send")
            browser.click(f'#messages [data-message="{self.waiting(browser)}"] .open-walk')
            for step in range(2, 6):
                browser.click("#step")
                browser.until(lambda: f"step {step}" in browser.text("#step"), f"step {step}")
        self.first.click("#step")
        self.first.until(lambda: "host 2, line a" in self.first.text("#step"), "host 2")
        self.assertIn("is found by row 1 of the net table", self.first.text("#walk-just"))
        self.tutor("net-remove", row=1)
        self.students_see()
        self.second.click("#step")
        self.second.until(lambda: self.second.attribute("#answer", "data-answer") == 11, "no host")
        self.assertIn("is not found in the net table: 11", self.second.text("#walk-just"))
        self.replays()

    def test_another_nhosts(self):
        """A seat answers 1 until it is set afresh, by its student or by the teacher."""
        self.set_up("line", by_hand=range(HOSTS))
        first, teacher = self.first, self.teacher
        teacher.click('[data-tab="nets"]')
        self.assertEqual(teacher.attribute("#net-afresh [name=nhosts]", "value"), HOSTS)
        self.assertEqual(self.tutor("net-afresh", nhosts=6), 0)
        self.assertIn("NHOSTS is 6, this host's is 4", first.text("#afresh"))
        self.make(first, "read", '[data-call="read"]')
        first.until(lambda: first.attribute("#answer", "data-answer") == 1, "refused")
        self.make(first, "initialize", '[data-call="initialize"]')
        first.until(lambda: len(first.all("#routes tr[data-id]")) == 6, "six hosts")
        self.assertFalse(first.all("#afresh")[0].is_displayed())
        self.make(first, "read", '[data-call="read"]')
        first.until(lambda: first.attribute("#answer", "data-answer") == 0, "done")
        self.assertTrue(self.second.one("#afresh"))
        teacher.click("#net-initialize")
        self.second.until(lambda: not self.second.all("#afresh")[0].is_displayed(), "set afresh")
        teacher.until(lambda: not teacher.all("#net-left")[0].is_displayed(), "all set afresh")
        self.assertNotIn("Refused", teacher.text("#net-answer"))
        self.replays()

    def test_an_exercise(self):
        """The teacher sets up an exercise, makes one event, then all, and reads why."""
        teacher = self.teacher
        teacher.click('[data-tab="exercises"]')
        teacher.click('#exercise-list [data-exercise="3"] button')
        self.agree(teacher)
        teacher.until(lambda: teacher.attribute("#exercise", "data-at") == 0, "the exercise")
        self.assertEqual(teacher.all("#exercise-explained")[0].text, "")
        teacher.click("#exercise-next")
        teacher.until(lambda: teacher.attribute("#exercise", "data-at") == 1, "the first event")
        teacher.click("#exercise-end")
        teacher.until(lambda: teacher.text("#exercise-explained"), "the explanation")
        teacher.until(lambda: "as the exercise says" in teacher.text("#exercise-held"), "the promise")
        self.assertIn("✓", teacher.text("#exercise-held"))
        self.replays()

    # The bench.

    def load(self, octets, ending):
        """The teacher chooses a file with these octets."""
        teacher = self.teacher
        with tempfile.NamedTemporaryFile(prefix="exercise", suffix=ending) as file:
            file.write(octets)
            file.flush()
            teacher.driver.execute_script("document.getElementById('bench-said').textContent = 'asked'")
            teacher.all("#bench-choose")[0].send_keys(file.name)
            teacher.until(lambda: teacher.attribute("#bench-said", "textContent") != "asked", "the file")
        return teacher.attribute("#bench-said", "textContent")

    def set_up_bench(self):
        """The teacher sets the bench up: what is said of it."""
        self.teacher.driver.execute_script("document.getElementById('bench-answer').textContent = 'asked'")
        self.teacher.click("#bench-set-up")
        self.teacher.until(lambda: self.teacher.text("#bench-answer") != "asked", "the set-up")
        return self.teacher.text("#bench-answer")

    def run_bench(self, button, done):
        """The teacher runs the bench, until that many events are done."""
        self.teacher.click(button)
        self.teacher.until(lambda: self.at_event() == done, f"event {done}")

    def at_event(self):
        """The number of events that are done, where the list shows all their answers."""
        done = self.teacher.attribute("#bench-work", "data-done")
        return done if len(self.teacher.all("#bench-events tr[data-answer]")) == done else None

    def bench_entry(self, seat, id):
        """DELAY and OFFSET of an entry at the bench."""
        at = f'#bench-seats [data-seat="{seat}"] [data-id="{id}"]'
        return tuple(self.teacher.value(f'{at} [data-field="{field}"]') for field in ("delay", "offset"))

    def fetched(self, path):
        """A file of the server as the teacher's page fetches it, in octets."""
        script = "fetch(arguments[0]).then(r => r.arrayBuffer()).then(b => done([...new Uint8Array(b)]))"
        return bytes(self.teacher.run(script, path))

    def test_the_bench(self):
        """A ready file by one event, by some, to its end; no seat is touched, no student sees it."""
        teacher = self.teacher
        self.set_up("line", by_hand=range(HOSTS))
        before = self.file()
        teacher.click('[data-tab="bench"]')
        teacher.choose("#bench-ready", "01-handshake")
        teacher.click("#bench-load-ready")
        teacher.until(lambda: teacher.attribute("#bench-file", "data-name") == "01-handshake", "the file")
        self.assertIn("2 seats, 1 cable, 10 events, NHOSTS 2", teacher.text("#bench-file"))
        self.assertTrue(teacher.attribute("#bench-one", "aria-disabled"))
        self.assertIn("initialized", self.set_up_bench())
        self.assertEqual(self.bench_entry(1, 0), (30000, 0))
        for done in range(1, 8):
            self.run_bench("#bench-one", done)
        self.assertIn("event 6, seat 0 sends on link 1", teacher.text("#bench-answer"))
        teacher.driver.find_element("css selector", "body").send_keys("e")
        teacher.until(lambda: self.at_event() == 8, "the key")
        self.assertIn("seat 1, host 0, DELAY: 30,000 → 100", teacher.text("#bench-answer"))
        self.assertEqual(self.bench_entry(1, 0), (100, -500))
        self.assertTrue(teacher.all('#bench-seats [data-seat="1"] [data-id="0"] .changed'))
        self.run_bench("#bench-end", 10)
        self.assertEqual(self.bench_entry(0, 1), (100, 500))
        self.assertEqual(teacher.attribute("#bench-progress", "value"), 10)
        self.assertIn("✓ 16 of the 16 promises", teacher.text("#bench-promised"))
        self.assertIn("Events 8 to 9 are carried out, 0 of them refused", teacher.text("#bench-answer"))
        teacher.choose("#bench-ready", "10-hops")
        teacher.click("#bench-load-ready")
        teacher.until(lambda: teacher.attribute("#bench-file", "data-name") == "10-hops", "the file")
        self.set_up_bench()
        teacher.type("#bench-count", "100")
        self.run_bench("#bench-some", 100)
        self.run_bench("#bench-end", 2008)
        delays = [self.bench_entry(0, id)[0] for id in range(8)]
        self.assertEqual(delays, [0, 100, 200, 200, 100, 300, 400, 500])
        teacher.picture(PICTURES / "bench.png")
        self.assertEqual(self.file(), before)
        for browser in (self.first, self.second):
            self.assertEqual(browser.all("[id^=bench]"), [])

    def test_bench_files(self):
        """Octets and texts are loaded and saved; a refused one is shown with its answer and its record."""
        teacher = self.teacher
        teacher.click('[data-tab="bench"]')
        text = "seat 192.0.2.1\nseat 192.0.2.2\n\ncable 0.1 1.1\n\nself-report 0\narrival tray 5\n"
        octets = bench_file.to_octets(bench_file.read_text(text)[0])
        as_text = text.encode()
        for given, ending in ((as_text, ".txt"), (octets, ".bench"), (octets, ".x"), (as_text, ".x")):
            self.assertEqual(self.load(given, ending), "")
            teacher.until(lambda: "2 events" in teacher.text("#bench-file"), "the file")
            self.assertEqual(self.fetched("/teacher/exercise.bench"), octets)
            self.assertEqual(self.fetched("/teacher/exercise.txt"), as_text)
        self.set_up_bench()
        self.run_bench("#bench-end", 2)
        row = teacher.text('#bench-events tr[data-event="1"]')
        self.assertIn("3 IpForm: the slot was never filled, and no seat is asked", row)
        said = self.load(b"seat 192.0.2.1\ntock 0\n", ".txt")
        self.assertIn("line 2: 'tock' is not known", said)
        self.assertIn("not UTF-8", self.load(b"\xff", ".txt"))
        self.assertIn("too long", self.load(bytes(200_000), ".bench"))
        self.assertIn("33,956 at most", self.load(bytes(34_000), ".bench"))
        for place, answer, fault in (
            (3, "18 Header", "number of seats"),
            (len(octets) - 14, "19 Absent", "event 1, at octet"),
        ):
            spoiled = octets[:place] + b"\x99" + octets[place + 1 :]
            self.assertEqual(self.load(spoiled, ".bench"), "")
            teacher.until(lambda: fault in teacher.text("#bench-fault"), "the fault")
            said = self.set_up_bench()
            self.assertIn(answer, said)
            self.assertIn(fault, said)
            self.assertIn("Nothing changed", said)
            self.assertEqual(self.fetched("/teacher/exercise.bench"), spoiled)

    def test_the_room_as_a_bench_file(self):
        """The room's calls, run again on the bench, end with the room's tables; a walk ends the file."""
        teacher = self.teacher
        self.set_up("line", by_hand=range(HOSTS))
        teacher.click('[data-tab="tables"]')
        for _ in range(2):
            self.send(self.first, 2)
            self.send(self.second, 1)
        teacher.click('[data-tab="bench"]')
        teacher.click("#bench-room")
        teacher.until(lambda: teacher.attribute("#bench-file", "data-name") == "room", "the room")
        self.assertIn("line 13 of 13, as 8 events", teacher.text("#bench-said"))
        self.set_up_bench()
        self.run_bench("#bench-end", 8)
        for seat, browser in ((1, self.first), (2, self.second)):
            for id in range(HOSTS):
                self.assertEqual(self.bench_entry(seat, id), self.entry(browser, id)[:2])
        self.make(self.first, "read", '[data-call="read"]')
        teacher.click("#bench-room")
        teacher.until(lambda: "line 14: read of B has no event" in teacher.text("#bench-said"), "the read")

    def speed(self, button, wanted):
        """The teacher lets the room run so fast."""
        while (before := self.teacher.text("#speed")) != wanted:
            self.teacher.click(button)
            self.teacher.until(lambda: self.teacher.text("#speed") != before, "another speed")

    def caught(self):
        """The teacher pauses the room when a message is on its way; whether it still is."""
        teacher = self.teacher
        teacher.click("#run")
        teacher.until(lambda: teacher.all("#picture [data-way]"), "a message on its way")
        teacher.click("#pause")
        teacher.until(lambda: teacher.attribute("#room", "data-running") is False, "the room stands")
        return bool(teacher.all("#picture [data-way]"))

    def replays(self):
        """The list of calls, made again, ends equal."""
        with tempfile.TemporaryDirectory() as folder:
            path = Path(folder) / "calls.jsonl"
            path.write_text(self.file())
            ended, said = replayed(path)
        self.assertEqual(ended, 0, said)

    def tearDown(self):
        for browser in (self.teacher, self.first, self.second):
            self.assertEqual(browser.complaints(), [])


if __name__ == "__main__":
    unittest.main()
