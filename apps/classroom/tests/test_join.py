"""Tests of joining by a short code, and of what is printed."""

import asyncio
import base64
import json
import subprocess
import tempfile
import unittest
from pathlib import Path

import aiohttp

from classroom.room import Refused, Room
from classroom.server import codes
from classroom.server.paper import Paper
from classroom.server.record import seen
from classroom.tests.browsing import PICTURES, Browser
from classroom.tests.serving import Class, Page, Quiet

SEATS = 16


class Tries(unittest.TestCase):
    """Wrong codes are few in a minute."""

    def setUp(self):
        self.now = 0.0
        self.codes = codes.Codes(["AAAAAA", "BBBBBB"], lambda: self.now)

    def test_right(self):
        for code in ("AAAAAA", "aaaaaa", " aaa aaa ", "AAA-AAA"):
            self.assertTrue(self.codes.right("x", 0, code))
        self.assertFalse(self.codes.wait("x"))

    def test_wrong(self):
        for seat, code in ((0, "BBBBBB"), (1, "AAAAAA"), (2, "AAAAAA"), (-1, "BBBBBB"), (0, ""), (0, "\ud800")):
            self.assertFalse(self.codes.wait("x"))
            self.assertFalse(self.codes.right("x", seat, code))
        self.assertTrue(self.codes.wait("x"))
        self.assertFalse(self.codes.wait("y"))
        self.now = 61
        self.assertFalse(self.codes.wait("x"))

    def test_in_all(self):
        for number in range(codes.IN_ALL):
            self.assertFalse(self.codes.right(number, 0, "x"))
        self.assertTrue(self.codes.wait("another"))

    def test_codes_differ(self):
        made = codes.new_codes(16)
        self.assertEqual(len(set(made)), 16)
        self.assertTrue(all(len(code) == 6 and set(code) <= set(codes.LETTERS) for code in made))


def setUpModule():
    global served
    served = Class(SEATS)


def tearDownModule():
    ended, logged = served.stop()
    assert (ended, logged) == (0, ""), (ended, logged)


async def code_of(seat):
    """The code on a seat's slip."""
    async with Page(served, "/teacher") as teacher:
        status, text = await teacher.get("/teacher/print/slips")
    assert status == 200
    slip = text.partition(f'data-seat="{seat}"')[2]
    return slip.partition('class="code">')[2][:6]


async def join(session, body, **headers):
    """The status and the text of the answer to a code."""
    headers = {"Origin": served.origin, **headers}
    async with session.post(f"{served.origin}/join", data=body, headers=headers) as answer:
        return answer.status, await answer.text()


class Joining(Quiet):
    """A code is exchanged for a seat's cookie."""

    async def test_join(self):
        code = await code_of(3)
        jar = aiohttp.CookieJar(unsafe=True)
        async with aiohttp.ClientSession(cookie_jar=jar) as session:
            async with session.get(f"{served.origin}/") as answer:
                self.assertEqual(answer.status, 200)
                self.assertIn('value="15"', await answer.text())
            sent = json.dumps({"seat": 3, "code": code.lower(), "name": " Zoe\u0308 "})
            self.assertEqual(await join(session, sent), (200, '{"place": "/seat/3"}'))
            async with session.get(f"{served.origin}/seat/3") as answer:
                self.assertEqual(answer.status, 200)
            async with session.get(f"{served.origin}/seat/4") as answer:
                self.assertEqual(answer.status, 403)
        async with Page(served, "/teacher") as teacher:
            rows = {row["seat"]: row["name"] for row in teacher.view["board"]}
            self.assertEqual(rows[3], "Zo\u00eb")

    async def test_refused(self):
        code = await code_of(2)
        good = {"seat": 2, "code": code, "name": ""}
        async with aiohttp.ClientSession() as session:
            self.assertEqual((await join(session, json.dumps(good), Origin="http://evil.example"))[0], 403)
            for body in ("", "x", "[]", "{}", '{"seat": "2", "code": "a", "name": ""}', 5000 * "[", 5000 * "x"):
                self.assertEqual((await join(session, body))[0], 400, body[:20])
            self.assertEqual((await join(session, json.dumps({**good, "name": "a\u202eb"})))[0], 400)
            async with session.get(f"{served.origin}/join") as answer:
                self.assertEqual(answer.status, 405)
            async with session.post(f"{served.origin}/", headers={"Origin": served.origin}) as answer:
                self.assertEqual(answer.status, 405)

    async def test_sheets_need_the_teachers_key(self):
        async with Page(served, "/seat/0") as student:
            for sheet in ("slips", "checklist", "worksheet", "tables"):
                self.assertEqual((await student.get(f"/teacher/print/{sheet}"))[0], 403)


class Guessing(Quiet):
    """Few codes are tried in a minute, of a server of its own."""

    async def test_few(self):
        other = await asyncio.to_thread(Class, 1)
        self.addCleanup(other.stop)
        statuses = []
        async with aiohttp.ClientSession() as session:
            for _ in range(codes.OF_AN_ADDRESS + 3):
                body = json.dumps({"seat": 0, "code": "AAAAAA", "name": "x"})
                headers = {"Origin": other.origin}
                async with session.post(f"{other.origin}/join", data=body, headers=headers) as answer:
                    statuses.append(answer.status)
        self.assertEqual(statuses, codes.OF_AN_ADDRESS * [403] + 3 * [429])


class Worksheets(unittest.TestCase):
    """A worksheet is worked on a copy of the room."""

    def test_room_stays(self):
        room = Room.fresh(4)
        for _ in range(7):
            room.go_on(room.now + 1000)
        before = seen(room)
        text = Paper("en").worksheet(room, 1, None)
        self.assertEqual(seen(room), before)
        given, solved = text.split("<h1>Solution")
        self.assertNotIn("becomes", given.partition("Its table before")[2].partition("The boxes")[0])
        self.assertIn("step 1", solved)
        self.assertIn("Its table after", solved)
        # The solution's table is that of the arrival itself.
        room.seats[1].by_hand = True
        far = room.cables.far(1, 1)
        room.send(room.seats[far.seat], far.link, way=0)
        room.seat(1, {"do": "call", "call": "receive", "message": next(iter(room.seats[1].waiting))})
        for entry in room.seats[1].state.table:
            cells = "".join(f"<td>{cell:,}</td>" for cell in (entry.delay, entry.offset, entry.ttl, entry.pid))
            self.assertIn(cells, solved)

    def test_no_message(self):
        room = Room.fresh(1)
        for number, message in ((0, None), (0, 7), (5, None)):
            with self.assertRaises(Refused):
                Paper("en").worksheet(room, number, message)


class Printing(unittest.TestCase):
    """The sheets as PDF: that many pages, and nothing is cut."""

    @classmethod
    def setUpClass(cls):
        cls.browser = Browser()
        cls.browser.open(served.address["/teacher"])
        cls.browser.one("#print")
        asyncio.run(cls.run_room())

    @classmethod
    def tearDownClass(cls):
        cls.browser.close()

    @staticmethod
    async def run_room():
        async with Page(served, "/teacher") as teacher:
            for _ in range(6):
                await teacher.ask("one_second")

    def pages(self, sheet):
        """The text of each page of a sheet; the PDF is kept to be looked at."""
        self.browser.open(f"{served.origin}/teacher/print/{sheet}")
        self.browser.one("h1")
        self.assertEqual(self.browser.complaints(), [])
        made = self.browser.driver.execute_cdp_cmd("Page.printToPDF", {"preferCSSPageSize": True})["data"]
        PICTURES.mkdir(parents=True, exist_ok=True)
        path = PICTURES / f"{sheet.partition('?')[0]}.pdf"
        path.write_bytes(base64.b64decode(made))
        with tempfile.TemporaryDirectory() as folder:
            text = Path(folder) / "text"
            subprocess.run(["pdftotext", "-layout", path, text], check=True)
            return text.read_text().split("\f")[:-1]

    def wide(self):
        """The words of what is wider than its place."""
        return self.browser.cut("td, th, h1, h2, h3, p, caption")

    def test_checklist(self):
        (page,) = self.pages("checklist")
        for name in (*(f"Step {n}" for n in range(1, 6)), *(f"Line {letter}" for letter in "abcd")):
            self.assertIn(name, page)

    def test_worksheet(self):
        first, second, *solution = self.pages("worksheet?seat=1")
        self.assertIn("Hosts in the packet", first)
        self.assertIn("Its table after", first)
        self.assertIn("Line d", second)
        self.assertIn("Solution", solution[0])
        self.assertLessEqual(len(solution), 2)
        self.assertEqual(sum("Its table after" in page for page in solution), 1)

    def test_tables(self):
        (page,) = self.pages("tables")
        self.assertEqual(page.count("Host table of"), SEATS)

    def test_slips(self):
        pages = self.pages("slips")
        self.assertLessEqual(len(pages), 2)
        for page in pages:
            self.assertEqual(page.count("Code"), page.count("or scan"))
            self.assertEqual(page.count("Code"), page.count("Seat"))
        self.assertEqual(sum(page.count("Code") for page in pages), SEATS)

    def test_nothing_is_cut(self):
        for sheet in ("checklist", "worksheet?seat=1", "slips"):
            self.pages(sheet)
            self.assertEqual(self.wide(), [], sheet)


class Page_of_joining(unittest.TestCase):
    """The page at which a student joins."""

    def test_join(self):
        browser = Browser()
        self.addCleanup(browser.close)
        browser.open(f"{served.origin}/")
        browser.choose("#join-seat", "5")
        browser.type("#join-code", "WRONG2")
        browser.type("#join-name", "Finn")
        browser.click("#join-do")
        browser.until(lambda: "not the code" in browser.text("#join-said"), "a refusal")
        browser.picture(PICTURES / "join.png")
        browser.type("#join-code", asyncio.run(code_of(5)))
        browser.click("#join-do")
        browser.until(lambda: browser.driver.current_url == f"{served.origin}/seat/5", "the seat's page")
        browser.one("#clock")


if __name__ == "__main__":
    unittest.main()
