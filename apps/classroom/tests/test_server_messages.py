"""Tests of the messages: who may say what; nothing that a page sends stops the server."""

import asyncio
import base64
import contextlib
import itertools
import json
import random
import tempfile
import types
import unittest
from pathlib import Path

import aiohttp

from classroom.room.texts import english
from classroom.tests.serving import Class, Page, Quiet, replayed

SEATS = 8
SPEEDS = itertools.count(2, 0.001)
STORMY = range(6)
QUIET = range(6, 8)

TEACHERS = (
    {"do": "set_up", "seats": [{}, {}], "cables": []},
    {"do": "run"},
    {"do": "pause"},
    {"do": "speed", "factor": 2},
    {"do": "one_second"},
    {"do": "one_message"},
    {"do": "waits", "on": True},
    {"do": "by_hand", "seat": 7, "on": True},
    {"do": "cable", "cable": 0, "ways": [[1, 1], [1, 1]], "loss": [0, 0]},
    {"do": "show", "what": "tables"},
    {"do": "exercise", "number": 1},
    {"do": "next"},
    {"do": "to_the_end"},
    {"do": "net_afresh", "nhosts": 3},
    {"do": "net_add", "net": "10.0.0", "id": 1},
    {"do": "net_remove", "row": 1},
    {"do": "net_change", "row": 1, "id": 2},
    {"do": "bench_load", "name": "x", "text": "seat 192.0.2.1\n"},
    {"do": "bench_ready", "file": "small"},
    {"do": "bench_room"},
    {"do": "bench_set_up", "net": "class"},
    {"do": "bench_run", "events": 5},
    {"do": "bench_back"},
    {"do": "call", "seat": 7, "call": "tick"},
    {"do": "call", "seat": 0, "call": "tick"},
)

CALLS = (
    "tick adjust second self_report initialize set read lookup send inspect receive open_walk step "
    "write drop act place_call __init__ _room"
).split()

MALFORMED = (
    "",
    " ",
    "x",
    "nul",
    "null",
    "true",
    "12",
    '"do"',
    "[]",
    "[1, 2]",
    "{",
    "{}",
    "{}{}",
    '{"n": 1}',
    '{"do": "call", "call": "tick"}',
    '{"n": null, "do": "call", "call": "tick"}',
    '{"n": "1", "do": "call", "call": "tick"}',
    '{"n": true, "do": "call", "call": "tick"}',
    '{"n": [], "do": "call", "call": "tick"}',
    '{"n": NaN, "do": "call", "call": "tick"}',
    '{"n": 1e999, "do": "call", "call": "tick"}',
    '{"n": 1, "do": null}',
    '{"n": 1, "do": 7}',
    '{"n": 1, "do": ["call"]}',
    '{"n": 1, "do": {"call": "tick"}}',
    '{"n": 1, "do": "call"}',
    '{"n": 1, "do": "call", "call": null}',
    '{"n": 1, "do": "call", "call": []}',
    '{"n": 1, "do": "call", "call": "fly"}',
    '{"n": 1, "do": "call", "call": "tick", "more": 1}',
    '{"n": 1, "do": "call", "call": "set"}',
    '{"n": 1, "do": "call", "call": "set", "ms": Infinity}',
    '{"n": 1, "do": "call", "call": "set", "ms": 1.5}',
    '{"n": 1, "do": "call", "call": "set", "ms": ' + "9" * 5000 + "}",
    '{"n": 1, "do": "call", "call": "set", "ms": ' + "9" * 4000 + "}",
    '{"n": 1, "do": "call", "call": "send", "link": -1.0}',
    '{"n": 1, "do": "call", "call": "lookup", "address": "../../etc/passwd"}',
    '{"n": 1, "do": "by_hand"}',
    '{"n": 1, "do": "by_hand", "on": 1}',
    '{"n": 1, "do": "\\ud800"}',
    "[" * 16000,
    '{"n":' * 3000,
    "\u0000",
    '{"n": 1, "do": "call", "call": "tick\u0000"}',
)


def setUpModule():
    global served
    served = Class(SEATS)


def tearDownModule():
    ended, logged = served.stop()
    assert (ended, logged) == (0, ""), (ended, logged)


def lasting(seat):
    """What a seat is, without what compares it with others."""
    kept = {name: seat[name] for name in ("name", "by_hand", "clock", "links", "waiting", "walk")}
    fields = ("id", "delay", "offset", "ttl", "pid", "time")
    return {**kept, "table": [[entry[field] for field in fields] for entry in seat["table"]]}


async def raw_reply(page, text=None, octets=None):
    """What comes back to a message as it stands."""
    got = asyncio.get_running_loop().create_future()
    page.unasked = got.set_result
    await (page.socket.send_str(text) if octets is None else page.socket.send_bytes(octets))
    return await got


class Messages(Quiet):
    """Messages to the server of a room that stands still."""

    async def asyncSetUp(self):
        await super().asyncSetUp()
        self.teacher = await self.enterAsyncContext(Page(served, "/teacher"))
        await self.teacher.ask("pause")

    async def page(self, seat):
        return await self.enterAsyncContext(Page(served, f"/seat/{seat}"))

    async def seats(self):
        """The seats as they are now: in the first view with a speed that it had never before."""
        speed = next(SPEEDS)
        await self.teacher.ask("speed", factor=speed)
        view = await self.teacher.until(lambda view: view["room"]["speed"] == speed)
        return [lasting(seat) for seat in view["seats"]]

    async def test_teachers_messages_from_a_student(self):
        before = await self.seats()
        student = await self.page(0)
        table = self.teacher.view["net_table"]
        for message in TEACHERS:
            returned = await student.send(message)
            self.assertIn("refused", returned, message)
        self.assertEqual(await self.seats(), before)
        self.assertEqual(self.teacher.view["net_table"], table)

    async def test_the_net_table_is_shown_to_all(self):
        """Each call of the teacher's comes to every page; a refused one changes no row."""
        students = [await self.page(seat) for seat in range(SEATS)]
        rows = []
        for do, given, answer, now in (
            ("net_add", {"net": "10.0.0", "id": 3}, 0, [("10.0.0", 3)]),
            ("net_add", {"net": "198.51.100", "id": 0}, 0, [("10.0.0", 3), ("198.51.100", 0)]),
            ("net_add", {"net": "198.51.100", "id": SEATS}, 1, None),
            ("net_change", {"row": 3, "id": 0}, 22, None),
            ("net_change", {"row": 2, "id": 7}, 0, [("10.0.0", 3), ("198.51.100", 7)]),
            ("net_remove", {"row": 1}, 0, [("198.51.100", 7)]),
            ("net_afresh", {"nhosts": 256}, 1, None),
            ("net_afresh", {"nhosts": SEATS}, 0, []),
        ):
            reply = await self.teacher.ask(do, **given)
            self.assertEqual(reply["answer"], answer, (do, given))
            rows = rows if now is None else now
            for page in (self.teacher, *students):
                view = await page.until(lambda view: view["net_table"]["last"] == reply)
                shown = [(row["row"], row["net"], row["id"]) for row in view["net_table"]["rows"]]
                self.assertEqual(shown, [(number, *row) for number, row in enumerate(rows, 1)])
                self.assertEqual(view["net_table"]["nhosts"], SEATS)

    async def test_malformed(self):
        before = await self.seats()
        for place in ("/seat/0", "/teacher"):
            page = await self.enterAsyncContext(Page(served, place))
            for text in MALFORMED:
                returned = await raw_reply(page, text)
                self.assertIn("refused", returned, text[:80])
                self.assertTrue(returned["refused"])
            for octets in (b"", b"\x00", b'{"n": 1, "do": "call", "call": "tick"}', b"\xff" * 1000):
                self.assertIn("refused", await raw_reply(page, octets=octets))
        self.assertEqual(await self.seats(), before)

    async def test_oversized(self):
        for size in (16 * 1024, 20_000, 5_000_000):
            page = await self.page(1)
            with contextlib.suppress(OSError):
                await page.socket.send_str(" " * size)
            await page.ended()
            if size < 100_000:
                self.assertEqual(page.socket.close_code, aiohttp.WSCloseCode.MESSAGE_TOO_BIG)
        page = await self.page(1)
        self.assertEqual((await page.call("read"))["answer"], 0)

    async def test_a_bench_file(self):
        """The teacher's messages may be as long as the text of a bench file; it is had back as a file."""
        for form in ("bench", "txt"):
            self.assertEqual((await self.teacher.get(f"/teacher/exercise.{form}"))[0], 404)
        before = await self.seats()
        student = await self.page(2)
        seen = student.view
        text = "seat 192.0.2.1\n" + 2_048 * "tick 0 count 7   # a comment behind it\n"
        returned = await self.teacher.ask("bench_load", name='né/w" 7', text=text)
        self.assertEqual((returned["octets"], returned["fault"]), (20 + 321 + 2_048 * 14, None))
        status, had = await self.teacher.get("/teacher/exercise.txt")
        self.assertEqual((status, had), (200, text))
        status, octets = await self.teacher.octets("/teacher/exercise.bench")
        self.assertEqual((status, len(octets)), (200, returned["octets"]))
        # A file of octets is had back as the text that it makes.
        await self.teacher.ask("bench_load", name="octets", octets=base64.b64encode(octets).decode())
        status, had = await self.teacher.get("/teacher/exercise.txt")
        self.assertEqual((status, had), (200, "seat 192.0.2.1\n\ntick 0 count 7 times 2048\n"))
        self.assertEqual((await student.get("/teacher/exercise.bench"))[0], 403)
        self.assertEqual((await self.teacher.ask("bench_set_up", net="own"))["answer"], 0)
        done = 0
        while done < 2_048:
            reply = await self.teacher.ask("bench_run", events=2_048)
            self.assertEqual((reply["answer"], reply["done"]), (0, done + reply["count"]))
            self.assertEqual((await student.call("read"))["answer"], 0)
            done = reply["done"]
        view = await self.teacher.until(lambda view: view.get("bench") and view["bench"].get("done") == done)
        self.assertEqual(view["bench"]["answers"], 2_048 * [0])
        self.assertEqual([seat["table"] for seat in await self.seats()], [seat["table"] for seat in before])
        self.assertEqual(set(student.view), set(seen))
        letters = base64.b64encode(b"no bench file").decode()
        returned = await self.teacher.ask("bench_load", name="x", octets=letters)
        self.assertIn("the header alone has 20", english(returned["fault"]))
        self.assertEqual((await self.teacher.ask("bench_set_up", net="own"))["answer"], 18)
        self.assertEqual(await self.teacher.get("/teacher/exercise.bench"), (200, "no bench file"))
        self.assertEqual((await self.teacher.get("/teacher/exercise.txt"))[0], 404)
        page = await self.enterAsyncContext(Page(served, "/teacher"))
        with contextlib.suppress(OSError):
            await page.socket.send_str(" " * 256 * 1024)
        await page.ended()
        self.assertEqual(page.socket.close_code, aiohttp.WSCloseCode.MESSAGE_TOO_BIG)

    async def test_no_text(self):
        """A text frame whose octets are no text closes the socket, and no other."""
        page, other = await self.page(1), await self.page(2)
        await page.socket._writer._send_frame(b"\xff\xfe", aiohttp.WSMsgType.TEXT)
        await page.ended()
        self.assertEqual((await other.call("read"))["answer"], 0)

    async def test_too_many_pages(self):
        """Four pages at a place, also where more are opened at once; one may come when one has gone."""
        opened = await asyncio.gather(*(self.page(3) for _ in range(12)), return_exceptions=True)
        pages = [page for page in opened if isinstance(page, Page)]
        self.assertEqual(len(pages), 4)
        for refusal in opened:
            if refusal not in pages:
                self.assertEqual(refusal.status, 429)
        for page in pages:
            self.assertEqual((await page.call("read"))["answer"], 0)
        await pages[0].socket.close()
        while not isinstance(page := (await asyncio.gather(self.page(3), return_exceptions=True))[0], Page):
            await asyncio.sleep(0.05)

    async def test_a_message_that_fails_is_refused(self):
        """No message is known to fail; this looks at the way of one that does."""
        from classroom.server import sockets

        class Hall:
            def take(self, place, message):
                raise KeyError("a slip")

        message = aiohttp.WSMessage(aiohttp.WSMsgType.TEXT, '{"n": 5, "do": "x"}', None)
        with self.assertLogs("class"):
            returned = json.loads(await sockets.answer(Hall(), types.SimpleNamespace(place="/seat/0"), message))
        self.assertEqual(returned, {"n": 5, "refused": "the server could not do this", "text": ["refused.server", {}]})

    async def test_students_see_their_own_seat(self):
        for what in ("nothing", "picture", "tables"):
            await self.teacher.ask("show", what=what)
            for seat in (0, 5):
                page = await self.page(seat)
                await page.until(lambda view: view["room"]["show"] == what)
                self.assertEqual(page.view["seat"]["number"], seat)
                for key in ("seats", "calls", "points", "cables", "on_their_way"):
                    self.assertNotIn(key, page.view)
                if what == "nothing":
                    self.assertIsNone(page.view["others"])
                else:
                    seen = page.view["others"]["seats"]
                    self.assertEqual([each["number"] for each in seen], list(range(SEATS)))
                    self.assertEqual(any("table" in each for each in seen), what == "tables")
                for entry in page.view["seat"]["table"]:
                    self.assertFalse({"true", "error", "within"} & set(entry))
                for place in served.address:
                    self.assertNotIn(served.key(place), json.dumps(page.view))
        await self.teacher.ask("show", what="nothing")

    async def test_storm(self):
        """Thousands of random messages from six students."""
        before = await self.seats()
        chance = random.Random(891)

        async def storm(seat, chance):
            page = await self.page(seat)
            for _ in range(400):
                returned = await page.send(some_message(chance))
                self.assertTrue(("reply" in returned) != ("refused" in returned), returned)
                self.assertNotEqual(returned.get("refused"), "the server could not do this")
                self.assertEqual(page.view["seat"]["number"], seat)

        await asyncio.gather(*(storm(seat, random.Random(chance.random())) for seat in STORMY))
        after = await self.seats()
        for seat in QUIET:
            self.assertEqual(after[seat], before[seat])
        self.assertNotEqual(after[0], before[0])
        self.assertTrue(served.runs())
        status, text = await self.teacher.get("/teacher/calls.jsonl")
        self.assertEqual(status, 200)
        with tempfile.TemporaryDirectory() as folder:
            path = Path(folder) / "calls.jsonl"
            path.write_text(text)
            ended, said = await asyncio.to_thread(replayed, path)
        self.assertEqual(ended, 0, said)


def some_message(chance):
    """A message that may be good, nearly so, or not at all."""
    if chance.random() < 0.15:
        return {"do": anything(chance), anything_short(chance): anything(chance)}
    if chance.random() < 0.15:
        return dict(chance.choice(TEACHERS))
    message = {"do": "call", "call": chance.choice(CALLS)}
    for key, good in (
        ("link", lambda: chance.choice((1, 2, 3, 0, 9))),
        ("message", lambda: chance.randrange(1, 40)),
        ("ms", lambda: chance.choice((1, -1, 127, -128, 5000, 2**31 - 1, -(2**31), 2**31))),
        ("address", lambda: f"192.0.2.{chance.randrange(12)}"),
        ("text", lambda: chance.choice(("", "HELLO\n", "x" * 3000, "DATE 1\nTIME 2\n"))),
        ("source", lambda: f"192.0.2.{chance.randrange(12)}"),
        ("seat", lambda: chance.randrange(9)),
        ("counter", lambda: 5),
    ):
        wanted = WITH.get(message["call"], ())
        if key in wanted and chance.random() < 0.95 or chance.random() < 0.03:
            message[key] = good() if chance.random() < 0.9 else anything(chance)
    return message


WITH = {
    "set": ("ms",),
    "lookup": ("address",),
    "send": ("link",),
    "inspect": ("message",),
    "receive": ("message",),
    "open_walk": ("message",),
    "write": ("link", "text", "source"),
    "drop": ("message",),
}


def anything_short(chance):
    return chance.choice(("n ", "call", "seat", "", "__class__", "do ", "\u0000", "\ud83d\ude00", "link"))


def anything(chance, depth=0):
    """Some JSON."""
    sort = chance.randrange(9 if depth < 3 else 6)
    if sort == 0:
        return None
    if sort == 1:
        return chance.random() < 0.5
    if sort == 2:
        return chance.choice((0, 1, -1, 2**31, -(2**31), 2**63, 2**64, -(2**63), 10**40))
    if sort == 3:
        return chance.choice((0.0, -0.5, 1e-300, 1e300, 2.0**53))
    if sort == 4:
        return "".join(chr(chance.randrange(1, 0x3000)) for _ in range(chance.randrange(30)))
    if sort == 5:
        return chance.choice(("call", "set_up", "../../etc/passwd", "' OR 1=1", "<script>", "%s%n", "{0}"))
    if sort in (6, 7):
        return [anything(chance, depth + 1) for _ in range(chance.randrange(5))]
    return {anything_short(chance): anything(chance, depth + 1) for _ in range(chance.randrange(4))}


if __name__ == "__main__":
    unittest.main()
