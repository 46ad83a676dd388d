"""Tests of going back in time: a room as it was at each call, a room that goes on from there, and a
student's step back."""

import asyncio
import json
import random
import tempfile
import unittest
from pathlib import Path

from classroom.room import Room
from classroom.server import record
from classroom.server.history import Past
from classroom.server.record import Record, rebuilt, same
from classroom.server.store import Store
from classroom.tests.browsing import PICTURES, Browser
from classroom.tests.serving import Class, Page, Quiet
from classroom.tests.test_store import SEATS, Chance


class Looking(unittest.TestCase):
    """Every call of a room is looked at."""

    def setUp(self):
        folder = tempfile.TemporaryDirectory()
        self.addCleanup(folder.cleanup)
        self.store = Store(str(Path(folder.name) / "a.class"))
        self.addCleanup(self.store.close)

    def test_every_call(self):
        """The tables at a line are those of a room in which no later call was made."""
        kept, seen = Record(self.store, SEATS), {}
        make = Room.make

        def noted(room, seat, call, *more, **others):
            reply = make(room, seat, call, *more, **others)
            seen[room.number, room.log.count] = [
                [list(entry) for entry in each.state.table] for each in room.seats
            ]
            return reply

        Room.make = noted
        try:
            chance = Chance(kept, 4)
            for _ in range(60):
                chance.ask()
                kept.write()
        finally:
            Room.make = make
        past, looked = Past(self.store), random.Random(1).sample(sorted(seen), min(80, len(seen)))
        fields = ("delay", "offset", "ttl", "pid", "here", "time")
        for number, line in looked:
            view = past.view(number, line)
            tables = [[[entry[field] for field in fields] for entry in seat["table"]] for seat in view["seats"]]
            self.assertEqual(tables, seen[number, line], (number, line))
            self.assertEqual(view["call"]["line"], line)
        self.assertGreater(len(looked), 40)

    def test_no_such_call(self):
        Record(self.store, SEATS)
        past = Past(self.store)
        self.assertIsNone(past.view(1, 10**6))
        self.assertIsNone(past.view(7, 1))
        self.assertEqual(past.view(1, 0)["room"]["time"], 0)

    def test_going_on(self):
        """A room goes on from an earlier input, and is made again from the store as it is."""
        between = record.INPUTS_BETWEEN
        record.INPUTS_BETWEEN = 9
        self.addCleanup(setattr, record, "INPUTS_BETWEEN", between)
        kept, chance = Record(self.store, SEATS), random.Random(3)
        for turn in range(5):
            more = Chance(kept, turn)
            for _ in range(30):
                more.ask()
                kept.write()
            last = chance.randrange(1, self.store.last_input())
            (to,) = self.store.inputs(last - 1, last)
            before, room = kept.room.number, rebuilt(self.store, last)
            end = room.end()
            kept.branch(room, to.room, to.line, last, ["words", {"words": "again"}])
            kept.write()
            self.assertEqual(kept.room.number, before + 1)
            self.assertEqual(kept.room.end(), end)
            self.assertTrue(same(rebuilt(self.store, checkpoints=False), kept.room))
            self.assertTrue(same(rebuilt(self.store), kept.room))
            lines = list(kept.room.log.paper.lines())
            self.assertEqual(lines, list(self.store.calls(kept.room.number)))
            self.assertEqual(len(lines), kept.room.log.count + 1)
        row = self.store.rooms()[-1]
        self.assertEqual((json.loads(row.title)[1]["words"], row.parent), ("again", to.room))
        again = Store(self.store.path, alone=False)
        self.addCleanup(again.close)


class Served(Quiet):
    """The same over the net."""

    async def asyncSetUp(self):
        await super().asyncSetUp()
        self.served = await asyncio.to_thread(Class, 2)
        self.addCleanup(self.served.stop)

    async def test_go_on(self):
        async with Page(self.served, "/teacher") as teacher, Page(self.served, "/seat/0") as student:
            for _ in range(8):
                await teacher.ask("one_second")
            wanted = (await teacher.until(lambda view: view["room"]["time"] == 8_000))["seats"]
            await teacher.ask("pause")
            status, returned = await teacher.get("/teacher/rooms")
            (first,) = json.loads(returned)["rooms"]
            status, text = await teacher.get(f"/teacher/rooms/1/{first['lines']}")
            self.assertEqual(status, 200)
            past = json.loads(text)
            self.assertEqual([seat["table"] for seat in past["seats"]], [seat["table"] for seat in wanted])
            self.assertEqual((await teacher.get(f"/teacher/rooms/1/{first['lines'] + 900}"))[0], 404)
            self.assertEqual((await student.get("/teacher/rooms"))[0], 403)
            self.assertEqual((await student.get("/teacher/rooms/1/3"))[0], 403)
            for _ in range(20):
                await teacher.ask("one_second")
            self.assertEqual(await teacher.ask("go_on_from", room=1, line=first["lines"]), {"room": 2})
            view = await teacher.until(lambda view: view["room"]["number"] == 2)
            self.assertEqual([seat["table"] for seat in view["seats"]], [seat["table"] for seat in wanted])
            self.assertIn("no such call", await teacher.refused("go_on_from", room=9, line=1))
            self.assertIn("no such thing", await student.refused("go_on_from", room=1, line=1))
            status, returned = await teacher.get("/teacher/rooms")
            self.assertEqual([(r["number"], r["parent"]) for r in json.loads(returned)["rooms"]], [(1, None), (2, 1)])
            await teacher.ask("one_second")

    async def test_undo(self):
        async with Page(self.served, "/teacher") as teacher, Page(self.served, "/seat/0") as student:
            await teacher.ask("by_hand", seat=0, on=True)
            self.assertIn("not allowed", await student.refused("undo"))
            await teacher.ask("allow_undo", on=True)
            await student.until(lambda view: view["undo"])
            self.assertIn("something else", await student.refused("undo"))
            before = (await student.until(lambda view: True))["seat"]["table"]
            await student.call("self_report")
            await student.until(lambda view: view["seat"]["table"] != before)
            await student.ask("undo")
            await student.until(lambda view: view["seat"]["table"] == before)
            await student.call("read")
            await teacher.ask("one_second")
            self.assertIn("something else", await student.refused("undo"))


class Pages(unittest.TestCase):
    """The slider on the teacher's page."""

    def test_slider(self):
        served = Class(3)
        self.addCleanup(served.stop)
        browser = Browser(1280, 1000)
        self.addCleanup(browser.close)
        browser.open(served.address["/teacher"])
        for _ in range(6):
            browser.click("#one-second")
        browser.click('[data-tab="history"]')
        browser.until(lambda: browser.attribute("#panel-history", "data-line"), "the last call")
        last = browser.attribute("#panel-history", "data-line")
        now = browser.value('#history-tables [data-seat="0"] [data-id="0"] [data-field="time"]')
        self.assertNotEqual(now, 0)
        browser.click("#history-back")
        browser.until(lambda: browser.attribute("#panel-history", "data-line") == last - 1, "the call before")
        browser.picture(PICTURES / "history.png")
        script = "const s = document.getElementById('history-line'); s.value = 3;"
        browser.driver.execute_script(script + "s.dispatchEvent(new Event('input'))")
        browser.until(lambda: browser.attribute("#panel-history", "data-line") == 3, "the third call")
        field = '#history-tables [data-seat="0"] [data-id="0"] [data-field="time"]'
        browser.until(lambda: browser.value(field) == 0, "an empty table")
        browser.click("#history-go-on")
        browser.until(lambda: browser.attribute("#room", "data-number") == 2, "the second room")
        self.assertEqual(browser.complaints(), [])


if __name__ == "__main__":
    unittest.main()
