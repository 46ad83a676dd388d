"""Sixteen students at once for half a minute: no call is lost or made twice, no view is another's.

Nothing here asks how fast the server is: a slow one answers fewer calls, and each is looked for.
"""

import asyncio
import json
import random
import tempfile
import time
import unittest
from pathlib import Path

from classroom.tests.serving import Class, Page, Quiet, replayed

SEATS = 16
SECONDS = 30
# The seats from 0 on work by hand: their calls are their students' and no others.
BY_HAND = range(8)
TEACHERS_ALONE = {"true", "error", "within"}


def room():
    """Sixteen hosts in a ring, every fourth with a crystal clock."""
    return {
        "seats": [
            {"name": f"host {k}", "difference": 37 * k, "crystal": k % 4 == 3, "by_hand": k in BY_HAND}
            for k in range(SEATS)
        ],
        "cables": [
            {"ends": [[k, 1], [(k + 1) % SEATS, 2]], "ways": [[5, 60], [5, 60]], "loss": [10, 10]}
            for k in range(SEATS)
        ],
        "interval": 2,
        "seed": 891,
    }


class Student:
    """A student who makes calls of the own seat, one after the other, and notes the replies."""

    def __init__(self, page, seat):
        self.page = page
        self.seat = seat
        self.made = []
        self.seen = []
        self._chance = random.Random(seat)
        page.each_view = self.look

    def look(self, view):
        """Notes of a view whose it is, and when."""
        seat, room = view["seat"], view["room"]
        self.seen.append((seat["number"], seat["address"], (room["number"], room["time"])))

    async def work(self, until):
        """Makes calls until that time."""
        while time.monotonic() < until:
            if self.seat in BY_HAND:
                await self.some_call()
            else:
                await self.asked_for()

    async def call(self, call, **given):
        """One call, noted with its reply."""
        reply = await self.page.call(call, **given)
        self.made.append((call, given, reply))
        return reply

    async def asked_for(self):
        """A lookup of an address that nobody else asks for, so that it is known in the list."""
        await self.call("lookup", address=f"10.{self.seat}.{len(self.made) // 256}.{len(self.made) % 256}")

    async def some_call(self):
        """A call by chance; of a message where one waits."""
        waiting = self.page.view["seat"]["waiting"]
        if waiting and self._chance.random() < 0.5:
            return await self.take(waiting[0]["message"])
        call = self._chance.choice(("read", "second", "adjust", "self_report", "send", "set", "lookup"))
        given = {
            "set": {"ms": self._chance.randrange(-100, 100)},
            "send": {"link": self._chance.choice((1, 2))},
            "lookup": {"address": f"192.0.2.{self._chance.randrange(1, 17)}"},
        }
        return await self.call(call, **given.get(call, {}))

    async def take(self, message):
        """Takes a message at once or in a walk to its end. A view may still show one that is gone."""
        returned = await self.page.send({"do": "call", "call": "inspect", "message": message})
        if "refused" in returned:
            return
        self.made.append(("inspect", {}, returned["reply"]))
        if self._chance.random() < 0.5:
            # The room inspects again, and then acts if the packet passes.
            reply = await self.page.call("receive", message=message)
            inspected = reply["answer"] if 3 <= reply["answer"] <= 9 else 0
            self.made.append(("inspect", {}, {"answer": inspected, "returned": None}))
            if inspected == 0:
                self.made.append(("act", {}, reply))
            return
        place = (await self.call("open_walk", message=message))["returned"]["next"]
        while place:
            place = (await self.call("step"))["returned"]["next"]


class Tutor:
    """The teacher, who changes the net table meanwhile: some rows stand, and some calls are refused."""

    def __init__(self, page):
        self._page = page
        self._chance = random.Random(10)
        self.made = []

    async def work(self, until):
        """Makes calls until that time."""
        while time.monotonic() < until:
            do = self._chance.choice(("net_add", "net_change", "net_remove"))
            net, row, id = (self._chance.choice(of) for of in (("10.0.0", "20.0.0"), range(4), range(20)))
            given = {
                "net_add": {"net": net, "id": id},
                "net_change": {"row": row, "id": id},
                "net_remove": {"row": row},
            }[do]
            reply = await self._page.ask(do, **given)
            self.made.append((do, given, reply["answer"], reply["returned"]))
            await asyncio.sleep(0.05)


def without(seat):
    """A seat without what the teacher alone is shown, nor what depends on when it is shown."""
    table = [{k: v for k, v in entry.items() if k not in TEACHERS_ALONE} for entry in seat["table"]]
    return {**seat, "table": table}


class Load(Quiet):
    """The class at work."""

    @classmethod
    def setUpClass(cls):
        cls.served = Class(SEATS)

    @classmethod
    def tearDownClass(cls):
        ended, logged = cls.served.stop()
        assert (ended, logged) == (0, ""), (ended, logged)

    async def test_half_a_minute(self):
        teacher = await self.enterAsyncContext(Page(self.served, "/teacher"))
        await teacher.ask("set_up", **room())
        await teacher.ask("run")
        students = []
        for seat in range(SEATS):
            page = await self.enterAsyncContext(Page(self.served, f"/seat/{seat}"))
            await page.until(lambda view: view["seat"]["name"] == f"host {seat}")
            students.append(Student(page, seat))
        until = time.monotonic() + SECONDS
        tutor = Tutor(teacher)
        await asyncio.gather(*(each.work(until) for each in (tutor, *students)))
        await teacher.ask("pause")

        await self.ends_alike(teacher, students)
        self.views_are_own(students)
        status, text = await teacher.get("/teacher/calls.jsonl")
        self.assertEqual(status, 200)
        lines = [json.loads(line) for line in text.splitlines()]
        for student in students:
            with self.subTest(seat=student.seat):
                self.calls_stand(student, lines)
        self.tutors_calls_stand(tutor, lines)
        self.replays(text)
        print(f"{sum(len(student.made) for student in students):,} calls of sixteen students")

    async def ends_alike(self, teacher, students):
        """The last view of each student is what the teacher sees of that seat."""
        at = (await teacher.until(lambda view: not view["room"]["running"]))["room"]["time"]
        for student in students:
            await student.page.until(
                lambda view: view["room"]["time"] == at and not view["room"]["running"]
            )
            await student.page.until(
                lambda view: view["seat"] == without(teacher.view["seats"][student.seat])
            )

    def views_are_own(self, students):
        """Each view is of the student's own seat, in the room's order of time."""
        for student in students:
            numbers, addresses, times = zip(*student.seen)
            self.assertEqual(set(numbers), {student.seat})
            self.assertEqual(set(addresses), {f"192.0.2.{student.seat + 1}"})
            self.assertEqual(list(times), sorted(times))

    def calls_stand(self, student, lines):
        """Each call with a reply stands in the list once, at its seat, in the student's order."""
        own = [line for line in lines if line.get("seat") == student.seat and line["call"] != "tick"]
        self.assertEqual(own.pop(0)["call"], "initialize")
        if student.seat not in BY_HAND:
            own = [line for line in own if line["call"] == "lookup"]
            asked = [given["address"] for _, given, _ in student.made]
            everywhere = [line["with"].get("address") for line in lines if "call" in line]
            mine = [dotted(address) for address in everywhere if address]
            self.assertEqual([a for a in mine if a.startswith(f"10.{student.seat}.")], asked)
        self.assertEqual(
            [(line["call"], line["answer"]) for line in own],
            [(call, reply["answer"]) for call, _, reply in student.made],
        )
        for line, (call, given, reply) in zip(own, student.made):
            self.assertEqual(line["times"], 1)
            for name in ("ms", "link"):
                if name in given:
                    self.assertEqual(line["with"][name], given[name])
            if reply["returned"] is not None:  # what an inspection returned is not in the reply of a taken message
                for name, value in line["returned"].items():
                    self.assertEqual(reply["returned"][name], value)

    def tutors_calls_stand(self, tutor, lines):
        """The tutor's calls stand among them, once, in their order; the set-up's is the first."""
        own = [line for line in lines if "call" in line and line["seat"] is None]
        self.assertEqual(own.pop(0)["call"], "net_afresh")
        returned = [(line["call"], line["with"], line["answer"], line["returned"]) for line in own]
        self.assertEqual(returned, tutor.made)
        self.assertLessEqual({0, 1, 22}, {answer for _, _, answer, _ in returned})

    def replays(self, text):
        """The file's calls, made again, end equal."""
        with tempfile.TemporaryDirectory() as folder:
            path = Path(folder) / "calls.jsonl"
            path.write_text(text)
            ended, said = replayed(path)
        self.assertEqual(ended, 0, said)


def dotted(address):
    """An address in dots, however the list has it."""
    return address if isinstance(address, str) else ".".join(map(str, address))


if __name__ == "__main__":
    unittest.main()
