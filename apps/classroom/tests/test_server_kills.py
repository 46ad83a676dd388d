"""Sixteen seats at work while the server is killed and started again, and pages are cut off: every reply
that a page got is in the store, a room made again from its inputs is the one that is served, and the
server's memory stays flat.

CLASS_LOAD_SECONDS says for how long; 60 s if it is not set.
"""

import asyncio
import os
import random
import tempfile
import time
import unittest

import aiohttp

from classroom.server.record import rebuilt, same
from classroom.server.store import Store
from classroom.tests.serving import Class, Page, Quiet
from classroom.tests.test_server_load import SEATS, room

SECONDS = int(os.environ.get("CLASS_LOAD_SECONDS", "60"))
# The server lives for that many seconds, and the last time for more: then its memory is looked at.
LIFE = (1.5, 4.0)
LAST_LIFE = 8
MOST_GROWTH = 24 * 1024 * 1024
LOST = (OSError, aiohttp.ClientError, AssertionError, asyncio.CancelledError, ConnectionError)


class Working:
    """A student who makes calls and notes each reply; a lost connection is opened again."""

    def __init__(self, test, seat):
        self._test = test
        self.seat = seat
        self.place = f"/seat/{seat}"
        self.noted = []
        self.lost = 0
        self._chance = random.Random(seat)

    async def work(self):
        """Works until the test is over."""
        while not self._test.over:
            try:
                async with Page(self._test.served, self.place) as page:
                    await self._calls(page)
            except LOST:
                # A call that has no reply any more is cancelled by the page.
                self.lost += 1
                await asyncio.sleep(0.1)

    async def _calls(self, page):
        end = time.monotonic() + self._chance.uniform(2, 9)
        while not self._test.over:
            message = self._message()
            returned = await page.send(message)
            self.noted.append((message, returned["reply"]))
            await asyncio.sleep(0.02)
            if time.monotonic() > end:
                # Gone without a word, as a machine that is switched off.
                page.socket._response.connection.transport.abort()
                raise ConnectionError

    def _message(self):
        number = len(self.noted)
        lookup = {"call": "lookup", "address": f"10.{self.seat}.{number // 256 % 256}.{number % 256}"}
        others = ({"call": "read"}, {"call": "self_report"}, {"call": "send", "link": 1}, {"call": "second"})
        return {"do": "call", **self._chance.choice((lookup, *others))}


def memory(served):
    """The memory of the server, in octets."""
    with open(f"/proc/{served.process.pid}/statm") as file:
        return int(file.read().split()[1]) * os.sysconf("SC_PAGE_SIZE")


class Kills(Quiet):
    """The class under load, killed again and again."""

    async def test_nothing_that_was_answered_is_lost(self):
        folder = tempfile.TemporaryDirectory()
        self.addCleanup(folder.cleanup)
        self.over, chance, kills = False, random.Random(), 0
        self.served = await asyncio.to_thread(Class, SEATS, folder=folder.name)
        async with Page(self.served, "/teacher") as teacher:
            await teacher.ask("set_up", **room())
            await teacher.ask("run")
        students = [Working(self, seat) for seat in range(SEATS)]
        tasks = [asyncio.create_task(student.work()) for student in students]
        end = time.monotonic() + SECONDS
        while time.monotonic() < end - LAST_LIFE:
            await asyncio.sleep(chance.uniform(*LIFE))
            self.served.process.kill()
            await asyncio.to_thread(self.served.process.communicate)
            kills += 1
            self.served = await asyncio.to_thread(Class, None, folder=folder.name)
        await asyncio.sleep(LAST_LIFE / 2)
        before = memory(self.served)
        await asyncio.sleep(max(LAST_LIFE / 2, end - time.monotonic()))
        grown = memory(self.served) - before
        self.over = True
        done, late = await asyncio.wait(tasks, timeout=30)
        for task in late:
            task.cancel()
        ended, logged = await asyncio.to_thread(self.served.stop)
        self.assertEqual((ended, logged), (0, ""))

        store = Store(str(next(self.served.folder.glob("*.class"))))
        self.addCleanup(store.close)
        self.every_reply_is_stored(store, students, kills)
        self.assertTrue(same(rebuilt(store, checkpoints=False), rebuilt(store)))
        self.assertLess(grown, MOST_GROWTH)
        noted = sum(len(student.noted) for student in students)
        print(
            f"{noted:,} replies in {SECONDS} s, {kills} kills of the server, "
            f"{sum(student.lost for student in students)} connections lost, memory +{grown / 2**20:.1f} MiB"
        )
        self.assertGreater(kills, 1)
        self.assertGreater(noted, 200)

    def every_reply_is_stored(self, store, students, kills):
        """Each student's replies are in the store, in their order; at most one more for each loss."""
        stored = {student.place: [] for student in students}
        for each in store.inputs():
            if each.by in stored:
                stored[each.by].append((each.asked, each.reply))
        for student in students:
            with self.subTest(seat=student.seat):
                rest = iter(stored[student.place])
                for noted in student.noted:
                    self.assertTrue(any(noted == each for each in rest), noted)
                more = len(stored[student.place]) - len(student.noted)
                self.assertLessEqual(more, student.lost)


if __name__ == "__main__":
    unittest.main()
