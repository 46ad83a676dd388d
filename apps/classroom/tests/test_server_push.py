"""Tests of what is pushed to a page: soon, in measure, and never an endless queue."""

import asyncio
import json
import time
import unittest

from classroom.server.pace import Pace, Window
from classroom.server.push import MOST_A_SECOND, Page


class Hall:
    """A hall whose view is a number that grows."""

    trouble = None

    def __init__(self):
        self.number = 0

    def view(self, page):
        return {"view": self.number}

    def between_views(self):
        return 0.01


class Socket:
    """A socket that takes a text only where it is let."""

    def __init__(self, open):
        self.taken = []
        self.open = asyncio.Event()
        if open:
            self.open.set()

    async def send_str(self, text):
        await self.open.wait()
        self.taken.append(json.loads(text)["view"])


class Views(unittest.IsolatedAsyncioTestCase):
    """A page and its views."""

    def page(self, open):
        hall, socket = Hall(), Socket(open)
        page = Page(hall, "/seat/0", socket, give_up=socket.open.set)
        showing = asyncio.create_task(page.show())
        self.addCleanup(showing.cancel)
        return hall, socket, page

    async def changes(self, hall, page, count):
        for _ in range(count):
            hall.number += 1
            page.changed(own=True)
            await asyncio.sleep(0)

    async def test_slow_page_gets_the_newest(self):
        hall, socket, page = self.page(open=False)
        await self.changes(hall, page, 1000)
        self.assertEqual(socket.taken, [])
        socket.open.set()
        while len(socket.taken) < 2:
            await asyncio.sleep(0.01)
        await asyncio.sleep(0.2)
        self.assertEqual(len(socket.taken), 2)
        self.assertEqual(socket.taken[1], 1000)

    async def test_last_change_is_shown(self):
        hall, socket, page = self.page(open=True)
        await self.changes(hall, page, 500)
        while not socket.taken or socket.taken[-1] != 500:
            await asyncio.sleep(0.01)
        self.assertEqual(socket.taken, sorted(socket.taken))

    async def test_nothing_new_nothing_shown(self):
        hall, socket, page = self.page(open=True)
        await self.changes(hall, page, 1)
        await asyncio.sleep(0.2)
        self.assertEqual(socket.taken, [1])

    async def test_a_view_that_fails_is_passed_over(self):
        hall, socket, page = self.page(open=True)
        hall.view = lambda page: 1 // 0
        with self.assertLogs("class"):
            page.changed(own=True)
            await asyncio.sleep(0.05)
        del hall.view
        await self.changes(hall, page, 1)
        while not socket.taken:
            await asyncio.sleep(0.01)
        self.assertEqual(socket.taken, [1])


class Paces(unittest.IsolatedAsyncioTestCase):
    """How often something may be done. A slow machine makes it less often, never more."""

    async def test_window(self):
        window, times = Window(MOST_A_SECOND), []
        for _ in range(3 * MOST_A_SECOND):
            await window.take()
            times.append(time.monotonic())
        for early, late in zip(times, times[MOST_A_SECOND:]):
            self.assertGreater(late - early, 0.99)

    async def test_pace(self):
        pace, began = Pace(at_once=10, a_second=50), time.monotonic()
        for _ in range(60):
            await pace.take()
        self.assertGreater(time.monotonic() - began, 0.99)


if __name__ == "__main__":
    unittest.main()
