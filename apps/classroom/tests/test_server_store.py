"""Tests of a served class and its store: a resume with the same addresses and keys, two servers on one
file, a damaged file, a disk that takes nothing more."""

import asyncio
import resource
import tempfile
import unittest
from pathlib import Path

from classroom.tests.serving import Class, Page, Quiet, run_class

TEACHER, SEAT = "/teacher", "/seat/1"


class Resuming(Quiet):
    """A class goes on where it was."""

    def setUp(self):
        folder = tempfile.TemporaryDirectory()
        self.addCleanup(folder.cleanup)
        self.folder = folder.name

    async def served(self, seats, *more):
        made = await asyncio.to_thread(Class, seats, *more, folder=self.folder)
        self.addCleanup(made.stop)
        return made

    def file(self):
        (path,) = Path(self.folder).glob("*.class")
        return path

    async def test_same_addresses_keys_and_room(self):
        for end in (Class.stop, Class.kill):
            first = await self.served(2, "--new")
            async with Page(first, TEACHER) as teacher, Page(first, SEAT) as student:
                await teacher.ask("exercise", number=3)
                await teacher.ask("next")
                await teacher.ask("net_add", net="198.51.100", id=1)
                reply = await student.call("read")
                await teacher.until(lambda view: view["seats"][1]["last"] == reply)
                before = teacher.view
                status, calls = await teacher.get("/teacher/calls.jsonl")
                await asyncio.to_thread(end, first)
                second = await self.served(None)
                self.assertEqual(second.address, first.address)
                # The open page has the cookie still, and reconnects without a key.
                socket = await student._session.ws_connect(
                    f"{second.origin}{SEAT}/socket", origin=second.origin
                )
                self.assertIn("view", await socket.receive_json())
                await socket.close()
            async with Page(second, TEACHER) as teacher:
                for part in ("room", "net_table", "seats", "cables", "exercise"):
                    self.assertEqual(teacher.view[part], before[part], part)
                self.assertEqual(await teacher.get("/teacher/calls.jsonl"), (200, calls))
            await asyncio.to_thread(second.stop)

    async def test_new_keeps_the_last(self):
        first = await self.served(1)
        await asyncio.to_thread(first.stop)
        (path,) = Path(self.folder).glob("*.class")
        second = await self.served(3, "--new")
        self.assertNotEqual(second.key(TEACHER), first.key(TEACHER))
        await asyncio.to_thread(second.stop)
        third = await self.served(None)
        self.assertEqual(third.address, second.address)
        await asyncio.to_thread(third.stop)
        again = await self.served(None, "--store", str(path))
        self.assertEqual(again.key(TEACHER), first.key(TEACHER))

    async def test_other_number_of_seats(self):
        first = await self.served(2)
        await asyncio.to_thread(first.stop)
        ended, said = await asyncio.to_thread(run_class, self.folder, "--seats", "5", "--port", "0")
        self.assertEqual(ended, 1)
        self.assertIn("has 2 seats, and not 5: leave out --seats to resume it", said)

    async def test_new_over_a_class(self):
        first = await self.served(2)
        await asyncio.to_thread(first.stop)
        ended, said = await asyncio.to_thread(run_class, self.folder, "--new", "--store", str(self.file()))
        self.assertEqual(ended, 1)
        self.assertIn("leave out --new to resume it", said)

    async def test_two_servers(self):
        first = await self.served(1)
        ended, said = await asyncio.to_thread(run_class, self.folder, "--port", "0")
        self.assertEqual(ended, 1)
        self.assertEqual(
            said, f"The class in {self.file()} is being served already, by process {first.process.pid}.\n"
        )
        async with Page(first, SEAT.replace("1", "0")) as page:
            await page.call("read")

    async def test_damaged(self):
        first = await self.served(1)
        await asyncio.to_thread(first.stop)
        octets = self.file().read_bytes()
        self.file().write_bytes(octets[:100] + bytes(len(octets) - 100))
        ended, said = await asyncio.to_thread(run_class, self.folder, "--port", "0")
        self.assertEqual(ended, 1)
        self.assertIn("is damaged, or is no store of a class", said)
        self.assertEqual(len(said.splitlines()), 1)
        self.assertEqual(self.file().read_bytes(), octets[:100] + bytes(len(octets) - 100))

    async def test_files_are_the_owners(self):
        await self.served(1)
        for path in Path(self.folder).iterdir():
            self.assertEqual(path.stat().st_mode & 0o077, 0, path)


class Full(Quiet):
    """A disk that takes nothing more: the class waits, says why, and goes on."""

    async def test_full(self):
        served = await asyncio.to_thread(Class, 2)
        limits = resource.prlimit(served.process.pid, resource.RLIMIT_FSIZE)
        async with Page(served, SEAT) as page, Page(served, TEACHER) as teacher:
            notices = []
            page.unasked = notices.append
            await page.call("read")
            # No file may become longer than it is: the store cannot be written.
            (wal,) = served.folder.glob("*-wal")
            resource.prlimit(served.process.pid, resource.RLIMIT_FSIZE, (wal.stat().st_size, limits[1]))
            replies = []

            async def calls():
                while True:
                    replies.append(await page.call("read"))

            async def others():
                while True:
                    replies.append(await teacher.ask("one_second"))

            working = [asyncio.create_task(calls()), asyncio.create_task(others())]
            while not notices:
                await asyncio.sleep(0.05)
            self.assertIn("cannot be written", notices[0]["notice"])
            self.assertIn("goes on by itself", notices[0]["notice"])
            count = len(replies)
            await asyncio.sleep(1.5)
            self.assertEqual(len(replies), count)
            resource.prlimit(served.process.pid, resource.RLIMIT_FSIZE, limits)
            while len(replies) < count + 10:
                await asyncio.sleep(0.05)
            for work in working:
                work.cancel()
            await asyncio.gather(*working, return_exceptions=True)
        ended, logged = await asyncio.to_thread(served.stop)
        self.assertEqual(ended, 0)
        self.assertIn("cannot be written", logged)
        self.assertIn("the store can be written again", logged)
        self.assertEqual(len(logged.splitlines()), 2, logged)


if __name__ == "__main__":
    unittest.main()
