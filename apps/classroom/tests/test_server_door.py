"""Tests of the door: 1,100 connections that say nothing, at a limit of 1,024 files, keep no one out."""

import asyncio
import contextlib
import ssl
import tempfile
import time
import unittest
import warnings
from pathlib import Path

import aiohttp

from classroom.server import door
from classroom.tests.serving import ROOT, Class, Page, Quiet, run_class

SEATS = 2
HALF_OPEN = 1_100
FILES = 1_024


async def open_connections(served, count, octets, room):
    """This many connections that send these octets and no more; one that is refused is passed over."""
    writers = []
    limit = asyncio.Semaphore(64)

    async def one():
        async with limit:
            with contextlib.suppress(OSError):
                _, writer = await asyncio.open_connection(served.host, served.port)
                writer.write(octets)
                writers.append(writer)

    await asyncio.gather(*(one() for _ in range(count)))
    room.callback(lambda: [writer.close() for writer in writers])
    return writers


def files_of(served):
    """How many files the server has open."""
    return len(list(Path(f"/proc/{served.process.pid}/fd").iterdir()))


class Crowd(Quiet):
    """A crowd at the door."""

    async def test_half_open(self):
        for octets in (b"", b"GET /seat/0 HTTP/1.1\r\nHost: x\r\n"):
            with self.subTest(octets=octets):
                await self.crowded(octets)

    async def crowded(self, octets):
        served = await asyncio.to_thread(Class, SEATS, files=FILES)
        async with Page(served, "/teacher") as teacher:
            with contextlib.ExitStack() as room:
                writers = await open_connections(served, HALF_OPEN, octets, room)
                self.assertGreater(len(writers), 1_000)
                await asyncio.sleep(0.3)
                self.assertLess(files_of(served), FILES - 4 * (SEATS + 1))
                # The page that is open works on, and new students come in.
                await teacher.ask("one_second")
                began = time.monotonic()
                for _ in range(3):
                    async with Page(served, "/seat/0") as student:
                        await student.call("read")
                print(f"three students came in by a crowd of {HALF_OPEN} in {time.monotonic() - began:.2f} s")
        ended, logged = await asyncio.to_thread(served.stop)
        self.assertEqual(ended, 0)
        self.assertLess(len(logged), 1_000, logged[:2_000])

    async def test_a_head_that_does_not_end(self):
        served = await asyncio.to_thread(Class, SEATS)
        began = time.monotonic()
        reader, writer = await asyncio.open_connection(served.host, served.port)
        for _ in range(3 * door.HEAD):
            writer.write(b"GET / HTTP/1.1\r\nX: ")
            with contextlib.suppress(asyncio.TimeoutError, ConnectionError):
                if await asyncio.wait_for(reader.read(100), 0.5) == b"":
                    break
        took = time.monotonic() - began
        writer.close()
        self.assertGreater(took, door.HEAD - 1)
        self.assertLess(took, door.HEAD + 5)
        self.assertEqual((await asyncio.to_thread(served.stop))[0], 0)


class Accepting(unittest.IsolatedAsyncioTestCase):
    """What the door does with connections, without a server behind it."""

    def connections(self, addresses):
        made = door.Door(None, 10)
        for number, address in enumerate(addresses):
            connection = door.Connection(made, None, address)
            connection.since = number
            made._open[connection] = None
        return made

    def test_the_longest_waiting_goes(self):
        made = self.connections(door.OF_AN_ADDRESS * ["a"] + ["b"])
        first, second, *_, other = made._open
        first.ask(waits=False)
        self.assertTrue(made._room_for("a"))
        self.assertNotIn(second, made._open)
        self.assertIn(first, made._open)
        self.assertIn(other, made._open)

    def test_busy_ones_stay(self):
        made = self.connections(door.OF_AN_ADDRESS * ["a"])
        for each in made._open:
            each.ask(waits=False)
        self.assertFalse(made._room_for("a"))
        self.assertTrue(made._room_for("b"))
        for each in made._open:
            each.page = True
        self.assertTrue(made._room_for("a"))

    def test_of_the_address_that_has_the_most(self):
        made = self.connections(["b"] + (made_most() - 1) * ["a"])
        only = next(iter(made._open))
        self.assertTrue(made._room_for(None))
        self.assertIn(only, made._open)
        self.assertEqual(len(made._open), made_most() - 1)

    async def test_errors_are_reported_once_a_minute(self):
        made = door.Door(None, 10)
        with self.assertLogs("class") as logged:
            for _ in range(1_000):
                made._complain(OSError(24, "Too many open files"))
            made._complained -= door.BETWEEN_COMPLAINTS
            made._complain(OSError(24, "Too many open files"))
        self.assertEqual(len(logged.output), 2)


def made_most():
    """How many connections a door takes in all."""
    return door.Door(None, 10)._most


class Tls(Quiet):
    """A class that is open to the net."""

    def setUp(self):
        folder = tempfile.TemporaryDirectory()
        self.addCleanup(folder.cleanup)
        self.folder = folder.name

    async def served(self, *more):
        made = await asyncio.to_thread(Class, 1, "--open-to-the-net", *more, folder=self.folder)
        self.addCleanup(made.stop)
        return made

    async def test_made_once(self):
        first = await self.served()
        self.assertTrue(first.address["/teacher"].startswith("https://"))
        async with Page(first, "/teacher") as teacher, Page(first, "/seat/0") as student:
            await teacher.ask("one_second")
            await student.call("read")
        async with aiohttp.ClientSession() as session:
            async with session.get(first.address["/seat/0"], ssl=first.ssl) as answer:
                self.assertIn("; Secure", answer.headers["Set-Cookie"])
                self.assertIn("connect-src 'self' wss://", answer.headers["Content-Security-Policy"])
            with self.assertRaises(aiohttp.ClientConnectorCertificateError):
                await session.get(first.address["/seat/0"])
            with self.assertRaises(aiohttp.ClientError):
                await session.get(first.address["/seat/0"].replace("https:", "http:"))
        await asyncio.to_thread(first.stop)
        again = await asyncio.to_thread(Class, None, "--open-to-the-net", folder=self.folder)
        self.addCleanup(again.stop)
        self.assertEqual(again.fingerprint, first.fingerprint)
        self.assertEqual(again.address, first.address)

    async def test_old_tls(self):
        served = await self.served()
        context = ssl.SSLContext(ssl.PROTOCOL_TLS_CLIENT)
        context.check_hostname, context.verify_mode = False, ssl.CERT_NONE
        with warnings.catch_warnings():
            warnings.simplefilter("ignore", DeprecationWarning)
            context.maximum_version = ssl.TLSVersion.TLSv1_1
        with self.assertRaises((ssl.SSLError, OSError)):
            await asyncio.open_connection("127.0.0.1", served.port, ssl=context)

    async def test_own_certificate(self):
        served = await self.served()
        await asyncio.to_thread(served.stop)
        from classroom.server.tls import _new, fingerprint

        own = Path(self.folder) / "own.pem"
        own.write_text(_new(["localhost"]))
        served = await self.served("--new", "--certificate", str(own))
        self.assertEqual(served.fingerprint, fingerprint(own.read_text()))
        async with Page(served, "/seat/0") as student:
            await student.call("read")

    async def test_wrong_certificate(self):
        wrong = Path(self.folder) / "wrong.pem"
        wrong.write_text("no certificate\n")
        ended, said = await asyncio.to_thread(
            run_class, self.folder, "--port", "0", "--open-to-the-net", "--certificate", str(wrong)
        )
        self.assertEqual(ended, 1)
        self.assertIn(f"The certificate in {wrong} cannot be used", said)
        self.assertEqual(len(said.splitlines()), 1)

    async def test_plain(self):
        served = await self.served("--plain")
        self.assertTrue(served.address["/teacher"].startswith("http://"))
        async with Page(served, "/seat/0") as student:
            await student.call("read")
        ended, logged = await asyncio.to_thread(served.stop)
        self.assertEqual(ended, 0)
        self.assertIn("Warning: --plain sends keys", logged)

    async def test_plain_needs_the_net(self):
        for more in (("--plain",), ("--certificate", str(ROOT / "README.md"))):
            ended, said = await asyncio.to_thread(run_class, self.folder, *more)
            self.assertEqual(ended, 2)
            self.assertIn("--plain and --certificate are for --open-to-the-net", said)

    async def test_a_crowd_before_tls(self):
        served = await self.served()
        with contextlib.ExitStack() as room:
            await open_connections(served, 300, b"", room)
            await asyncio.sleep(0.2)
            self.assertLess(files_of(served), door.OF_AN_ADDRESS + 64)
            async with Page(served, "/seat/0") as student:
                await student.call("read")


if __name__ == "__main__":
    unittest.main()
