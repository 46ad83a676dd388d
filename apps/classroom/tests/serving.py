"""For the tests: ./class as a process of its own on a free port, and pages without a browser."""

import asyncio
import json
import os
import signal
import subprocess
import tempfile
import unittest
from pathlib import Path
from urllib.parse import urlsplit

import aiohttp

from classroom.server.patch import Patched

ROOT = Path(__file__).resolve().parents[3]


class Class:
    """A class that is served until stop. Its store is in a folder of its own, unless one is named."""

    def __init__(self, seats, *more, folder=None, files=None):
        command = [ROOT / "class", *more]
        if files is not None:
            command = ["/bin/sh", "-c", f'ulimit -n {files}; exec "$@"', "sh", *command]
        if seats is not None:
            command += ["--port", "0", "--seats", str(seats)]
        self._own = None if folder else tempfile.TemporaryDirectory(prefix="class-")
        self.folder = Path(folder or self._own.name)
        self.process = subprocess.Popen(
            command,
            stdout=subprocess.PIPE,
            stderr=subprocess.PIPE,
            text=True,
            start_new_session=True,
            env={**os.environ, "HELLO_CLASSES": str(self.folder)},
        )
        self.address = {}
        self.fingerprint = self.ssl = None
        for line in self.process.stdout:
            if "fingerprint: " in line:
                self.fingerprint = line.strip().rpartition(" ")[2]
                self.ssl = aiohttp.Fingerprint(bytes.fromhex(self.fingerprint.replace(":", "")))
            if line.startswith("Stop with Ctrl-C"):
                break
            if "key=" not in line:
                continue
            place, address = line.rsplit(maxsplit=1)
            self.address.setdefault("/" + place.strip().replace(" ", "/"), address)
        else:
            said = self.process.stderr.read()
            self.process.wait()
            raise AssertionError("./class did not start: " + said)
        parts = urlsplit(self.address["/teacher"])
        self.origin = f"{parts.scheme}://{parts.netloc}"
        self.host, self.port = parts.hostname, parts.port

    def key(self, place):
        """The key of "/teacher" or "/seat/0"."""
        return urlsplit(self.address[place]).query.removeprefix("key=")

    @property
    def cookie(self):
        """The name of the cookie in which a key is kept."""
        return f"hello-{self.port}"

    def runs(self):
        """Whether the server still runs."""
        return self.process.poll() is None

    def stop(self):
        """Stops it as Ctrl-C does: the number with which it ended, and what it logged."""
        if self.runs():
            self.process.send_signal(signal.SIGINT)
        try:
            _, logged = self.process.communicate(timeout=60)
        except subprocess.TimeoutExpired:
            self.process.kill()
            raise
        if self._own:
            self._own.cleanup()
        return self.process.returncode, logged

    def kill(self):
        """Ends it at once, as a loss of power does for the process."""
        self.process.kill()
        self.process.communicate()


class Quiet(unittest.IsolatedAsyncioTestCase):
    """Tests whose loop does not report its slow steps: a busy machine has some."""

    async def asyncSetUp(self):
        asyncio.get_running_loop().set_debug(False)


def run_class(folder, *arguments):
    """How ./class ends that does not start, and what it says to standard error."""
    done = subprocess.run(
        [ROOT / "class", *arguments],
        capture_output=True,
        text=True,
        timeout=60,
        env={**os.environ, "HELLO_CLASSES": str(folder)},
    )
    assert done.stdout == "", done.stdout
    return done.returncode, done.stderr


def replayed(path):
    """How ./class --replay ends for a file, and what it says."""
    done = subprocess.run([ROOT / "class", "--replay", path], capture_output=True, text=True)
    return done.returncode, done.stdout + done.stderr


class Page:
    """A page's socket: asks with numbers, keeps the newest view."""

    def __init__(self, served, place):
        self._served = served
        self._place = place
        self._asked = {}
        self._n = 0
        self._new = asyncio.Event()
        self._first = None
        self._patched = Patched()
        self.characters = 0
        self.each_view = None
        self.unasked = lambda returned: None

    async def __aenter__(self):
        self._session = aiohttp.ClientSession(cookie_jar=aiohttp.CookieJar(unsafe=True))
        try:
            await self._open()
        except BaseException:
            await self._session.close()
            raise
        self._reading = asyncio.create_task(self._read())
        await self.until(lambda view: True)
        return self

    async def _open(self):
        """The page, which gives the cookie, then its socket."""
        async with self._session.get(self._served.address[self._place], ssl=self._served.ssl) as entered:
            assert entered.status == 200, await entered.text()
        self.socket = await self._session.ws_connect(
            f"{self._served.origin}{self._place}/socket",
            origin=self._served.origin,
            max_msg_size=64 * 1024 * 1024,
            compress=15,
            ssl=self._served.ssl,
        )

    async def __aexit__(self, *_):
        await self.socket.close()
        await self._reading
        await self._session.close()

    async def _read(self):
        async for message in self.socket:
            if message.type is aiohttp.WSMsgType.ERROR:
                break
            self.characters += len(message.data)
            if message.data.startswith(('{"view":', '{"patch":')):
                self._take_view(message.data)
                continue
            returned = message.json()
            if returned.get("n") in self._asked:
                asked = self._asked.pop(returned["n"])
                # A test may stop waiting for a reply, as one that cancels its tasks does.
                if not asked.cancelled():
                    asked.set_result(returned)
            else:
                self.unasked(returned)
        for left in self._asked.values():
            left.cancel()

    def _take_view(self, text):
        """A view, or what has changed since the one before."""
        if not self._patched.take(json.loads(text)):
            raise AssertionError(f"a patch that does not fit: {text[:300]}")
        self._first = self._first or self._patched.view
        if self.each_view:
            self.each_view(self._patched.view)
        self._new.set()

    @property
    def view(self):
        """The newest view, with what is in the first alone."""
        return {**self._first, **self._patched.view}

    async def ended(self):
        """Waits until the server has closed the socket."""
        await self._reading

    async def send(self, message):
        """Sends a message with the next number: what comes back, whole."""
        self._n += 1
        self._asked[self._n] = asyncio.get_running_loop().create_future()
        waiting = self._asked[self._n]
        await self.socket.send_json({"n": self._n, **message})
        return await waiting

    async def ask(self, do, **more):
        """The reply to a message that is not refused."""
        returned = await self.send({"do": do, **more})
        if "refused" in returned:
            raise AssertionError(f"{do} {more}: {returned['refused']}")
        return returned["reply"]

    async def call(self, call, **more):
        """The reply to a call."""
        return await self.ask("call", call=call, **more)

    async def refused(self, do, **more):
        """Why a message is refused."""
        returned = await self.send({"do": do, **more})
        if "refused" not in returned:
            raise AssertionError(f"{do} {more} was not refused")
        return returned["refused"]

    async def until(self, wanted):
        """The first view, from the newest on, that is as wanted."""
        while True:
            self._new.clear()
            if self._first and wanted(view := self.view):
                return view
            await self._new.wait()

    async def get(self, path):
        """An answer of the server with this page's cookie: status, text."""
        status, octets = await self.octets(path)
        return status, octets.decode()

    async def octets(self, path):
        """The same: status, octets."""
        async with self._session.get(self._served.origin + path, ssl=self._served.ssl) as answer:
            return answer.status, await answer.read()
