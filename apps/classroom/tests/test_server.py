"""Tests of the server's doors: keys, cookies, methods, host names, origins, files."""

import asyncio
import os
import socket
import subprocess
import tempfile
import unittest

import aiohttp

from classroom.tests.serving import Class, Page, Quiet

TEACHER, SEAT, OTHER = "/teacher", "/seat/0", "/seat/1"


def setUpModule():
    global served
    served = Class(2)


def tearDownModule():
    ended, logged = served.stop()
    assert (ended, logged) == (0, ""), (ended, logged)


async def raw(text, whole=True):
    """What the server answers to a request as it stands, its head or all: its status, the text."""
    reader, writer = await asyncio.open_connection(served.host, served.port)
    writer.write(text.replace("\n", "\r\n").encode("latin-1"))
    octets = await (reader.read() if whole else reader.readuntil(b"\r\n\r\n"))
    writer.close()
    answer = octets.decode("latin-1")
    return int(answer.split()[1]), answer


async def no_request(text):
    """Sends what is no request, and goes."""
    _, writer = await asyncio.open_connection(served.host, served.port)
    writer.write(text.replace("\n", "\r\n").encode("latin-1"))
    writer.close()
    await writer.wait_closed()


async def get(path, method="GET", whole=True, **headers):
    """The same, of a request in form."""
    headers = {"Host": f"{served.host}:{served.port}", "Connection": "close", **headers}
    lines = [f"{method} {path} HTTP/1.1", *(f"{name}: {value}" for name, value in headers.items())]
    return await raw("\n".join(lines) + "\n\n", whole)


def cookie(place):
    """The header with a place's cookie."""
    return {"Cookie": f"{served.cookie}={served.key(place)}"}


OPENING = {
    "Connection": "Upgrade",
    "Upgrade": "websocket",
    "Sec-WebSocket-Version": "13",
    "Sec-WebSocket-Key": "AAAAAAAAAAAAAAAAAAAAAA==",
}


async def opening(place, **headers):
    """The status of the answer to a socket's opening."""
    return (await get(f"{place}/socket", whole=False, **{**OPENING, **headers}))[0]


class Keys(Quiet):
    """A place opens to its own key and to no other."""

    async def test_own(self):
        for place in (TEACHER, SEAT, OTHER):
            status, answer = await get(f"{place}?key={served.key(place)}")
            self.assertEqual(status, 200)
            said = [line for line in answer.splitlines() if line.startswith("Set-Cookie:")]
            self.assertEqual(
                said,
                [
                    f"Set-Cookie: {served.cookie}={served.key(place)}; HttpOnly; "
                    f"Path={place}; SameSite=Strict"
                ],
            )
            body = answer.partition("\r\n\r\n")[2]
            self.assertNotIn(served.key(place), body)
            self.assertIn(f'content="0; url={place}"', body)
            status, answer = await get(place, **cookie(place))
            self.assertEqual(status, 200)
            self.assertNotIn("Set-Cookie", answer)
            self.assertNotIn(served.key(place), answer)

    async def test_wrong(self):
        own = served.key(SEAT)
        wrong = ["", "x", own[:-1], own + "A", own.swapcase(), "%00", "%F0%9F%98%80", "%FF", own + "%00"]
        for place in (TEACHER, SEAT, OTHER):
            keys = wrong + [served.key(each) for each in (TEACHER, SEAT, OTHER) if each != place]
            for key in keys:
                status, answer = await get(f"{place}?key={key}")
                self.assertEqual(status, 403, (place, key))
                self.assertNotIn("Set-Cookie", answer)
            self.assertEqual((await get(place))[0], 403)

    async def test_wrong_key_beside_a_right_cookie(self):
        self.assertEqual((await get(f"{SEAT}?key=x", **cookie(SEAT)))[0], 403)

    async def test_cookie_of_another(self):
        for place in (TEACHER, SEAT, OTHER):
            for other in (TEACHER, SEAT, OTHER):
                status = (await get(place, **cookie(other)))[0]
                self.assertEqual(status, 200 if place == other else 403, (place, other))
                status = await opening(place, Origin=served.origin, **cookie(other))
                self.assertEqual(status, 101 if place == other else 403, (place, other))
            for file, there in (("calls.jsonl", 200), ("exercise.bench", 404), ("exercise.txt", 404)):
                status = (await get(f"/teacher/{file}", **cookie(place)))[0]
                self.assertEqual(status, there if place == TEACHER else 403)
        for file in ("calls.jsonl", "exercise.bench", "exercise.txt"):
            self.assertEqual((await get(f"/teacher/{file}"))[0], 403)

    async def test_broken_cookies(self):
        for value in ("", "=", ";;;", f"{served.cookie}", f"{served.cookie}=\xff", "a" * 6000):
            self.assertEqual((await get(SEAT, Cookie=value))[0], 403, value)

    async def test_no_such_seat(self):
        for seat in ("2", "15", "16", "99", "00", "-1", "1e0", "%30x", "0/", "%D9%A2", "\xd9\xa2"):
            status, _ = await get(f"/seat/{seat}", **cookie(SEAT))
            self.assertIn(status, (403, 404), seat)
            status, _ = await get(f"/seat/{seat}?key={served.key(SEAT)}")
            self.assertIn(status, (403, 404), seat)

    async def test_keys_differ(self):
        self.assertEqual(len({served.key(place) for place in (TEACHER, SEAT, OTHER)}), 3)
        for place in (TEACHER, SEAT, OTHER):
            self.assertGreaterEqual(len(served.key(place)), 22)


class Requests(Quiet):
    """Other methods, host names, origins and forms are refused."""

    async def test_methods(self):
        for method in ("POST", "PUT", "DELETE", "HEAD", "OPTIONS", "PATCH", "TRACE", "PROPFIND"):
            for path in (SEAT, "/teacher/calls.jsonl", "/web/student.html", "/nowhere"):
                self.assertEqual((await get(path, method, **cookie(SEAT)))[0], 405, (method, path))

    async def test_hosts(self):
        port = served.port
        for host in ("evil.example", f"evil.example:{port}", served.host, f"{served.host}:1", "", "\xff"):
            status, answer = await get(f"{SEAT}?key={served.key(SEAT)}", Host=host)
            self.assertIn(status, (400, 403), host)
            self.assertNotIn("Set-Cookie", answer)
        self.assertEqual((await raw(f"GET {SEAT} HTTP/1.0\n\n"))[0], 403)
        two = f"GET {SEAT} HTTP/1.1\nConnection: close\nHost: {served.host}:{port}\nHost: evil.example\n\n"
        self.assertIn((await raw(two))[0], (400, 403))
        for host in (f"localhost:{port}", f"LOCALHOST:{port}", f"[::1]:{port}"):
            self.assertEqual((await get(f"{SEAT}?key={served.key(SEAT)}", Host=host))[0], 200, host)

    async def test_origins(self):
        port = served.port
        for origin in (
            "http://evil.example",
            "null",
            "",
            f"https://{served.host}:{port}",
            f"http://{served.host}",
            f"http://{served.host}:{port + 1}",
            f"http://localhost:{port}",
            f"http://{served.host}:{port}.evil.example",
        ):
            self.assertEqual(await opening(SEAT, Origin=origin, **cookie(SEAT)), 403, origin)
            self.assertEqual((await get(SEAT, Origin=origin, **cookie(SEAT)))[0], 403, origin)
        self.assertEqual(await opening(SEAT, **cookie(SEAT)), 403)

    async def test_socket_in_another_form(self):
        for change in ({"Upgrade": "h2c"}, {"Sec-WebSocket-Version": "1"}, {"Sec-WebSocket-Key": "x"}):
            headers = {"Origin": served.origin, **cookie(SEAT), **change}
            self.assertEqual(await opening(SEAT, **headers), 400, change)

    async def test_no_http(self):
        for text in ("\n", "x\n\n", "GET\n\n", "GET / HTTP/9.9\n\n", "\x00\xff\n\n", "GET " + "a" * 20000):
            await no_request(text)
        await no_request("\x16\x03\x01\x02\x00\x01")
        await no_request(f"POST {SEAT} HTTP/1.1\nHost: x\nContent-Length: -1\n\n")
        await no_request(f"POST {SEAT} HTTP/1.1\nHost: x\nTransfer-Encoding: chunked\n\nzz\n")
        self.assertEqual((await get(SEAT, **cookie(SEAT)))[0], 200)
        self.assertTrue(served.runs())

    async def test_headers(self):
        for path, more in ((SEAT, cookie(SEAT)), (SEAT, {}), ("/web/student.html", {}), ("/nowhere", {})):
            _, answer = await get(path, **more)
            for header in (
                "Content-Security-Policy: default-src 'self';",
                "frame-ancestors 'none'",
                "X-Content-Type-Options: nosniff",
                "Referrer-Policy: no-referrer",
                "Cache-Control: no-store",
            ):
                self.assertIn(header, answer, path)
            self.assertNotIn("aiohttp", answer)


class Files(Quiet):
    """The pages' files are had by their names, and nothing else is."""

    async def test_there(self):
        for name, sort in (
            ("teacher.html", "text/html"),
            ("student.html", "text/html"),
            ("style.css", "text/css"),
            ("teacher.js", "text/javascript"),
            ("icon.svg", "image/svg+xml"),
        ):
            status, answer = await get(f"/web/{name}")
            self.assertEqual(status, 200)
            self.assertIn(f"Content-Type: {sort}", answer)

    async def test_nothing_else(self):
        for path in (
            "/favicon.ico",
            "/web",
            "/web/",
            "/web/.",
            "/web/..",
            "/web/../server/keys.py",
            "/web/../../etc/passwd",
            "/web/../../../../../../../../etc/passwd",
            "/web/..%2f..%2f..%2f..%2f..%2f..%2fetc%2fpasswd",
            "/web/%2e%2e/%2e%2e/%2e%2e/%2e%2e/%2e%2e/etc/passwd",
            "/web//etc/passwd",
            "/web/%2fetc%2fpasswd",
            "/web/..\\..\\etc\\passwd",
            "/web/..%5c..%5cetc%5cpasswd",
            "/web/student.html%00",
            "/web/student.html/",
            "/web/STUDENT.HTML",
            "/web/student.html%20",
            "/web/%252e%252e%252fetc%252fpasswd",
            "/web/__init__.py",
            "/web/\xc0\xae\xc0\xae/etc/passwd",
            "/etc/passwd",
            "//etc/passwd",
            "/teacher/../../../etc/passwd",
            "/teacher/calls.jsonl/../../etc/passwd",
            "/teacher/",
            "/seat/0/calls.jsonl",
            "/seat/0/../../etc/passwd",
            "file:///etc/passwd",
            "http://evil.example/etc/passwd",
        ):
            status, answer = await get(path)
            self.assertIn(status, (400, 403, 404), path)
            self.assertNotIn("root:", answer)


class Net(Quiet):
    """Other machines come in only where they may."""

    def setUp(self):
        returned = subprocess.run(["hostname", "-I"], capture_output=True, text=True, check=True).stdout
        self.own = [address for address in returned.split() if ":" not in address]

    async def test_closed(self):
        for address in self.own:
            with self.assertRaises(ConnectionRefusedError):
                await asyncio.open_connection(address, served.port)
        host = f"{socket.gethostname()}:{served.port}"
        self.assertEqual((await get(f"{SEAT}?key={served.key(SEAT)}", Host=host))[0], 403)

    async def test_open(self):
        opened = await asyncio.to_thread(Class, 1, "--open-to-the-net")
        self.addCleanup(opened.stop)
        names = [*self.own, socket.gethostname(), "localhost", "127.0.0.1"]
        path = f"{SEAT}?key={opened.key(SEAT)}"
        async with aiohttp.ClientSession() as session:
            for at in (*self.own, "127.0.0.1"):
                for name, status in (*((name, 200) for name in names), ("evil.example", 403)):
                    address = f"https://{at}:{opened.port}{path}"
                    host = {"Host": f"{name}:{opened.port}"}
                    async with session.get(address, headers=host, ssl=opened.ssl) as answer:
                        self.assertEqual(answer.status, status, (at, name))
        if self.own:
            self.assertIn(opened.host, self.own)


class Stopping(Quiet):
    """Ctrl-C ends the class and tells the pages."""

    async def test_stop(self):
        going = await asyncio.to_thread(Class, 1)
        async with Page(going, SEAT) as page:
            ended, logged = await asyncio.to_thread(going.stop)
            self.assertEqual((ended, logged), (0, ""))
            await page.ended()
            self.assertEqual(page.socket.close_code, aiohttp.WSCloseCode.GOING_AWAY)

    async def test_port_in_use(self):
        folder = tempfile.TemporaryDirectory()
        self.addCleanup(folder.cleanup)
        second = await asyncio.create_subprocess_exec(
            "./class",
            "--port",
            str(served.port),
            stderr=asyncio.subprocess.PIPE,
            env={**os.environ, "HELLO_CLASSES": folder.name},
        )
        _, said = await second.communicate()
        self.assertEqual(second.returncode, 1)
        self.assertIn(f"Port {served.port} cannot be had", said.decode())


if __name__ == "__main__":
    unittest.main()
