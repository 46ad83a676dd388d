"""The addresses of the class."""

import asyncio
import contextlib

from aiohttp import web

from ..room import Refused
from . import clock, exercise_paper, files, sockets
from .guard import guard, language_of, refused, say
from .join import Join
from .paper import Paper

# A page that does nothing but come back without the key. The cookie is for requests from this
# server's own pages alone; a redirect would still count as a request from where the link was.
COME_BACK = (
    '<!doctype html><html lang="en"><meta charset="utf-8"><title>HELLO class</title>'
    '<link rel="icon" href="/web/icon.svg"><meta http-equiv="refresh" content="0; url={place}"></html>\n'
)


class Addresses:
    """The handlers, over a hall, its keys and the pages' files."""

    def __init__(self, hall, keys, pages, slips, history):
        self._hall = hall
        self._history = history
        self._keys = keys
        self._files = pages
        self._slips = slips
        self.door = None

    def routes(self):
        """Every address there is, each for GET alone."""
        return [
            web.get(path, handler, allow_head=False)
            for path, handler in (
                ("/teacher", self.page),
                ("/teacher/socket", self.socket),
                ("/teacher/calls.jsonl", self.calls),
                ("/teacher/marks.csv", self.marks),
                (r"/teacher/exercise.{form:bench|txt}", self.bench),
                (r"/seat/{seat:0|[1-9][0-9]?}", self.page),
                (r"/seat/{seat:0|[1-9][0-9]?}/socket", self.socket),
                ("/teacher/rooms", self.rooms),
                (r"/teacher/rooms/{room:[1-9][0-9]{0,8}}/{line:0|[1-9][0-9]{0,8}}", self.past),
                (r"/teacher/print/{sheet:slips|checklist|worksheet|tables|exercise}", self.printed),
                (r"/web/{name:[a-z0-9_.-]+}", self.file),
            )
        ]

    async def page(self, request):
        """A page; with a right key, the cookie and the way back without the key."""
        place = _place(request)
        if "key" in request.query:
            if not self._keys.right(place, request.query["key"]):
                return _no_key(request)
            response = web.Response(text=COME_BACK.format(place=place), content_type="text/html")
            self._keys.give(place, response)
            return response
        if not self._holds(place, request):
            return _no_key(request)
        return self._sent(request, "teacher.html" if place == "/teacher" else "student.html")

    async def socket(self, request):
        """The socket of a page. A browser always says from which origin it opens one."""
        place = _place(request)
        if not self._holds(place, request):
            return _no_key(request)
        if "Origin" not in request.headers:
            return refused(request, 403, "page.socket")
        if not self._hall.has_room_for(place):
            return refused(request, 429, "page.too_many")
        return await sockets.serve(request, self._hall, place, self._connection(request))

    def _connection(self, request):
        """The request's connection, or None where there is no door."""
        return self.door and self.door.of(request)

    def _holds(self, place, request):
        """Whether the request has the place's cookie; its connection may then take its time."""
        holds = self._keys.holds(place, request)
        connection = self._connection(request)
        if connection is not None:
            connection.keyed = holds
        return holds

    async def calls(self, request):
        """The list of calls as a file."""
        if not self._holds("/teacher", request):
            return _no_key(request)
        response = web.StreamResponse()
        response.content_type = "application/jsonl"
        response.headers["Content-Disposition"] = 'attachment; filename="calls.jsonl"'
        await response.prepare(request)
        for part in self._hall.file():
            await response.write(part.encode())
            await asyncio.sleep(0)
        await response.write_eof()
        return response

    async def marks(self, request):
        """The marks of the lesson as a table."""
        if not self._keys.holds("/teacher", request):
            return _no_key(request)
        headers = {
            "Content-Type": "text/csv; charset=utf-8",
            "Content-Disposition": 'attachment; filename="marks.csv"',
        }
        # The mark of UTF-8 in front, by which table programs know it.
        return web.Response(body=("\ufeff" + self._hall.marks()).encode(), headers=headers)

    async def rooms(self, request):
        """The rooms of the class."""
        if not self._holds("/teacher", request):
            return _no_key(request)
        return web.json_response({"rooms": self._hall.earlier(), "undo": self._hall.undo_allowed})

    async def past(self, request):
        """A room as it was after a line of its list."""
        if not self._holds("/teacher", request):
            return _no_key(request)
        returned = await self._history.ask(int(request.match_info["room"]), int(request.match_info["line"]))
        if returned == "null\n":
            return refused(request, 404, "page.no_call")
        return web.Response(text=returned, content_type="application/json")

    async def printed(self, request):
        """A sheet to be printed."""
        if not self._holds("/teacher", request):
            return _no_key(request)
        language = language_of(request)
        sheets = Paper(language)
        made = {
            "slips": lambda: self._slips(sheets, self._hall.names()),
            "checklist": sheets.checklist,
            "tables": lambda: sheets.tables(self._hall.room),
            "worksheet": lambda: self._worksheet(sheets, request.query),
            "exercise": lambda: self._exercise(request.query, language),
        }[request.match_info["sheet"]]
        try:
            return web.Response(text=made(), content_type="text/html")
        except Refused as why:
            return refused(request, 404, "page.no_sheet", why=why.text)

    def _worksheet(self, sheets, asked):
        seat, message = asked.get("seat", "0"), asked.get("message")
        if not all(text.isascii() and text.isdigit() and len(text) < 10 for text in (seat, message or "0")):
            raise Refused("refused.seat_and_message")
        return sheets.worksheet(self._hall.room, int(seat), None if message is None else int(message))

    def _exercise(self, asked, language):
        number = asked.get("number", "")
        if not (number.isascii() and number.isdigit() and len(number) < 10):
            raise Refused("refused.exercise_number")
        return exercise_paper.exercise(self._hall.room, int(number), language)

    async def bench(self, request):
        """The bench file that is loaded, as octets or as text."""
        if not self._holds("/teacher", request):
            return _no_key(request)
        loaded, form = self._hall.bench_file(), request.match_info["form"]
        if loaded is None:
            return refused(request, 404, "page.no_bench_file")
        if form == "txt" and loaded.text is None:
            return refused(request, 404, "page.bench_fault")
        octets = loaded.octets if form == "bench" else loaded.text.encode()
        sort = "application/octet-stream" if form == "bench" else "text/plain; charset=utf-8"
        name = f'attachment; filename="{_plain(loaded.name)}.{form}"'
        return web.Response(body=octets, headers={"Content-Type": sort, "Content-Disposition": name})

    async def file(self, request):
        """One of the pages' files. They hold nothing of the room, and need no key."""
        return self._sent(request, request.match_info["name"])

    def _sent(self, request, name):
        if name not in self._files:
            return refused(request, 404, "page.no_file")
        sort, octets = self._files[name]
        return web.Response(body=octets, headers={"Content-Type": sort})


def _place(request):
    """The place of an address, "/teacher" or "/seat/3"."""
    seat = request.match_info.get("seat")
    return "/teacher" if seat is None else f"/seat/{seat}"


def _plain(name):
    """A name of letters, digits and a few signs alone."""
    kept = "".join(c if c.isascii() and (c.isalnum() or c in "-_") else "-" for c in name)
    return kept.strip("-") or "exercise"


def _no_key(request):
    return refused(request, 403, "page.no_key")


class Application:
    """The class as an aiohttp application, for requests to these host names; `door` is given later."""

    def __init__(self, hall, keys, hosts, codes, slips, history):
        pages = files.read_all()
        self._addresses = Addresses(hall, keys, pages, slips, history)
        joining = Join(hall, keys, codes, pages["join.html"][1])
        routes = [*joining.routes(), *self._addresses.routes()]
        self.app = _app(hall, routes, guard(hosts, self, posts=("/join",)))

    def enter_by(self, door):
        """The door by which requests come."""
        self._addresses.door = door

    def of(self, request):
        """The connection of a request, or None."""
        return self._addresses.door and self._addresses.door.of(request)


def _app(hall, routes, middleware):
    app = web.Application(middlewares=[middleware])
    app.add_routes(routes)
    app.on_response_prepare.append(say)

    async def time_goes_on(_app):
        keeping = asyncio.create_task(clock.keep(hall))
        yield
        keeping.cancel()
        with contextlib.suppress(asyncio.CancelledError):
            await keeping

    async def over(_app):
        await sockets.close_all(hall)

    app.cleanup_ctx.append(time_goes_on)
    app.on_shutdown.append(over)
    return app
