"""The page at which a student joins: a seat, the code of its slip, a name."""

import contextlib
import json

from aiohttp import web

from ..room import Refused
from .guard import refused

LONGEST = 1_000


class Join:
    """The addresses "/" and "/join"."""

    def __init__(self, hall, keys, codes, page):
        self._hall = hall
        self._keys = keys
        self._codes = codes
        self._page = page.decode()

    def routes(self):
        """The addresses; a code is sent by POST, so that it is in no address."""
        return [
            web.get("/", self.page, allow_head=False),
            web.post("/join", self.join),
        ]

    async def page(self, request):
        """The page, with a choice of the seats."""
        seats = "".join(f'<option value="{seat}">{seat}</option>' for seat in range(self._codes.seats))
        return web.Response(text=self._page.replace("<!--seats-->", seats), content_type="text/html")

    async def join(self, request):
        """Exchanges a code for the cookie of its seat, and tells the room the name."""
        if "Origin" not in request.headers:
            return refused(request, 403, "join.origin")
        if self._codes.wait(request.remote):
            return refused(request, 429, "join.too_many")
        try:
            seat, code, name = read(await request.content.read(LONGEST + 1))
        except ValueError as why:
            return refused(request, 400, *why.args)
        if not self._codes.right(request.remote, seat, code):
            return refused(request, 403, "join.wrong_code")
        place = f"/seat/{seat}"
        if name:
            try:
                self._hall.take(place, {"do": "name", "name": name})
            except Refused as why:
                if why.text[0] != "refused.no_such_seat":
                    return refused(request, 400, "join.name", why=why.text)
            with contextlib.suppress(Exception):
                await self._hall.stored()
        response = web.json_response({"place": place})
        self._keys.give(place, response)
        return response


def read(octets):
    """Seat, code and name of a message; ValueError has the key of what is wrong."""
    try:
        returned = json.loads(octets) if len(octets) <= LONGEST else None
    except (ValueError, RecursionError):
        returned = None
    if type(returned) is not dict or set(returned) != {"seat", "code", "name"}:
        raise ValueError("join.parts")
    if type(returned["seat"]) is not int or type(returned["code"]) is not str or type(returned["name"]) is not str:
        raise ValueError("join.kinds")
    return returned["seat"], returned["code"], returned["name"].strip()
