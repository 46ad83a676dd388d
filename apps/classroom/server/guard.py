"""What is refused before anything looks at a request, and what every response says to a browser."""

import logging

from aiohttp import web

from ..room.texts import ENGLISH, LANGUAGES, written

LOG = logging.getLogger("class")


def language_of(request):
    """The reader's language: of the address, else the first that her browser wants and the class has."""
    wanted = [request.query.get("language", ""), *request.headers.get("Accept-Language", "").split(",")]
    known = (each.strip()[:2].lower() for each in wanted)
    return next((each for each in known if each in LANGUAGES), ENGLISH)


def refused(request, status, key, **values):
    """A response in words, in the reader's language."""
    return web.Response(status=status, text=written([key, values], language_of(request)) + "\n")


def _from_here(request):
    """Whether the request has no origin, or this server's own."""
    origins = request.headers.getall("Origin", [])
    return origins in ([], [f"{request.scheme}://{request.headers['Host']}"])


def guard(hosts, door=None, posts=()):
    """Lets through what is a GET to one of these host names, from no other origin; to the paths of
    `posts` a POST. The door learns when a request begins and ends.

    The host names keep away a page elsewhere that has its own name point at this machine.
    """

    @web.middleware
    async def counted(request, handler):
        connection = door and door.of(request)
        if connection is None:
            return await look(request, handler)
        connection.ask(waits=False)
        try:
            return await look(request, handler)
        finally:
            connection.ask(waits=True)

    async def look(request, handler):
        wanted = "POST" if request.path in posts else "GET"
        if request.method != wanted:
            response = refused(request, 405, "page.method", method=wanted)
            response.headers["Allow"] = wanted
            return response
        named = request.headers.getall("Host", [])
        if len(named) != 1 or named[0].lower() not in hosts:
            return refused(request, 403, "page.other_name")
        if not _from_here(request):
            return refused(request, 403, "page.elsewhere")
        request["host"] = named[0]
        try:
            return await handler(request)
        except web.HTTPException as said:
            return refused(request, said.status, "words", words=said.reason)
        except Exception as slip:
            LOG.error("%s: %s", type(slip).__name__, slip)
            return refused(request, 500, "page.server")

    return counted


async def say(request, response):
    """Puts the headers on a response that keep a browser from more than the class needs."""
    headers = response.headers
    # 'self' does not mean the socket in every browser.
    scheme = "wss" if request.secure else "ws"
    socket = f"{scheme}://{request['host']}" if "host" in request else ""
    headers["Content-Security-Policy"] = (
        f"default-src 'self'; connect-src 'self' {socket}; object-src 'none'; base-uri 'none'; "
        "form-action 'none'; frame-ancestors 'none'"
    )
    headers["X-Content-Type-Options"] = "nosniff"
    headers["Referrer-Policy"] = "no-referrer"
    headers["Cache-Control"] = "no-store"
    headers["Cross-Origin-Opener-Policy"] = "same-origin"
    headers["Cross-Origin-Resource-Policy"] = "same-origin"
    headers["Server"] = "HELLO class"
