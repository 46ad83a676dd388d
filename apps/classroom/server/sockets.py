"""A page's socket: one JSON object to a message, each with a reply."""

import asyncio
import json
from socket import SO_SNDBUF, SOL_SOCKET

from aiohttp import WSCloseCode, WSMsgType, web

from ..room import Refused
from ..room.checks import keys, switch, whole
from .guard import LOG
from .push import SEND_BUFFER, Page

# The longest message, in octets; the teacher's may hold a bench file.
LONGEST, LONGEST_OF_THE_TEACHER = 16 * 1024, 256 * 1024
# A page that does not answer within that many seconds is gone.
HEARTBEAT = 20
# For that many seconds a page may answer that the socket closes.
GOODBYE = 2
GREATEST_N = 2**53
# A message weighs one, and one more for that many octets.
WEIGHED = 512


async def serve(request, hall, place, connection=None):
    """Talks with the page until it goes. Its connection counts as a page's from the upgrade on."""
    longest = LONGEST_OF_THE_TEACHER if place == "/teacher" else LONGEST
    socket = web.WebSocketResponse(
        timeout=GOODBYE, heartbeat=HEARTBEAT, max_msg_size=longest, compress=True
    )
    transport = request.transport
    page = Page(hall, place, socket, transport.abort, transport.get_write_buffer_size)
    hall.enter(page, socket)
    try:
        await socket.prepare(request)
        if connection is not None:
            connection.page = True
        transport.get_extra_info("socket").setsockopt(SOL_SOCKET, SO_SNDBUF, SEND_BUFFER)
        await _talk(socket, hall, page, longest)
    except ConnectionError:
        pass
    finally:
        hall.leave(page)
    if hall.over:
        await _say_goodbye(socket)
    return socket


async def _talk(socket, hall, page, longest):
    """Answers messages and shows views for as long as the socket is open."""
    showing = asyncio.create_task(_show(page))
    try:
        page.changed(own=True)
        async for message in socket:
            if message.type is WSMsgType.ERROR:
                break
            # The library looks at the length of what is compressed a little less strictly.
            if len(message.data) >= longest or len(octets_of(message.data)) >= longest:
                await socket.close(code=WSCloseCode.MESSAGE_TOO_BIG)
                break
            await hall.pace(page.place).take(1 + len(message.data) // WEIGHED)
            if hall.trouble is not None:
                await hall.stored()
            reply = await answer(hall, page, message)
            await hall.stored()
            await socket.send_str(reply)
            page.changed(own=True)
    finally:
        showing.cancel()
        await asyncio.wait([showing])


async def _show(page):
    """Shows views. Where that ends before the socket does, the page is gone: so is its socket."""
    try:
        await page.show()
    except ConnectionError:
        pass
    except Exception as slip:
        LOG.error("the views of %s: %s: %s", page.place, type(slip).__name__, slip)
    page.give_up()


async def _say_goodbye(socket):
    if socket.prepared:
        await socket.close(code=WSCloseCode.GOING_AWAY, message=b"the class is over")


async def answer(hall, page, message):
    """The text of the reply to a message, whatever it holds. A page that has lost its view asks for a
    full one; that is no business of the room."""
    n, place = None, page.place
    try:
        returned = read(message)
        n = returned.pop("n", None)
        if not _is_number(n):
            n = None
            raise Refused("refused.no_number")
        if returned == {"do": "view"}:
            page.begin()
            return json.dumps({"n": n, "reply": {}})
        past = await _past(hall, place, returned)
        said = {"n": n, "reply": hall.take(place, returned) if past is None else past}
        return json.dumps(said, separators=(",", ":"), allow_nan=False)
    except Refused as why:
        return json.dumps({"n": n, "refused": str(why), "text": why.text})
    except Exception as slip:
        LOG.error("a message of %s: %s: %s", place, type(slip).__name__, ascii(str(slip))[:200])
        why = Refused("refused.server")
        return json.dumps({"n": n, "refused": str(why), "text": why.text})


async def _past(hall, place, returned):
    """The reply to a message that goes back in time, which is for the store; None to another."""
    do = returned.get("do")
    if place == "/teacher" and do == "go_on_from":
        keys("the message", returned, ("do", "room", "line"))
        room = whole("room", returned["room"], 1, 2**31)
        return await hall.go_on_from(room, whole("line", returned["line"], 0, 2**31))
    if place == "/teacher" and do == "allow_undo":
        keys("the message", returned, ("do", "on"))
        return hall.allow_undo(switch("on", returned["on"]))
    if place != "/teacher" and do == "undo":
        keys("the message", returned, ("do",))
        return await hall.undo(place)
    return None


def octets_of(data):
    """The octets of a message."""
    return data.encode("utf-8", "surrogatepass") if type(data) is str else data


def _is_number(n):
    return type(n) in (int, float) and -GREATEST_N <= n <= GREATEST_N


def read(message):
    """The object of a message, or Refused."""
    if message.type is not WSMsgType.TEXT:
        raise Refused("refused.no_text")
    try:
        returned = json.loads(message.data, parse_constant=_no_constant, parse_float=_float)
    except (ValueError, RecursionError):
        raise Refused("refused.no_object") from None
    if type(returned) is not dict:
        raise Refused("refused.no_object")
    return returned


def _no_constant(name):
    raise ValueError(f"{name} is no JSON")


def _float(text):
    number = float(text)
    if number in (float("inf"), float("-inf")):
        raise ValueError("a number is too great")
    return number


async def close_all(hall):
    """Tells every page that the server goes."""
    hall.over = True
    await asyncio.gather(*map(_say_goodbye, hall.sockets()), return_exceptions=True)
