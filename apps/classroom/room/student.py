"""What a student's page asks for: the calls of one seat, each checked, then made."""

from . import log
from .cables import MOST
from .checks import Refused, address, keys, one_of, switch, whole, words
from .fields import dotted
from .packet import packet
from .seat import READ, Message
from .setup import address_of
from .sums import Box, in_english, texts_of
from .text_faults import fault

LONGEST_TEXT = 4_000


def not_full(room):
    """A call more can be written down."""
    if room.log.full:
        raise Refused("refused.list_full")


def call(room, seat, message):
    """A call by its name."""
    not_full(room)
    name = one_of("call", message["call"], CALLS)
    make, needed, also = CALLS[name]
    keys(f"a {name}", message, ("do", "call", *needed), ("n", "seat", *also))
    return make(room, seat, message)


PREDICTED = ("step", "walk_on", "receive", "send")
"""The calls that a student has to predict where the teacher has asked for that."""


def own_call(room, seat, message, predicted=False):
    """A call from the seat's own page, which has a part of the list to fill. Where predictions are
    required, it is made only after one."""
    if seat.filled >= log.OF_A_SEAT:
        raise Refused("refused.part_full")
    if room.lesson.predict == "required" and not predicted and message["call"] in PREDICTED:
        raise Refused("refused.predict_first")
    seat.predicted = None
    before, of = room.log.octets, room.lesson.students[seat.number]
    try:
        reply = call(room, seat, message)
        of.calls += 1
        of.refusals += reply.get("answer", 0) != 0
        return reply
    finally:
        seat.filled += room.log.octets - before


def by_hand(room, seat, message):
    """The seat works by hand, or by itself."""
    on = switch("on", message["on"])
    if seat.in_walk and not on:
        raise Refused("refused.in_walk")
    seat.by_hand = on
    room.take_all(seat)
    return {"by_hand": on}


def _plain(name):
    return lambda room, seat, message: room.make(seat, name)


def _initialize(room, seat, message):
    return room.initialize(seat)


def _set(room, seat, message):
    return room.make(seat, "set", {"ms": whole("ms", message["ms"], -(2**31), 2**31 - 1)})


def _lookup(room, seat, message):
    return room.make(seat, "lookup", {"address": dotted(address("address", message["address"]))})


def _link(seat, message):
    return whole("link", message["link"], 1, seat.host.settings.link_count)


def _send(room, seat, message):
    link = _link(seat, message)
    if room.cables.full(seat.number, link):
        raise Refused("refused.cable_full", most=MOST)
    return room.send(seat, link)


def waiting(seat, message):
    """The message that waits at the seat by its number."""
    number = message["message"]
    if type(number) is not int or number not in seat.waiting:
        raise Refused("refused.no_such_message")
    return seat.waiting[number]


def _inspect(room, seat, message):
    return room.make(seat, "inspect", waiting(seat, message).given)


def _receive(room, seat, message):
    return room.receive(seat, waiting(seat, message))


def _open_walk(room, seat, message):
    if not seat.by_hand:
        raise Refused("refused.by_itself")
    walked = waiting(seat, message)
    reply = room.make(seat, "open_walk", walked.given)
    if reply["answer"] == 0:
        if walked.by_hand:
            room.promise.written(room, seat)
        del seat.waiting[walked.number]
        first = reply["returned"]["next"]
        seat.walk = {"message": walked, "next": first, "boxes": [], "ended": False}
    return reply


def box_of(room, seat, before, after, place=None, walked=None):
    """The box between two states of a seat: of its walk, or of another place and message."""
    place, walked = place or seat.walk["next"], walked or seat.walk["message"]
    own, rows = dotted(address_of(seat.number)), room.net_table.rows
    return Box(place, own, walked.link, walked.octets, before, after, rows)


def _step(room, seat, message):
    walk = seat.walk if seat.in_walk else None
    before, reply = seat.state, room.make(seat, "step")
    if walk is None:
        seat.walk = None
        return reply
    if reply["answer"] in READ:
        place, texts = walk["next"], texts_of(box_of(room, seat, before, seat.state))
        made = {**place, "sum": in_english(texts), "words": texts, "changes": reply["changes"]}
        walk["boxes"].append(made)
        walk["next"] = reply["returned"]["next"]
        walk["ended"] = not seat.in_walk
        reply["returned"].update(box=place["name"], sum=made["sum"])
    return reply


def _walk_on(room, seat, message):
    """The boxes to the end of the walk, or to the next host, in one message: the last reply."""
    to = one_of("to", message["to"], ("end", "host"))
    first, reply = seat.walk and seat.walk["next"], _step(room, seat, message)
    while reply["answer"] == 0 and seat.in_walk and reply["returned"]["next"]:
        place = reply["returned"]["next"]
        same = place["id"] == first["id"] if first["line"] else not place["line"]
        if to == "host" and not same:
            break
        reply = _step(room, seat, message)
    return reply


def _write(room, seat, message):
    link, text = _link(seat, message), words("text", message["text"], LONGEST_TEXT, lines=True)
    far = room.cables.far(seat.number, link)
    source = address_of(far.seat if far else seat.number)
    if "source" in message:
        source = address("source", message["source"])
    reply = room.make(seat, "write", {"text": text})
    if reply["answer"] == 0:
        octets = packet(bytes.fromhex(reply["returned"]["octets"]), source, address_of(seat.number))
        written = Message(room.new_message(), link, octets, room.now, by_hand=True)
        seat.arrive(written)
        reply["returned"]["message"] = written.number
    elif found := fault(text, reply["answer"]):
        reply["returned"]["fault"] = found
    return reply


def _drop(room, seat, message):
    del seat.waiting[waiting(seat, message).number]
    return {"dropped": message["message"]}


CALLS = {
    **{
        name: (_plain(name), (), ())
        for name in ("tick", "adjust", "read", "second", "self_report")
    },
    "initialize": (_initialize, (), ()),
    "set": (_set, ("ms",), ()),
    "lookup": (_lookup, ("address",), ()),
    "send": (_send, ("link",), ()),
    "inspect": (_inspect, ("message",), ()),
    "receive": (_receive, ("message",), ()),
    "open_walk": (_open_walk, ("message",), ()),
    "step": (_step, (), ()),
    "walk_on": (_walk_on, ("to",), ()),
    "write": (_write, ("link", "text"), ("source",)),
    "drop": (_drop, ("message",), ()),
}
"""By its name: what makes the call, the keys that it needs, the keys that it may have."""
_KEYS = {key for _, needed, also in CALLS.values() for key in (*needed, *also)}

STUDENT = {"call": (own_call, ("call",), tuple(_KEYS)), "by_hand": (by_hand, ("on",), ())}
