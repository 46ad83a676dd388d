"""An arrival worked to its end on a copy of the room, for a worksheet."""

from typing import NamedTuple

from ..room import Refused
from ..room.setup import address_of
from ..room.student import CALLS

MOST_BOXES = 300


class Work(NamedTuple):
    """The seat's name, address and link, its reading at step 1, its states before and after, the
    packet's fields, and the boxes."""

    name: str
    address: tuple
    link: int
    reading: int
    before: tuple
    after: tuple
    fields: list
    boxes: list


class Box(NamedTuple):
    """A box that was taken: its place, its sum as texts, and what it changed."""

    step: int
    line: str
    id: int
    texts: list
    changes: list


def worked(room, number, message=None):
    """Works a message that waits at a seat, or one of a neighbour; the room is a copy of its own."""
    seat = room.at(number)
    seat.by_hand = True
    if seat.in_walk:
        room.initialize(seat)
    waiting = _message(room, seat, message)
    shown = waiting.shown()
    before, link = seat.state, waiting.link
    reading = seat.reading(room.now)
    reply = _call(room, seat, "open_walk", message=waiting.number)
    if reply["answer"] != 0:
        raise Refused("refused.not_taken", answer=f"{reply['answer']} {reply['name']}")
    boxes = []
    while seat.in_walk and len(boxes) < MOST_BOXES:
        _call(room, seat, "step")
        made = seat.walk["boxes"][-1]
        boxes.append(Box(made["step"], made["line"], made["id"], made["words"], made["changes"]))
    return Work(seat.name, address_of(number), link, reading, before, seat.state, shown["fields"], boxes)


def _call(room, seat, call, **more):
    return CALLS[call][0](room, seat, {"do": "call", "call": call, **more})


def _message(room, seat, number):
    """The message of that number, else the first that waits, else one that a neighbour sends."""
    if number is not None:
        if number not in seat.waiting:
            raise Refused("refused.no_such_message")
        return seat.waiting[number]
    if not seat.waiting:
        for link in range(1, len(seat.state.links) + 1):
            far = room.cables.far(seat.number, link)
            if far and not room.seats[far.seat].in_walk:
                room.send(room.seats[far.seat], far.link, way=0)
                break
    if not seat.waiting:
        raise Refused("refused.nothing_to_work")
    return next(iter(seat.waiting.values()))
