"""The octets of a bench file with a name for each: place, octets in hex, what they are."""

from __future__ import annotations

import re

from . import layout
from .faults import Fault
from .file import KINDS
from .octets import from_octets, link_place, sections
from .writer import event_line, seat_line, written_date, written_ends, written_time

LINE = re.compile(r"^ *([0-9]+)  (.*?)(?:  .*)?$")


def listing(octets: bytes) -> str:
    """A line for each number of a file; octets_of_listing reads them back."""
    file = from_octets(octets)
    starts = sections(octets)
    lines = ["# The header", *_fields(octets, 0, _HEADER)]
    for number, seat in enumerate(file.seats):
        place = layout.HEADER_LENGTH + layout.SEAT_LENGTH * number
        lines += ["", f"# Seat {number}: {seat_line(number, seat, file.cables)}"]
        lines += _fields(octets, place, _SEAT)
        lines += _links(octets, place, len(seat.links))
        lines += _marks(octets, place + layout.MARKS.at)
    for number, cable in enumerate(file.cables):
        lines += ["", f"# Cable {number}: cable {written_ends(cable)}"]
        place = starts.cables + layout.CABLE_LENGTH * number
        lines += _fields(octets, place, _CABLE)
    for number, event in enumerate(file.events):
        lines += ["", f"# Event {number}: {event_line(event, 1)}"]
        lines += _fields(octets, starts.events + layout.EVENT_LENGTH * number, _event_fields(event))
    return "".join(f"{line}\n" for line in lines)


def octets_of_listing(text: str) -> bytes:
    """The octets of a listing, each in its place."""
    octets = bytearray()
    for line in text.split("\n"):
        if not line or line.startswith("#"):
            continue
        found = LINE.fullmatch(line)
        if not found:
            raise Fault(f"this is no line of a listing: {line}")
        place, part = found.groups()
        octet, _, times = part.partition(" x ")
        if int(place) != len(octets):
            raise Fault(f"octet {place} stands at {len(octets)}")
        octets += bytes.fromhex(octet) * int(times or 1)
    return bytes(octets)


def _line(place, part, name):
    return f"{place:6}  {part:23}  {name}"


def _fields(octets, place, fields):
    for field, name, shown in fields:
        part = field.behind(place).part(octets)
        number = int.from_bytes(part, "big")
        yield _line(place + field.at, part.hex(" "), f"{name} {shown(number, part)}".rstrip())


def _number(number, part):
    return f"{number:,}"


def _address(number, part):
    return ".".join(map(str, part))


def _unused(number, part):
    return "(not looked at)"


_HEADER = (
    (layout.SEAT_COUNT, "seats:", _number),
    (layout.CABLE_COUNT, "cables:", _number),
    (layout.EVENT_COUNT, "events:", _number),
    (layout.CABLES_START, "the cables start at octet", _number),
    (layout.EVENTS_START, "the events start at octet", _number),
)
_SEAT = (
    (layout.LOCAL_ADDRESS, "LOCAL-ADDRESS", _address),
    (layout.ADDRESS_OFFSET, "ADDRESS-OFFSET", _number),
    (layout.CLOCK_HOST, "clock host", lambda n, _: "255: clock setting is off" if n == 255 else str(n)),
    (layout.NHOSTS, "NHOSTS", _number),
    (layout.HOLD_INTERVAL, "HOLD-INTERVAL in seconds:", _number),
    (layout.DATE, "starting date", lambda n, _: written_date((1972 + (n & 31), n >> 10 & 15, n >> 5 & 31))),
    (layout.TIME, "starting time in ms:", lambda n, _: f"{n:,}, {written_time(n)}"),
    (layout.CLOCK_TICK, "CLOCK-TICK in units:", _number),
    (layout.LINK_COUNT, "links:", _number),
)
_CABLE = (
    (layout.END_SEAT, "end 0: seat", _number),
    (layout.END_LINK, "end 0: link", _number),
    (layout.END_SEAT.behind(layout.END_LENGTH), "end 1: seat", _number),
    (layout.END_LINK.behind(layout.END_LENGTH), "end 1: link", _number),
)


def _links(octets, place, count):
    for slot in range(8):
        at = place + link_place(slot)
        if slot >= count:
            length = layout.LINK_LENGTH * (8 - slot)
            yield from _run(octets, at, length, f"links {slot + 1} to 8 (not looked at)")
            return
        switch = layout.SWITCH.behind(at).of(octets)
        kind = "broadcast" if switch else "point-to-point"
        yield _line(at, f"{switch:02x}", f"link {slot + 1}: switch {switch}, {kind}")
        neighbor = layout.NEIGHBOR_ADDRESS.behind(at).part(octets)
        returned = _address(0, neighbor) if switch else "(not looked at)"
        yield _line(at + 1, neighbor.hex(" "), f"link {slot + 1}: NEIGHBOR-ADDRESS {returned}")


def _marks(octets, place):
    """Ids with the same mark stand in one line."""
    first = 0
    while first < layout.MARKS.octets:
        mark = octets[place + first]
        last = first
        while last + 1 < layout.MARKS.octets and octets[place + last + 1] == mark:
            last += 1
        ids = f"id {first}" if first == last else f"ids {first} to {last}"
        returned = f"mark of {ids}: {'lives here' if mark else 'does not live here'}"
        yield from _run(octets, place + first, last - first + 1, returned)
        first = last + 1


def _run(octets, place, length, name):
    """Octets that are all the same in one line."""
    part = octets[place : place + length]
    if length > 1 and len(set(part)) == 1:
        yield _line(place, f"{part[0]:02x} x {length}", name)
    else:
        yield _line(place, part.hex(" "), name)


def _event_fields(event):
    kind = KINDS[event.kind]

    def shown(name, show=_number):
        return show if name in kind.parts or name in kind.counts else _unused

    marked = event.again is not None
    return (
        (layout.KIND, "kind", lambda n, _: f"{n}: {event.kind}"),
        (layout.SEAT, "seat", shown("seat")),
        (layout.CABLE, "cable", shown("cable")),
        (layout.END, "end", shown("end")),
        (layout.TRAY, "tray", shown("tray")),
        (layout.MARK, "mark for counter overflow:", shown("again")),
        (layout.COUNT, "count in ms:", shown("count")),
        (layout.AGAIN, "count taken again:", _number if marked else _unused),
        (layout.AMOUNT, "amount in ms:", shown("amount", lambda n, _: str(event.amount))),
    )
