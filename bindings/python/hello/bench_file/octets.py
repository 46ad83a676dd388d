"""A bench file as octets, and back."""

from __future__ import annotations

from typing import Any

from . import layout
from .faults import Fault, in_range
from .file import FIRST_YEAR, KINDS, MARKS, MOST_CABLES, MOST_EVENTS, MOST_LINKS, MOST_SEATS
from .file import Cable, Event, File, Seat

AWAITED = 0x8000
"""The bit of a date word that setting afresh sets, whatever it was."""
PART_FIELDS = {
    "seat": layout.SEAT,
    "cable": layout.CABLE,
    "end": layout.END,
    "tray": layout.TRAY,
}


def to_octets(file: File) -> bytes:
    """The octets of a file; raises Fault if answers 18 and 19 would refuse them."""
    file.test()
    counts = (len(file.seats), len(file.cables), len(file.events))
    sections = layout.sections(*counts)
    header = bytearray(layout.HEADER_LENGTH)
    for field, number in zip(
        (layout.SEAT_COUNT, layout.CABLE_COUNT, layout.EVENT_COUNT), counts, strict=True
    ):
        field.put(header, number)
    layout.CABLES_START.put(header, sections.cables)
    layout.EVENTS_START.put(header, sections.events)
    return b"".join(
        (
            bytes(header),
            *map(_seat_record, file.seats),
            *map(_cable_record, file.cables),
            *map(_event_record, file.events),
        )
    )


def _seat_record(seat):
    record = bytearray(layout.SEAT_LENGTH)
    year, month, day = seat.date
    for field, number in (
        (layout.LOCAL_ADDRESS, int.from_bytes(bytes(seat.address), "big")),
        (layout.ADDRESS_OFFSET, seat.offset),
        (layout.CLOCK_HOST, seat.clock_host),
        (layout.NHOSTS, seat.nhosts),
        (layout.HOLD_INTERVAL, seat.hold),
        (layout.DATE, month << 10 | day << 5 | year - FIRST_YEAR),
        (layout.TIME, seat.time),
        (layout.CLOCK_TICK, seat.tick),
        (layout.LINK_COUNT, len(seat.links)),
    ):
        field.put(record, number)
    for slot, neighbor in enumerate(seat.links):
        if neighbor is not None:
            place = link_place(slot)
            layout.SWITCH.behind(place).put(record, 1)
            number = int.from_bytes(bytes(neighbor), "big")
            layout.NEIGHBOR_ADDRESS.behind(place).put(record, number)
    for id in (seat.own_id(), *seat.also):
        record[layout.MARKS.at + id] = 1
    return bytes(record)


def link_place(slot):
    """Where the link of a slot stands in its seat's record; link 1 is in slot 0."""
    return layout.LINKS.at + layout.LINK_LENGTH * slot


def _cable_record(cable):
    record = bytearray(layout.CABLE_LENGTH)
    for end, (seat, link) in enumerate(cable.ends):
        place = layout.END_LENGTH * end
        layout.END_SEAT.behind(place).put(record, seat)
        layout.END_LINK.behind(place).put(record, link)
    return bytes(record)


def _event_record(event):
    record = bytearray(layout.EVENT_LENGTH)
    layout.KIND.put(record, KINDS[event.kind].number)
    for part, field in PART_FIELDS.items():
        number = getattr(event, part)
        if number is not None:
            field.put(record, number)
    if event.amount is not None:
        layout.AMOUNT.put(record, event.amount % 2**32)
    layout.COUNT.put(record, event.count)
    if event.again is not None:
        layout.MARK.put(record, 1)
        layout.AGAIN.put(record, event.again)
    return bytes(record)


def from_octets(octets: bytes) -> File:
    """The file of these octets; raises Fault if answers 18 and 19 would refuse them.

    What no rule looks at is left out: numbers that an event's kind has no use for, links above a
    seat's count, the address of a point-to-point link, bit 15 of a date.
    """
    starts = sections(octets)
    seats = _records(octets, "seat", layout.HEADER_LENGTH, starts.cables, layout.SEAT_LENGTH)
    cables = _records(octets, "cable", starts.cables, starts.events, layout.CABLE_LENGTH)
    events = _records(octets, "event", starts.events, starts.end, layout.EVENT_LENGTH)
    seats = tuple(_read(*record, _seat) for record in seats)
    links = [len(seat.links) for seat in seats]
    cables = tuple(_read(*record, _cable, links) for record in cables)
    events = tuple(_read(*record, _event, len(seats), len(cables)) for record in events)
    file = File(seats, cables, events)
    file.test()
    return file


def sections(octets: bytes) -> layout.Sections:
    """Where the sections start, by a header that answer 18 takes."""
    if len(octets) < layout.HEADER_LENGTH:
        raise Fault(f"there are {len(octets)} octets: the header alone has {layout.HEADER_LENGTH}")
    counts = [
        in_range(f"octet {field.at}: the number of {what}", field.of(octets), 0, most)
        for what, field, most in (
            ("seats", layout.SEAT_COUNT, MOST_SEATS),
            ("cables", layout.CABLE_COUNT, MOST_CABLES),
            ("events", layout.EVENT_COUNT, MOST_EVENTS),
        )
    ]
    right = layout.sections(*counts)
    for what, field, start in (
        ("cables", layout.CABLES_START, right.cables),
        ("events", layout.EVENTS_START, right.events),
    ):
        if field.of(octets) != start:
            raise Fault(
                f"octet {field.at}: the {what} are said to start at octet {field.of(octets):,}, and"
                f" start at {start:,}"
            )
    if len(octets) != right.end:
        raise Fault(f"the file has {len(octets):,} octets: by its header it has {right.end:,}")
    return right


def _records(octets, what, start, end, length):
    """Each record with its name and its place."""
    return [
        (f"{what} {number}, at octet {place:,}", octets[place : place + length])
        for number, place in enumerate(range(start, end, length))
    ]


def _read(where, record, read, *given):
    try:
        return read(record, *given)
    except Fault as fault:
        raise Fault(f"{where}: {fault}") from None


def _seat(record):
    marks = layout.MARKS.part(record)
    if any(mark > 1 for mark in marks):
        id = next(id for id in range(MARKS) if marks[id] > 1)
        raise Fault(f"the mark of id {id} is {marks[id]}: a mark is 0 or 1")
    date = layout.DATE.of(record) & ~AWAITED
    count = in_range("the number of links", layout.LINK_COUNT.of(record), 1, MOST_LINKS)
    seat = Seat(
        address=tuple(layout.LOCAL_ADDRESS.part(record)),
        nhosts=layout.NHOSTS.of(record),
        offset=layout.ADDRESS_OFFSET.of(record),
        clock_host=layout.CLOCK_HOST.of(record),
        hold=layout.HOLD_INTERVAL.of(record),
        date=(FIRST_YEAR + (date & 31), date >> 10, date >> 5 & 31),
        time=layout.TIME.of(record),
        tick=layout.CLOCK_TICK.of(record),
        links=_links(record, count),
        also=frozenset(id for id in range(MARKS) if marks[id]),
    )
    seat.test()
    if seat.own_id() not in seat.also:
        raise Fault(f"the own id {seat.own_id()} is not marked")
    return seat._replace(also=seat.also - {seat.own_id()})


def _links(record, count):
    links = []
    for slot in range(count):
        place = link_place(slot)
        switch = layout.SWITCH.behind(place).of(record)
        if switch > 1:
            raise Fault(f"the switch of link {slot + 1} is {switch}: it is 0 or 1")
        neighbor = tuple(layout.NEIGHBOR_ADDRESS.behind(place).part(record))
        links.append(neighbor if switch else None)
    return tuple(links)


def _cable(record, links):
    ends = []
    for end in range(2):
        place = layout.END_LENGTH * end
        seat = layout.END_SEAT.behind(place).of(record)
        ends.append((seat, layout.END_LINK.behind(place).of(record)))
    cable = Cable(tuple(ends))
    cable.test(links)
    return cable


def _event(record, seats, cables):
    number = layout.KIND.of(record)
    name = next((name for name, kind in KINDS.items() if kind.number == number), None)
    if name is None:
        raise Fault(f"there is no kind {number}: kinds are 1 to {len(KINDS)}")
    kind = KINDS[name]
    parts: dict[str, Any] = {part: field.of(record) for part, field in PART_FIELDS.items() if part in kind.parts}
    if "amount" in kind.parts:
        parts["amount"] = int.from_bytes(layout.AMOUNT.part(record), "big", signed=True)
    if "count" in kind.counts:
        parts["count"] = layout.COUNT.of(record)
    if "again" in kind.counts:
        mark = layout.MARK.of(record)
        if mark > 1:
            raise Fault(f"the mark for counter overflow is {mark}: it is 0 or 1")
        parts["again"] = layout.AGAIN.of(record) if mark else None
    event = Event(name, **parts)
    event.test(seats, cables)
    return event
