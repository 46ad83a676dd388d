"""A bench file in parts, and which values of them a bench takes (answers 18 and 19)."""

from __future__ import annotations

import calendar
from typing import NamedTuple, Optional, Sequence

from .faults import Fault, in_range, there

MOST_SEATS = 16
MOST_CABLES = 32
MOST_EVENTS = 2_048
TRAYS = 32
MOST_LINKS = 8
MOST_HOSTS = 255
MARKS = 256
CLOCK_SETTING_OFF = 255
UNITS_PER_MS = 65_536
LONGEST_TICK = 65_536 * UNITS_PER_MS
DAY = 86_400_000
FIRST_YEAR = 1972
LAST_YEAR = 2003
MOST_COUNT = 65_535
LEAST_AMOUNT, MOST_AMOUNT = -(2**31), 2**31 - 1


class Seat(NamedTuple):
    """The settings of a seat.

    address     LOCAL-ADDRESS, four octets
    offset      ADDRESS-OFFSET
    clock_host  an id, or 255: clock setting is off
    hold        HOLD-INTERVAL in seconds
    date        year, month, day
    time        the starting time in ms
    tick        CLOCK-TICK in units
    links       for each, None where it is point-to-point, else the NEIGHBOR-ADDRESS that is set
    also        the ids of further hosts that live here, beside the own one
    """

    address: tuple[int, ...]
    nhosts: int
    offset: int
    clock_host: int
    hold: int
    date: tuple[int, int, int]
    time: int
    tick: int
    links: tuple[Optional[tuple[int, ...]], ...]
    also: frozenset[int]

    def own_id(self) -> int:
        """The id that LOCAL-ADDRESS gives, which may be out of range."""
        return self.address[2 if self.address[0] < 128 else 3] - self.offset

    def test(self) -> None:
        """Finds fault with settings that answer 1 refuses."""
        if not 1 <= self.address[0] <= 223:
            raise Fault(f"the address {dotted(self.address)} begins with no octet from 1 to 223")
        in_range("NHOSTS", self.nhosts, 1, MOST_HOSTS)
        in_range("ADDRESS-OFFSET", self.offset, 0, 255)
        if not 0 <= self.own_id() < self.nhosts:
            raise Fault(
                f"the address {dotted(self.address)} gives the id {self.own_id()}, its host octet less"
                f" {self.offset}, and NHOSTS is {self.nhosts}: {ids(self.nhosts)}"
            )
        if self.clock_host != CLOCK_SETTING_OFF and self.clock_host >= self.nhosts:
            raise Fault(f"the clock host {self.clock_host} is not there: {ids(self.nhosts)}")
        in_range("HOLD-INTERVAL", self.hold, 1, 255)
        in_range("CLOCK-TICK, in units,", self.tick, 1, LONGEST_TICK)
        in_range("the starting time, in ms,", self.time, 0, DAY - 1)
        test_date(self.date)
        in_range("the number of links", len(self.links), 1, MOST_LINKS)
        for id in sorted(self.also):
            if not 0 <= id < self.nhosts:
                raise Fault(f"host {id} lives here, and is not there: {ids(self.nhosts)}")


def ids(nhosts: int) -> str:
    """Which ids there are."""
    return "the one id is 0" if nhosts == 1 else f"ids are 0 to {nhosts - 1}"


def dotted(address: Sequence[int]) -> str:
    """An address as it is written."""
    return ".".join(map(str, address))


def last_day(year: int, month: int) -> int:
    """The last day of a month."""
    return calendar.monthrange(year, month)[1]


def test_date(date: tuple[int, int, int]) -> None:
    """Finds fault with a date that is not real."""
    year, month, day = date
    real = FIRST_YEAR <= year <= LAST_YEAR and 1 <= month <= 12 and 1 <= day <= last_day(year, month)
    if not real:
        raise Fault(
            f"the date {year}-{month:02}-{day:02} is no day from {FIRST_YEAR}-01-01 to"
            f" {LAST_YEAR}-12-31"
        )


class Cable(NamedTuple):
    """A cable by its two ends, each the number of a seat and of its link."""

    ends: tuple[tuple[int, int], ...]

    def test(self, links: Sequence[int]) -> None:
        """Finds fault with an end that is not there; `links` has each seat's number of them."""
        for seat, link in self.ends:
            there("seat", seat, len(links))
            there(f"seat {seat}'s link", link, links[seat], 1)


class Event(NamedTuple):
    """An event, with what its kind has a use for.

    kind    a name of KINDS
    amount  the milliseconds of a set
    count   what a crystal's counter shows
    again   the count taken again after the counter has overflowed, or None: it has not
    """

    kind: str
    seat: Optional[int] = None
    cable: Optional[int] = None
    end: Optional[int] = None
    tray: Optional[int] = None
    amount: Optional[int] = None
    count: int = 0  # type: ignore[assignment]
    again: Optional[int] = None

    def test(self, seats: int, cables: int) -> None:
        """Finds fault with what is not there, in a file with that many seats and cables."""
        if self.seat is not None:
            there("seat", self.seat, seats)
        if self.cable is not None:
            there("cable", self.cable, cables)
        if self.end is not None:
            there("end", self.end, 2)
        if self.tray is not None:
            there("tray", self.tray, TRAYS)
        if self.amount is not None:
            in_range("the set's amount", self.amount, LEAST_AMOUNT, MOST_AMOUNT)
        in_range("the count", self.count, 0, MOST_COUNT)
        if self.again is not None:
            in_range("the count taken again", self.again, 0, MOST_COUNT)


class Kind(NamedTuple):
    """A kind of event: its number, the parts that it names, and whether it takes a count, and one
    again."""

    number: int
    parts: tuple[str, ...]
    counts: tuple[str, ...]


READS = ("count", "again")
KINDS = {
    "tick": Kind(1, ("seat",), ("count",)),
    "adjust": Kind(2, ("seat",), ("count",)),
    "set": Kind(3, ("seat", "amount"), ("count",)),
    "second": Kind(4, ("seat",), ()),
    "self-report": Kind(5, ("seat",), READS),
    "send": Kind(6, ("cable", "end", "tray"), READS),
    "arrival": Kind(7, ("tray",), READS),
}


class File(NamedTuple):
    """An exercise: all seats have one NHOSTS, that of the class's table."""

    seats: tuple[Seat, ...]
    cables: tuple[Cable, ...]
    events: tuple[Event, ...]

    def test(self) -> None:
        """Finds fault with what answers 18 and 19 refuse."""
        for what, records, most in (
            ("seats", self.seats, MOST_SEATS),
            ("cables", self.cables, MOST_CABLES),
            ("events", self.events, MOST_EVENTS),
        ):
            if len(records) > most:
                raise Fault(f"there are {len(records):,} {what}: a file has {most:,} at most")
        if len({seat.nhosts for seat in self.seats}) > 1:
            raise Fault("the seats differ in NHOSTS: all have that of the class's table")
        for seat in self.seats:
            seat.test()
        for cable in self.cables:
            cable.test([len(seat.links) for seat in self.seats])
        for event in self.events:
            event.test(len(self.seats), len(self.cables))
