"""Where each number of a bench file stands: the one place of this package that says so.

A field is the place of its first octet in the record, and how many octets it has; all numbers are
high octet first.
"""

from __future__ import annotations

from typing import NamedTuple


class Field(NamedTuple):
    """A number in a record."""

    at: int
    octets: int

    def of(self, record: bytes) -> int:
        """The number in a record."""
        return int.from_bytes(self.part(record), "big")

    def part(self, record: bytes) -> bytes:
        """The octets in a record."""
        return record[self.at : self.at + self.octets]

    def put(self, record: bytearray, number: int) -> None:
        """Puts a number there."""
        record[self.at : self.at + self.octets] = number.to_bytes(self.octets, "big")

    def behind(self, place: int) -> Field:
        """The same number in a record that starts there."""
        return Field(place + self.at, self.octets)


HEADER_LENGTH = 20
SEAT_COUNT = Field(0, 4)
CABLE_COUNT = Field(4, 4)
EVENT_COUNT = Field(8, 4)
CABLES_START = Field(12, 4)
EVENTS_START = Field(16, 4)

SEAT_LENGTH = 321
LOCAL_ADDRESS = Field(0, 4)
ADDRESS_OFFSET = Field(4, 1)
CLOCK_HOST = Field(5, 1)
NHOSTS = Field(6, 2)
HOLD_INTERVAL = Field(8, 2)
DATE = Field(10, 2)
TIME = Field(12, 4)
CLOCK_TICK = Field(16, 8)
LINK_COUNT = Field(24, 1)
LINKS = Field(25, 40)
LINK_LENGTH = 5
SWITCH = Field(0, 1)
NEIGHBOR_ADDRESS = Field(1, 4)
MARKS = Field(65, 256)

CABLE_LENGTH = 4
END_LENGTH = 2
END_SEAT = Field(0, 1)
END_LINK = Field(1, 1)

EVENT_LENGTH = 14
KIND = Field(0, 1)
SEAT = Field(1, 1)
CABLE = Field(2, 1)
END = Field(3, 1)
TRAY = Field(4, 1)
MARK = Field(5, 1)
COUNT = Field(6, 2)
AGAIN = Field(8, 2)
AMOUNT = Field(10, 4)


class Sections(NamedTuple):
    """Where the sections of a file start, and where it ends."""

    cables: int
    events: int
    end: int


def sections(seats: int, cables: int, events: int) -> Sections:
    """The sections of a file with that many records of each sort."""
    cables_start = HEADER_LENGTH + SEAT_LENGTH * seats
    events_start = cables_start + CABLE_LENGTH * cables
    return Sections(cables_start, events_start, events_start + EVENT_LENGTH * events)
