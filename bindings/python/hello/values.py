"""Plain values: what is set, what a call borrows and what it returns, as named tuples."""

from __future__ import annotations

import ipaddress
from typing import Iterable, NamedTuple, Optional, Union

from .answer import Answer

PLACES = 255
"""The entries of the host table that one host owns."""
HOSTS = 16
"""The hosts that one host table can hold."""
LINKS = 8
"""The links that a host can have."""
ROWS = 32
"""The rows that a net table can have."""
MARKS = 256
"""The ids that can be marked, from 0."""
NO_CLOCK_HOST = 255
"""The clock host's id if clock setting is off."""
UNITS_PER_MS = 65_536
"""Clock units to a millisecond."""
LONGEST_MESSAGE = 32 + 4 * PLACES
"""The octets of the longest message, with the table of 255 hosts."""
EVENTS = 2_048
"""The events that a bench file can have."""
SLOTS = 32
"""The slots of a bench."""
SLOT_LABEL = 4
"""The octets before a slot's packet: its length, high octet first, the cable and the end."""
SLOT_LENGTH = SLOT_LABEL + LONGEST_MESSAGE
"""The octets of a slot."""


class Address(NamedTuple):
    """An internet address, first octet first. Its str is "192.0.2.1"."""

    first: int = 0
    second: int = 0
    third: int = 0
    fourth: int = 0

    def __str__(self) -> str:
        return ".".join(map(str, self))

    @property
    def ip(self) -> ipaddress.IPv4Address:
        """The same as an address of the module ipaddress."""
        return ipaddress.IPv4Address(bytes(self))


AddressLike = Union[str, ipaddress.IPv4Address, Iterable[int]]
"""What is taken for an address: "192.0.2.1", an IPv4Address, or four octets."""


def address(given: AddressLike) -> Address:
    """The address; ValueError if a text is none or there are not four octets."""
    if isinstance(given, str):
        given = ipaddress.IPv4Address(given)
    if isinstance(given, ipaddress.IPv4Address):
        given = given.packed
    octets = tuple(given)
    if len(octets) != 4:
        raise ValueError(f"an address has {len(octets)} octets, and must have 4")
    return Address(*octets)


class LinkSetting(NamedTuple):
    """The setting of one link: broadcast or point-to-point, and NEIGHBOR-ADDRESS if broadcast."""

    broadcast: bool = False
    neighbor: Address = Address()


class Net(NamedTuple):
    """The number of a net; class A has two zeros after its first octet; classes B and C have all three octets."""

    first: int = 0
    second: int = 0
    third: int = 0


class Row(NamedTuple):
    """A row of the net table: a net and the id of the host through which it is reached."""

    net: Net = Net()
    id: int = 0


class Counter(NamedTuple):
    """What a reading is handed of a crystal's counter of 1,000 Hz.

    count     the count in ms, 0 to 65,535
    overflow  the mark: the counter has overflowed, and there has been no tick for that yet. The
              reading makes it, and uses the count taken again
    again     the count taken again after the overflow; without the mark not looked at
    """

    count: int = 0  # type: ignore[assignment]
    overflow: bool = False
    again: int = 0


LINE_CLOCK = Counter()
"""What a line clock, which has no counter, hands in."""


class Link(NamedTuple):
    """A link's state: NEIGHBOR-ADDRESS, KEEP-ALIVE (0 to 4), TSP (ms)."""

    neighbor: Address = Address()
    keep_alive: int = 0
    tsp: int = 0


class Entry(NamedTuple):
    """An entry: DELAY (ms), OFFSET (ms), TTL (s), PID (link), the mark of the id as the settings have
    it (1 lives here, 0 does not), time of update (ms)."""

    delay: int = 0
    offset: int = 0
    ttl: int = 0
    pid: int = 0
    here: int = 0
    time: int = 0


class Added(NamedTuple):
    """What adding a row to the net table answers: the answer, and the row's number, from 1 (0 when
    refused)."""

    answer: Answer
    row: int


class Sent(NamedTuple):
    """What a send answers: the answer, and the message (empty when refused)."""

    answer: Answer
    message: bytes


class Route(NamedTuple):
    """What a lookup answers: the answer, and id and link (0 when refused)."""

    answer: Answer
    id: int
    pid: int


class Time(NamedTuple):
    """What a reading answers: the answer, and ms and the DATE word (0 when refused)."""

    answer: Answer
    time: int
    date: int


class Inspected(NamedTuple):
    """What an inspection answers: the answer, and of a packet that passes source, time (ms), TSP
    (as an unsigned number) and NHOSTS (0 when refused)."""

    answer: Answer
    source: Address
    time: int
    tsp: int
    nhosts: int


class Place(NamedTuple):
    """A place in a walk: a step of the arrival, 1 to 5; in step 5, after its own box, the line of
    a host's update, "a" to "d", and the host's id. Its str is "step 4" or "host 3, line b"."""

    step: int
    line: str = ""
    host: int = 0

    def __str__(self) -> str:
        return f"host {self.host}, line {self.line}" if self.line else f"step {self.step}"


class Stepped(NamedTuple):
    """What the opening of a walk and a step of it answer: the answer, and the next place (None when
    refused, and where no place is left)."""

    answer: Answer
    place: Optional[Place]


class Slot(NamedTuple):
    """A slot of a bench: the packet (empty where it was never filled), the cable, and the end, 0 or 1,
    that the packet was sent from."""

    packet: bytes
    cable: int
    end: int


class Ran(NamedTuple):
    """What a run of a bench answers: the answer, and how many events it carried out (0 when
    refused)."""

    answer: Answer
    count: int  # type: ignore[assignment]
