"""A room of hosts that share one host table and one net table, with the calls as methods of a host."""

from __future__ import annotations

import operator
from typing import SupportsIndex

from . import library
from .answer import Answer
from .state import Clock, HostTable, Links, Settings, Walk
from .net_table import NetTable
from .structures import fitting
from .values import HOSTS, LINE_CLOCK, LONGEST_MESSAGE, PLACES
from .values import AddressLike, Counter, Entry, Inspected, Route, Sent, Stepped, Time


class Room:
    """A room of hosts, 16 at most, in a class of that NHOSTS.

    entries    the host table with the entries of them all
    net_table  the net table of the class, which all of them use: a NetTable, at first without rows
    """

    def __init__(self, hosts: SupportsIndex, nhosts: SupportsIndex) -> None:
        self.entries = HostTable(fitting("hosts", hosts, 0, HOSTS) * PLACES)
        self.net_table = NetTable(nhosts)

    def host(self, number: SupportsIndex, settings: Settings) -> Host:
        """The host of that number, from 0, with these settings; still to be initialized."""
        return Host(self, number, settings)

    def __repr__(self) -> str:
        return f"Room(hosts={len(self.entries) // PLACES}, nhosts={self.net_table.nhosts})"

    def __eq__(self, other: object) -> bool:
        if not isinstance(other, Room):
            return NotImplemented
        return self.entries == other.entries and self.net_table == other.net_table

    __hash__ = None  # type: ignore[assignment]


class Host:
    """A host of a room: its number, settings, clock, links and walk. Each call gives an Answer.

    A host with a crystal clock hands the Counter to each call that reads the clock, and its count
    to tick, adjust and set; without them the clock is a line clock. What a reading does to the
    clock stays, also at DELAY_NOT_VALID and NO_HOST.

    While a walk is open, all calls except step and initialize answer IN_WALK.
    """

    def __init__(self, room: Room, number: SupportsIndex, settings: Settings) -> None:
        self.room = room
        self.number = operator.index(number)
        self.settings = settings
        self.clock = Clock()
        self.links = Links()
        self.walk = Walk()

    def __repr__(self) -> str:
        return f"Host(number={self.number}, address={str(self.settings.address)!r})"

    def __eq__(self, other: object) -> bool:
        if not isinstance(other, Host):
            return NotImplemented
        return self._borrowed() == other._borrowed()

    __hash__ = None  # type: ignore[assignment]

    def _borrowed(self) -> tuple[Settings, NetTable, int, Clock, Links, Walk, HostTable]:
        room = self.room
        return self.settings, room.net_table, self.number, self.clock, self.links, self.walk, room.entries

    @property
    def table(self) -> list[Entry]:
        """The host's entries, one for each id."""
        start = self.number * PLACES
        return [self.room.entries[start + id] for id in range(min(self.settings.nhosts, PLACES))]

    def initialize(self) -> Answer:
        """Initializes the host by its settings: clock, links and table. A walk is dropped."""
        return Answer(library.initialize(*self._borrowed()))

    def tick(self, count: SupportsIndex = 0) -> Answer:
        """Adds CLOCK-TICK to the clock. Midnight is tested on CLOCK plus the count."""
        return Answer(library.tick(*self._borrowed(), count))

    def ticks(self, times: SupportsIndex, count: SupportsIndex = 0) -> Answer:
        """`times` ticks in a row, at least one: the Answer of the last, which is that of each."""
        return Answer(library.ticks(*self._borrowed(), times, count))

    def adjust(self, count: SupportsIndex = 0) -> Answer:
        """Moves the clock by DELTA / 128, rounded down, which DELTA loses."""
        return Answer(library.adjust(*self._borrowed(), count))

    def set(self, ms: SupportsIndex, count: SupportsIndex = 0) -> Answer:
        """Corrects the clock by `ms`, signed 32 bits: -128 to +127 becomes DELTA, else at once."""
        return Answer(library.set(*self._borrowed(), ms, count))

    def read(self, counter: Counter = LINE_CLOCK) -> Time:
        """The integer milliseconds of CLOCK plus the count, and the DATE word, as a Time."""
        answer, time, date = library.read(*self._borrowed(), counter)
        return Time(Answer(answer), time, date)

    def second(self) -> Answer:
        """A second has passed: HOLD and each TTL fall by one; an entry whose TTL ends goes down."""
        return Answer(library.second(*self._borrowed()))

    def self_report(self, counter: Counter = LINE_CLOCK) -> Answer:
        """Updates the entries of the hosts that live here, the marked ids: PID 0, DELAY 0, OFFSET 0."""
        return Answer(library.self_report(*self._borrowed(), counter))

    def send(self, link: SupportsIndex, counter: Counter = LINE_CLOCK) -> Sent:
        """The next message of link `link`, from 1, as a Sent."""
        buffer = bytearray(LONGEST_MESSAGE)
        answer, length = self.send_into(link, buffer, counter)
        return Sent(answer, bytes(buffer[:length]))

    def send_into(self, link: SupportsIndex, buffer: bytearray, counter: Counter = LINE_CLOCK) -> tuple[Answer, int]:
        """Writes that message to the front of a writable buffer: its answer and its length."""
        answer, length = library.send(*self._borrowed(), link, buffer, counter)
        return Answer(answer), length

    def inspect(self, link: SupportsIndex, packet: bytes) -> Inspected:
        """Looks at a packet, IP header first, that arrived on link `link`, from 1: an Inspected.

        Nothing is changed. Of a packet that passes, act may still answer DELAY_NOT_VALID or NO_HOST.
        """
        answer, source, time, tsp, nhosts = library.inspect(*self._borrowed(), link, packet)
        return Inspected(Answer(answer), source, time, tsp, nhosts)

    def act(self, link: SupportsIndex, packet: bytes, counter: Counter = LINE_CLOCK) -> Answer:
        """Acts on a packet, IP header first, that arrived on link `link`, from 1.

        Any calls may have come since inspect, so it tests the packet again.
        """
        return Answer(library.act(*self._borrowed(), link, packet, counter))

    def receive(self, link: SupportsIndex, packet: bytes, counter: Counter = LINE_CLOCK) -> Answer:
        """An arrival in one piece: inspect and, if that is DONE, act."""
        return Answer(library.receive(*self._borrowed(), link, packet, counter))

    def open_walk(self, link: SupportsIndex, packet: bytes) -> Stepped:
        """Opens a walk for a packet, IP header first, that arrived on link `link`, from 1: a Stepped.

        The packet is copied, and step 1 is next. Nothing else is changed.
        """
        answer, place = library.open_walk(*self._borrowed(), link, packet)
        return Stepped(Answer(answer), place)

    def step(self, counter: Counter = LINE_CLOCK) -> Stepped:
        """Makes the changes of the place that the walk is at: the next one, as a Stepped.

        At the end there is no next place, and the state is that after act with the counter of step 1.
        At the later places the counter is not looked at. DELAY_NOT_VALID and NO_HOST end a walk too.
        """
        answer, place = library.step(*self._borrowed(), counter)
        return Stepped(Answer(answer), place)

    def lookup(self, address: AddressLike) -> Route:
        """The id of `address`, and the link by which it is reached, as a Route."""
        answer, id, pid = library.lookup(*self._borrowed(), address)
        return Route(Answer(answer), id, pid)
