"""The plain calls of the library, by ctypes. Each call on a host borrows settings, the table of the class,
number, clock, links, walk and the host table. Those of the tutor, net_afresh and so on, borrow the table of
the class alone; those of a bench its file, the table of the class, and all that it keeps.

They return the number of an Answer, and values beside it.
"""

from __future__ import annotations

import ctypes
from ctypes import POINTER, c_char_p, c_int32, c_size_t, c_uint8, c_uint16
from typing import Any, Iterable, Optional, SupportsIndex

from .loader import Function
from .state import BenchHosts, ClassTable, Clock, HostTable, Links, Progress, Settings, Walk, address_of
from .structures import CAddress, CBenchHost, CBenchProgress, CBenchRan, CClassTable, CClock, CCounter
from .structures import CEntry, CInspected, CLinks, CNet, CNetAdded, CRoute, CSent, CSettings, CStepped
from .structures import CTime, CWalk, fitting, into, octets_of
from .structures import number as fitting_number
from .values import LINE_CLOCK, Address, AddressLike, Counter, Place

_HOST = (
    POINTER(CSettings),
    POINTER(CClassTable),
    c_size_t,
    POINTER(CClock),
    POINTER(CLinks),
    POINTER(CWalk),
    POINTER(c_uint8),
    c_size_t,
    POINTER(CEntry),
    c_size_t,
)


_INITIALIZE = Function("hello_initialize", c_uint8, *_HOST)
_TICK = Function("hello_tick", c_uint8, *_HOST, c_uint16)
_ADJUST = Function("hello_adjust", c_uint8, *_HOST, c_uint16)
_SET = Function("hello_set", c_uint8, *_HOST, c_int32, c_uint16)
_READ = Function("hello_read", CTime, *_HOST, CCounter)
_SECOND = Function("hello_second", c_uint8, *_HOST)
_SELF_REPORT = Function("hello_self_report", c_uint8, *_HOST, CCounter)
_SEND = Function("hello_send", CSent, *_HOST, c_size_t, CCounter, POINTER(c_uint8), c_size_t)
_INSPECT = Function("hello_inspect", CInspected, *_HOST, c_size_t, c_char_p, c_size_t)
_ARRIVING = (c_size_t, CCounter, c_char_p, c_size_t)
_ACT = Function("hello_act", c_uint8, *_HOST, *_ARRIVING)
_RECEIVE = Function("hello_receive", c_uint8, *_HOST, *_ARRIVING)
_OPEN_WALK = Function("hello_open_walk", CStepped, *_HOST, c_size_t, c_char_p, c_size_t)
_STEP = Function("hello_step", CStepped, *_HOST, CCounter)
_LOOKUP = Function("hello_lookup", CRoute, *_HOST, CAddress)
_NET_AFRESH = Function("hello_net_afresh", c_uint8, POINTER(CClassTable), c_size_t)
_NET_ADD = Function("hello_net_add", CNetAdded, POINTER(CClassTable), CNet, c_size_t)
_NET_REMOVE = Function("hello_net_remove", c_uint8, POINTER(CClassTable), c_size_t)
_NET_CHANGE = Function("hello_net_change", c_uint8, POINTER(CClassTable), c_size_t, c_size_t)
_OCTETS = (POINTER(c_uint8), c_size_t)
_BENCH = (
    c_char_p,
    c_size_t,
    POINTER(CClassTable),
    POINTER(CBenchHost),
    c_size_t,
    *_OCTETS,
    POINTER(CEntry),
    c_size_t,
    *_OCTETS,
    *_OCTETS,
    POINTER(CBenchProgress),
)
_BENCH_SET_UP = Function("hello_bench_set_up", c_uint8, *_BENCH)
_BENCH_RUN = Function("hello_bench_run", CBenchRan, *_BENCH, c_size_t)
_DATE = Function("hello_date", c_uint16, c_uint16, c_uint16, c_uint16)
_PACKET = Function("hello_packet", c_uint8, c_char_p, c_size_t)
_CHECKSUM = Function("hello_checksum", c_uint16, c_char_p, c_size_t)
_CHECKSUM_PLAIN = Function("hello_checksum_plain", c_uint16, c_char_p, c_size_t)


def _checked(*borrowed: tuple[str, Any, type]) -> None:
    """That each thing borrowed, by its name, is of its kind."""
    for name, value, kind in borrowed:
        if not isinstance(value, kind):
            raise TypeError(f"{name} must be a {kind.__name__}")


def _borrowed(
    settings: Settings, table: ClassTable, number: SupportsIndex, clock: Clock, links: Links, walk: Walk, entries: HostTable
) -> tuple[Any, ...]:
    """The arguments that all calls on a host share. Lengths are those of the memory itself, whatever a subclass says."""
    _checked(
        ("settings", settings, Settings),
        ("table", table, ClassTable),
        ("clock", clock, Clock),
        ("links", links, Links),
        ("walk", walk, Walk),
        ("entries", entries, HostTable),
    )
    return (
        ctypes.byref(settings._state),
        ctypes.byref(table._state),
        fitting_number(c_size_t, "number", number),
        ctypes.byref(clock._state),
        ctypes.byref(links._state),
        ctypes.byref(walk._state),
        walk._copy,
        min(walk._room, len(walk._copy)),
        entries._state,
        len(entries._state) - 1,
    )


def _link(link: SupportsIndex) -> int:
    return fitting_number(c_size_t, "link", link)


def _count(count: SupportsIndex) -> int:
    return fitting_number(c_uint16, "count", count)


def _counter(counter: Counter) -> Any:
    return into(CCounter, "counter", counter)


def _given(octets: Any, name: str) -> tuple[bytes, int]:
    """A copy of a bytes-like object, and its length."""
    copied = octets_of(octets, name)
    return copied, len(copied)


def buffer_of(buffer: Any) -> tuple[Any, int]:
    """The writable, contiguous buffer as a C array, and its length."""
    length = memoryview(buffer).nbytes
    if length == 0:
        return (c_uint8 * 1)(), 0
    return (c_uint8 * length).from_buffer(buffer), length


def initialize(
    settings: Settings, table: ClassTable, number: SupportsIndex, clock: Clock, links: Links, walk: Walk, entries: HostTable,
) -> int:
    """Initializes host `number` by its settings: the clock, all links, the first NHOSTS entries.

    Each entry gets the mark of its id. A walk is dropped.
    """
    return _INITIALIZE(*_borrowed(settings, table, number, clock, links, walk, entries))


def tick(
    settings: Settings, table: ClassTable, number: SupportsIndex, clock: Clock, links: Links, walk: Walk, entries: HostTable,
    count: SupportsIndex = 0,
) -> int:
    """Adds CLOCK-TICK to the clock.

    Midnight is tested on CLOCK plus the crystal's count; so also in adjust and set.
    """
    return _TICK(*_borrowed(settings, table, number, clock, links, walk, entries), _count(count))


def ticks(
    settings: Settings, table: ClassTable, number: SupportsIndex, clock: Clock, links: Links, walk: Walk, entries: HostTable,
    times: SupportsIndex, count: SupportsIndex = 0,
) -> int:
    """`times` ticks in a row, at least one: the answer of the last, which is that of each."""
    borrowed = _borrowed(settings, table, number, clock, links, walk, entries)
    count = _count(count)
    for _ in range(fitting("times", times, 1, 1 << 32)):
        answer = _TICK(*borrowed, count)
    return answer


def adjust(
    settings: Settings, table: ClassTable, number: SupportsIndex, clock: Clock, links: Links, walk: Walk, entries: HostTable,
    count: SupportsIndex = 0,
) -> int:
    """Moves the clock by DELTA / 128, rounded down, which DELTA loses."""
    return _ADJUST(*_borrowed(settings, table, number, clock, links, walk, entries), _count(count))


def set(
    settings: Settings, table: ClassTable, number: SupportsIndex, clock: Clock, links: Links, walk: Walk, entries: HostTable,
    ms: SupportsIndex, count: SupportsIndex = 0,
) -> int:
    """Corrects the clock by `ms`, signed 32 bits: -128 to +127 becomes DELTA, else at once."""
    borrowed = _borrowed(settings, table, number, clock, links, walk, entries)
    return _SET(*borrowed, fitting_number(c_int32, "ms", ms), _count(count))


def read(
    settings: Settings, table: ClassTable, number: SupportsIndex, clock: Clock, links: Links, walk: Walk, entries: HostTable,
    counter: Counter = LINE_CLOCK,
) -> tuple[int, int, int]:
    """The integer milliseconds of CLOCK plus the count, and the DATE word: answer, time, date.

    What a mark adds to the clock stays, and midnight is tested on the sum; so at every reading.
    """
    time = _READ(*_borrowed(settings, table, number, clock, links, walk, entries), _counter(counter))
    return time.answer, time.time, time.date


def second(
    settings: Settings, table: ClassTable, number: SupportsIndex, clock: Clock, links: Links, walk: Walk, entries: HostTable,
) -> int:
    """A second has passed: HOLD and each TTL fall by one; an entry whose TTL ends goes down."""
    return _SECOND(*_borrowed(settings, table, number, clock, links, walk, entries))


def self_report(
    settings: Settings, table: ClassTable, number: SupportsIndex, clock: Clock, links: Links, walk: Walk, entries: HostTable,
    counter: Counter = LINE_CLOCK,
) -> int:
    """Updates the entry of each marked id with PID 0, DELAY 0 and OFFSET 0, at the time of one reading."""
    return _SELF_REPORT(*_borrowed(settings, table, number, clock, links, walk, entries), _counter(counter))


def send(
    settings: Settings, table: ClassTable, number: SupportsIndex, clock: Clock, links: Links, walk: Walk, entries: HostTable,
    link: SupportsIndex, buffer: bytearray, counter: Counter = LINE_CLOCK,
) -> tuple[int, int]:
    """Writes the next message of link `link`, from 1, to the front of a buffer: answer, length.

    A message has 32 octets, or with the host table 32 + 4 NHOSTS. Octets after it stay. The clock
    is read once, as by read, unless it answers 1, 2, 12 or 16.
    """
    borrowed = _borrowed(settings, table, number, clock, links, walk, entries)
    octets, length = buffer_of(buffer)
    sent = _SEND(*borrowed, _link(link), _counter(counter), octets, length)
    return sent.answer, sent.length


def inspect(
    settings: Settings, table: ClassTable, number: SupportsIndex, clock: Clock, links: Links, walk: Walk, entries: HostTable,
    link: SupportsIndex, packet: bytes,
) -> tuple[int, Address, int, int, int]:
    """Looks at a packet, IP header first, that arrived on link `link`, from 1: would it be taken,
    and what does it say? Nothing is changed: answer, source, time, tsp, nhosts.
    """
    borrowed = _borrowed(settings, table, number, clock, links, walk, entries)
    returned = _INSPECT(*borrowed, _link(link), *_given(packet, "packet"))
    return returned.answer, address_of(returned.source), returned.time, returned.tsp, returned.nhosts


def _arriving(link: SupportsIndex, counter: Counter, packet: bytes) -> tuple[Any, ...]:
    """The arguments of a packet that arrived on a link."""
    return _link(link), _counter(counter), *_given(packet, "packet")


def act(
    settings: Settings, table: ClassTable, number: SupportsIndex, clock: Clock, links: Links, walk: Walk, entries: HostTable,
    link: SupportsIndex, packet: bytes, counter: Counter = LINE_CLOCK,
) -> int:
    """Acts on a packet, IP header first, that arrived on link `link`, from 1.

    Any calls may have come since inspect, so it tests the packet again. Unless it answers 1 to 9,
    12 or 16, it reads the clock, and what the reading did stays, also at 10 and 11.
    """
    return _ACT(*_borrowed(settings, table, number, clock, links, walk, entries), *_arriving(link, counter, packet))


def receive(
    settings: Settings, table: ClassTable, number: SupportsIndex, clock: Clock, links: Links, walk: Walk, entries: HostTable,
    link: SupportsIndex, packet: bytes, counter: Counter = LINE_CLOCK,
) -> int:
    """An arrival in one piece: inspect and, if that answers 0, act."""
    borrowed = _borrowed(settings, table, number, clock, links, walk, entries)
    return _RECEIVE(*borrowed, *_arriving(link, counter, packet))


def _place(next: Any) -> Optional[Place]:
    """The next place of a walk, or None."""
    if next.step == 0:
        return None
    return Place(next.step, "abcd"[next.line - 1] if next.line else "", next.id)


def open_walk(
    settings: Settings, table: ClassTable, number: SupportsIndex, clock: Clock, links: Links, walk: Walk, entries: HostTable,
    link: SupportsIndex, packet: bytes,
) -> tuple[int, Optional[Place]]:
    """Opens a walk for a packet, IP header first, that arrived on link `link`, from 1: the packet is
    copied, and step 1 is next. Nothing else is changed: answer, place.
    """
    borrowed = _borrowed(settings, table, number, clock, links, walk, entries)
    returned = _OPEN_WALK(*borrowed, _link(link), *_given(packet, "packet"))
    return returned.answer, _place(returned)


def step(
    settings: Settings, table: ClassTable, number: SupportsIndex, clock: Clock, links: Links, walk: Walk, entries: HostTable,
    counter: Counter = LINE_CLOCK,
) -> tuple[int, Optional[Place]]:
    """Makes the changes of the place that the walk is at: answer, next place.

    Step 1 reads the clock, as by read; at the other places the counter is not looked at.
    """
    returned = _STEP(*_borrowed(settings, table, number, clock, links, walk, entries), _counter(counter))
    return returned.answer, _place(returned)


def lookup(
    settings: Settings, table: ClassTable, number: SupportsIndex, clock: Clock, links: Links, walk: Walk, entries: HostTable,
    address: AddressLike,
) -> tuple[int, int, int]:
    """The id of `address`, and the link by which it is reached: answer, id, pid."""
    borrowed = _borrowed(settings, table, number, clock, links, walk, entries)
    route = _LOOKUP(*borrowed, into(CAddress, "address", address))
    return route.answer, route.id, route.pid


def _table(table: ClassTable) -> Any:
    """The class's table that a call of the tutor's borrows."""
    _checked(("table", table, ClassTable))
    return ctypes.byref(table._state)


def _row(row: SupportsIndex) -> int:
    return fitting_number(c_size_t, "row", row)


def _id(id: SupportsIndex) -> int:
    return fitting_number(c_size_t, "id", id)


def net_afresh(table: ClassTable, nhosts: SupportsIndex) -> int:
    """Initializes the class's table, with this NHOSTS and without rows."""
    return _NET_AFRESH(_table(table), fitting_number(c_size_t, "nhosts", nhosts))


def net_add(table: ClassTable, net: Iterable[int], id: SupportsIndex) -> tuple[int, int]:
    """Adds a row at the end: answer, the row's number."""
    added = _NET_ADD(_table(table), into(CNet, "net", net), _id(id))
    return added.answer, added.row


def net_remove(table: ClassTable, row: SupportsIndex) -> int:
    """Removes the row of that number, from 1; those after it move up."""
    return _NET_REMOVE(_table(table), _row(row))


def net_change(table: ClassTable, row: SupportsIndex, id: SupportsIndex) -> int:
    """Changes the host id of the row of that number, from 1; its net stays."""
    return _NET_CHANGE(_table(table), _row(row), _id(id))


def _bench(
    file: bytes, table: ClassTable, hosts: BenchHosts, copies: bytearray, entries: HostTable, slots: bytearray, answers: bytearray,
    progress: Progress,
) -> tuple[Any, ...]:
    """The arguments that both calls of a bench share; copies, slots and answers are writable
    buffers."""
    _checked(("hosts", hosts, BenchHosts), ("entries", entries, HostTable), ("progress", progress, Progress))
    return (
        *_given(file, "file"),
        _table(table),
        hosts._state,
        len(hosts._state) - 1,
        *buffer_of(copies),
        entries._state,
        len(entries._state) - 1,
        *buffer_of(slots),
        *buffer_of(answers),
        ctypes.byref(progress._state),
    )


def bench_set_up(
    file: bytes, table: ClassTable, hosts: BenchHosts, copies: bytearray, entries: HostTable, slots: bytearray, answers: bytearray,
    progress: Progress,
) -> int:
    """Initializes all hosts of a bench file; slots, answers and the events done become zero."""
    return _BENCH_SET_UP(*_bench(file, table, hosts, copies, entries, slots, answers, progress))


def bench_run(
    file: bytes, table: ClassTable, hosts: BenchHosts, copies: bytearray, entries: HostTable, slots: bytearray, answers: bytearray,
    progress: Progress, allowance: SupportsIndex,
) -> tuple[int, int]:
    """Carries out the next events of a bench file, at most `allowance`: answer, how many they were."""
    borrowed = _bench(file, table, hosts, copies, entries, slots, answers, progress)
    ran = _BENCH_RUN(*borrowed, fitting_number(c_size_t, "allowance", allowance))
    return ran.answer, ran.count


def packet(octets: bytes) -> int:
    """The answer of the fresh host 192.0.2.1 to a packet on its one point-to-point link."""
    return _PACKET(*_given(octets, "octets"))


def checksum(octets: bytes) -> int:
    """The internet checksum (RFC 1071) of a bytes-like object."""
    return _CHECKSUM(*_given(octets, "octets"))


def checksum_plain(octets: bytes) -> int:
    """The same, worked out two octets at a time: the plain way, which takes longer."""
    return _CHECKSUM_PLAIN(*_given(octets, "octets"))


def date(year: SupportsIndex, month: SupportsIndex, day: SupportsIndex) -> int:
    """The DATE word of a calendar day, with bit 15 zero; ValueError if there is no such day from 1 January 1972 to
    31 December 2003."""
    names = (("year", year), ("month", month), ("day", day))
    word: int = _DATE(*(fitting_number(c_uint16, name, value) for name, value in names))
    if word == 0:
        raise ValueError(f"{year}-{month}-{day} is no day from 1972-01-01 to 2003-12-31")
    return word
