"""What the calls borrow and change: settings, the class's table, clock, links, walk, the host table; for a
bench the states of its hosts and its progress.

All of them compare by value, print what they have, and can be copied and pickled."""

from __future__ import annotations

import operator
from ctypes import c_size_t, c_uint8
from typing import Any, Iterable, Iterator, SupportsIndex, TypeVar, overload

from .structures import CAddress, CBenchHost, CBenchProgress, CClassTable, CClock, CEntry, CLink
from .structures import CLinks, CSettings, CWalk
from .structures import Part, fitting, into, into_slots, number, octets_of
from .values import LINKS, LONGEST_MESSAGE, MARKS, NO_CLOCK_HOST, UNITS_PER_MS
from .values import Address, AddressLike, Entry, Link, LinkSetting, Net, Row


FIRST_DATE = 1 << 10 | 1 << 5
"""The DATE word of 1 January 1972."""


def address_of(c: Any) -> Address:
    """The address in a C structure."""
    return Address(c.first, c.second, c.third, c.fourth)


class State:
    """A C structure with its parts as attributes. `_PARTS` names them, in an order to write them in."""

    __slots__ = ("_state",)
    _PARTS: tuple[str, ...] = ()
    _state: Any

    def _blank(self) -> State:
        """Another object of the kind and size, all zero."""
        made = type(self).__new__(type(self))
        made._state = type(self._state)()
        return made

    def _values(self) -> tuple[Any, ...]:
        return tuple(getattr(self, name) for name in self._PARTS)

    def __eq__(self, other: object) -> bool:
        if not isinstance(other, State) or type(self) is not type(other):
            return NotImplemented
        return self._values() == other._values()

    __hash__ = None  # type: ignore[assignment]

    def __repr__(self) -> str:
        parts = ", ".join(f"{name}={value!r}" for name, value in zip(self._PARTS, self._values()))
        return f"{type(self).__name__}({parts})"

    def __copy__(self) -> State:
        made = self._blank()
        made.__setstate__(self._values())
        return made

    def __deepcopy__(self, memo: Any) -> State:
        return self.__copy__()

    def __getstate__(self) -> Any:
        return self._values()

    def __setstate__(self, values: Any) -> None:
        for name, value in zip(self._PARTS, values):
            setattr(self, name, value)

    def __reduce__(self) -> Any:
        return _restored, (type(self), self._size(), self.__getstate__())

    def _size(self) -> int:
        """What __init__ needs to know of the size, for those that have one."""
        return 0

    @classmethod
    def _of_size(cls, size: int) -> Any:
        raise NotImplementedError


_Kind = TypeVar("_Kind", bound=State)


def _restored(kind: type[_Kind], size: int, values: Any) -> _Kind:
    """The object that was pickled."""
    made: _Kind = kind._of_size(size)
    made.__setstate__(values)
    return made


class AddressPart:
    """The address at a field of a structure: an Address, written from whatever is taken for one."""

    def __init__(self, name: str) -> None:
        self._name = name

    @overload
    def __get__(self, instance: None, owner: Any) -> AddressPart: ...
    @overload
    def __get__(self, instance: State, owner: Any) -> Address: ...
    def __get__(self, instance: Any, owner: Any) -> Any:
        return self if instance is None else address_of(getattr(instance._state, self._name))

    def __set__(self, instance: State, value: AddressLike) -> None:
        setattr(instance._state, self._name, into(CAddress, self._name, value))


class Settings(State):
    """The settings of a host. With one outside its range, calls on the host answer SETTING.

    address         LOCAL-ADDRESS, as "192.0.2.1", an IPv4Address or four octets: first octet 1 to 223; gives
                    an id below NHOSTS
    address_offset  ADDRESS-OFFSET, 0 to 255: an id is the host octet less this number
    nhosts          NHOSTS, that of the class's table: ids are 0 to NHOSTS - 1
    clock_host      id of the host that sets the clock, below NHOSTS; 255: clock setting is off
    hold_interval   HOLD-INTERVAL, 1 to 255 s
    clock_tick      CLOCK-TICK, up to 65,536 ms: 1 to 4,294,967,296 units of 1/65,536 ms
    time            starting time, 0 to 86,399,999 ms
    date            starting date, a real one, by hello.date
    links           LinkSettings, link 1 first; link_count, 1 to 8, becomes their count
    marks           the ids, 0 to 255, whose hosts live here: the own one and any others below
                    NHOSTS; at first the own one alone
    """

    __slots__ = ()
    _PARTS = (
        "address",
        "address_offset",
        "nhosts",
        "clock_host",
        "hold_interval",
        "clock_tick",
        "time",
        "date",
        "links",
        "link_count",
        "marks",
    )

    def __init__(
        self,
        address: AddressLike,
        address_offset: SupportsIndex,
        nhosts: SupportsIndex,
        clock_host: SupportsIndex = NO_CLOCK_HOST,
        hold_interval: SupportsIndex = 1,
        clock_tick: SupportsIndex = UNITS_PER_MS,
        time: SupportsIndex = 0,
        date: SupportsIndex = FIRST_DATE,
        links: Iterable[LinkSetting] = (LinkSetting(),),
        marks: Iterable[SupportsIndex] | None = None,
    ) -> None:
        self._state = CSettings()
        self.address = address
        self.address_offset = address_offset
        self.nhosts = nhosts
        self.clock_host = clock_host
        self.hold_interval = hold_interval
        self.clock_tick = clock_tick
        self.time = time
        self.date = date
        self._set_links(links)
        self._set_marks(self._own_id() if marks is None else marks)

    @classmethod
    def _of_size(cls, size: int) -> Settings:
        return cls(Address(), 0, 0)

    address = AddressPart("address")
    address_offset = Part("layout", "address_offset")
    nhosts = Part("layout", "nhosts")
    clock_host = Part("clock_host")
    hold_interval = Part("hold_interval")
    clock_tick = Part("clock_tick")
    time = Part("time")
    date = Part("date")
    link_count = Part("link_count")

    @property
    def links(self) -> tuple[LinkSetting, ...]:
        """All eight slots."""
        return tuple(
            LinkSetting(c.broadcast.value == 1, address_of(c.neighbor)) for c in self._state.links
        )

    @links.setter
    def links(self, values: Iterable[LinkSetting]) -> None:
        self._set_links(values)

    def _set_links(self, values: Iterable[LinkSetting]) -> None:
        values = tuple(values)
        into_slots(self._state.links, "links", values)
        self.link_count = len(values)

    @property
    def marks(self) -> frozenset[int]:
        """The marked ids, as a frozenset."""
        words = self._state.marks.words
        return frozenset(id for id in range(MARKS) if words[id // 64] >> id % 64 & 1)

    @marks.setter
    def marks(self, ids: Iterable[SupportsIndex]) -> None:
        self._set_marks(ids)

    def _set_marks(self, ids: Iterable[SupportsIndex]) -> None:
        new = [0] * (MARKS // 64)
        for given in ids:
            id = fitting("a mark's id", given, 0, MARKS - 1)
            new[id // 64] |= 1 << id % 64
        self._state.marks.words[:] = new

    def _own_id(self) -> Iterable[int]:
        """The id that the address gives, alone, or nothing if it gives none."""
        octet = self.address.third if self.address.first < 128 else self.address.fourth
        return {octet - self.address_offset} if octet >= self.address_offset else ()


class ClassTable(State):
    """The table of a class, which all its hosts use: its NHOSTS, and the rows of the net table.

    nhosts  NHOSTS, 1 to 255: that of every host's settings
    count   how many rows are used, 0 to 32
    slots   the 32 Rows, of which the first `count` are used; when it is written, `count` becomes that
            of the new ones
    """

    __slots__ = ()
    _PARTS = ("nhosts", "slots", "count")

    def __init__(self, nhosts: SupportsIndex, rows: Iterable[Row] = ()) -> None:
        self._state = CClassTable()
        self.nhosts = nhosts
        self._set_slots(rows)

    @classmethod
    def _of_size(cls, size: int) -> ClassTable:
        return cls(0)

    nhosts = Part("nhosts")
    count = Part("net", "count")

    @property
    def slots(self) -> tuple[Row, ...]:
        """All 32 of them."""
        return tuple(
            Row(Net(c.net.first, c.net.second, c.net.third), c.id) for c in self._state.net.rows
        )

    @slots.setter
    def slots(self, values: Iterable[Row]) -> None:
        self._set_slots(values)

    def _set_slots(self, values: Iterable[Row]) -> None:
        values = tuple(values)
        into_slots(self._state.net.rows, "rows", values)
        self.count = len(values)

    @property
    def rows(self) -> tuple[Row, ...]:
        """The Rows that are used; rows[0] is number 1."""
        return self.slots[: self.count]


class Clock(State):
    """A host's clock.

    clock  CLOCK, -65,535 to 86,400,000 ms, in units of 1/65,536 ms
    delta  DELTA, -128 to +127 ms, in units of 1/65,536 ms
    hold   HOLD, 0 to 255 s
    date   the DATE word: bits 0-4 year less 1972, 5-9 day, 10-13 month, 14 zero, 15 one while a
           master's date is awaited
    """

    __slots__ = ()
    _PARTS = ("clock", "delta", "hold", "date")

    def __init__(
        self, clock: SupportsIndex = 0, delta: SupportsIndex = 0, hold: SupportsIndex = 0, date: SupportsIndex = 0
    ) -> None:
        self._state = CClock()
        self.clock = clock
        self.delta = delta
        self.hold = hold
        self.date = date

    @classmethod
    def _of_size(cls, size: int) -> Clock:
        return cls()

    clock = Part("clock")
    delta = Part("delta")
    hold = Part("hold")
    date = Part("date")


class Links(State):
    """The states of a host's eight link slots: links[0] is link 1. Its members are Links."""

    __slots__ = ()

    def __init__(self, values: Iterable[Link] = ()) -> None:
        self._state = CLinks()
        into_slots(self._state.all, "links", values)

    @classmethod
    def _of_size(cls, size: int) -> Links:
        return cls()

    def __len__(self) -> int:
        return LINKS

    def __iter__(self) -> Iterator[Link]:
        return (self[index] for index in range(LINKS))

    def __getitem__(self, index: SupportsIndex) -> Link:
        c = self._state.all[operator.index(index)]
        return Link(address_of(c.neighbor), c.keep_alive, c.tsp)

    def __setitem__(self, index: SupportsIndex, value: Link) -> None:
        self._state.all[operator.index(index)] = into(CLink, "link", value)

    def _values(self) -> tuple[Link, ...]:
        return tuple(self)

    def __setstate__(self, values: Any) -> None:
        into_slots(self._state.all, "links", values)

    def __repr__(self) -> str:
        return f"{type(self).__name__}({list(self)!r})"


class Walk(State):
    """A walk, at first closed: the state of an arrival between two of its boxes, and the copy of its packet.
    Only an open walk is looked at, and of it only what its place needs.

    opened   any number but 0: a walk is open
    link     the link on which the packet arrived, from 1
    step     the next place: step 1 to 5
    line     in step 5, after its own box, line 1 to 4 for (a) to (d); else 0
    id       the host id of a line, below NHOSTS
    length   the octets of the packet, at the start of the copy
    count    from step 1 on: the count that was used, ms
    reading  from step 1 on: our reading, 0 to 86,400,000 ms
    delay    from step 3 on: DELAY, ms; line (c) is to store one of 100 to 29,999
    offset   from step 3 on: OFFSET, ms
    copy     the octets of the copy, LONGEST_MESSAGE unless another size is given
    """

    __slots__ = ("_copy", "_room")
    _PARTS = (
        "opened",
        "link",
        "step",
        "line",
        "id",
        "length",
        "count",
        "reading",
        "delay",
        "offset",
        "copy",
    )
    _copy: Any
    _room: int

    def __init__(self, room: SupportsIndex = LONGEST_MESSAGE) -> None:
        self._state = CWalk()
        self._room = number(c_size_t, "room", room)
        # One octet more than the room says, so that an empty copy has an address too.
        self._copy = (c_uint8 * (self._room + 1))()

    @classmethod
    def _of_size(cls, size: int) -> Walk:
        return cls(size)

    def _size(self) -> int:
        return self._room

    def _blank(self) -> Walk:
        return type(self)(self._room)

    opened = Part("opened")
    link = Part("link")
    step = Part("step")
    line = Part("line")
    id = Part("id")
    length = Part("length")
    count = Part("count")
    reading = Part("reading")
    delay = Part("delay")
    offset = Part("offset")

    @property
    def copy(self) -> bytes:
        """The octets of the copy."""
        return bytes(self._copy)[: self._room]

    @copy.setter
    def copy(self, octets: bytes) -> None:
        octets = octets_of(octets, "copy")
        if len(octets) != self._room:
            raise ValueError(f"copy has {len(octets)} octets, and must have {self._room}")
        self._copy[: self._room] = octets


class HostTable(State):
    """The entries of all hosts, at first all zero: host k owns table[255 k] to table[255 k + 254]."""

    __slots__ = ()

    def __init__(self, length: SupportsIndex) -> None:
        # One entry more than the length says, so that an empty table has an address too.
        self._state = (CEntry * (number(c_size_t, "length", length) + 1))()

    @classmethod
    def _of_size(cls, size: int) -> HostTable:
        return cls(size)

    def _size(self) -> int:
        return len(self._state) - 1

    def _blank(self) -> HostTable:
        return type(self)(self._size())

    def __len__(self) -> int:
        return self._size()

    def __iter__(self) -> Iterator[Entry]:
        return (self[index] for index in range(self._size()))

    def __getitem__(self, index: SupportsIndex) -> Entry:
        c = self._state[self._place(index)]
        return Entry(c.delay, c.offset, c.ttl, c.pid, c.here, c.time)

    def __setitem__(self, index: SupportsIndex, value: Entry) -> None:
        self._state[self._place(index)] = into(CEntry, "entry", value)

    def _place(self, index: SupportsIndex) -> int:
        """The index counted from the first."""
        return range(self._size())[operator.index(index)]

    def _values(self) -> tuple[Entry, ...]:
        return tuple(self)

    def __setstate__(self, values: Any) -> None:
        for index, value in enumerate(values):
            self[index] = value

    def __repr__(self) -> str:
        return f"{type(self).__name__}({self._size()})"


class BenchHosts(State):
    """The states of a bench's hosts, at first all zero."""

    __slots__ = ()

    def __init__(self, length: SupportsIndex) -> None:
        # One slot more than the length says, so that no hosts have an address too.
        self._state = (CBenchHost * (number(c_size_t, "length", length) + 1))()

    @classmethod
    def _of_size(cls, size: int) -> BenchHosts:
        return cls(size)

    def _size(self) -> int:
        return len(self._state) - 1

    def _blank(self) -> BenchHosts:
        return type(self)(self._size())

    def __len__(self) -> int:
        return self._size()

    def clock(self, index: SupportsIndex) -> Clock:
        """The Clock of a host, which is read and written in its place."""
        return _in_place(Clock, self._of(index).clock)

    def links(self, index: SupportsIndex) -> Links:
        """The Links of a host, in their place."""
        return _in_place(Links, self._of(index).links)

    def walk(self, index: SupportsIndex, copies: bytearray) -> Walk:
        """The Walk of a host, in its place; `copies` is the bytearray of all hosts' copies."""
        walk = _in_place(Walk, self._of(index).walk)
        place = operator.index(index) * LONGEST_MESSAGE
        walk._copy = (c_uint8 * LONGEST_MESSAGE).from_buffer(copies, place)
        walk._room = LONGEST_MESSAGE
        return walk

    def _of(self, index: SupportsIndex) -> Any:
        return self._state[range(self._size())[operator.index(index)]]

    def _values(self) -> tuple[Any, ...]:
        spare = bytearray(self._size() * LONGEST_MESSAGE)
        return tuple(
            (self.clock(k)._values(), self.links(k)._values(), self.walk(k, spare)._values()) for k in range(self._size())
        )

    def __setstate__(self, values: Any) -> None:
        spare = bytearray(self._size() * LONGEST_MESSAGE)
        for k, (clock, links, walk) in enumerate(values):
            self.clock(k).__setstate__(clock)
            self.links(k).__setstate__(links)
            self.walk(k, spare).__setstate__(walk)

    def __repr__(self) -> str:
        return f"{type(self).__name__}({self._size()})"


def _in_place(kind: type[_Kind], state: Any) -> _Kind:
    """A state over a part of another one's memory."""
    made = kind.__new__(kind)
    made._state = state
    return made


class Progress(State):
    """How far a bench is: `done`, the number of events that are done."""

    __slots__ = ()
    _PARTS = ("done",)

    def __init__(self, done: SupportsIndex = 0) -> None:
        self._state = CBenchProgress()
        self.done = done

    @classmethod
    def _of_size(cls, size: int) -> Progress:
        return cls()

    done = Part("done")
