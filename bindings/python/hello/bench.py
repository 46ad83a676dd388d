"""The class bench: an exercise in one file, set up and run, with all the state that its calls borrow."""

from __future__ import annotations

from typing import SupportsIndex

from . import library
from .answer import Answer
from .state import BenchHosts, ClassTable, Clock, HostTable, Links, Progress, Walk
from .structures import fitting, octets_of
from .values import EVENTS, HOSTS, LONGEST_MESSAGE, PLACES, SLOT_LABEL, SLOT_LENGTH, SLOTS
from .values import Entry, Ran, Slot

_EVENT_COUNT = slice(8, 12)
"""Where a file's header has the number of its events."""


class Bench:
    """A bench, with room for any file; docs/BENCH.md describes files, bench_file makes them.

    file       the octets of the file, which both calls test completely. Another one may take its
               place, and finds the hosts as they are
    net_table  the net table of the class, a ClassTable, which the calls borrow: its NHOSTS is that of
               every host of the file, else the answer is ABSENT
    entries    the host table with the hosts' entries
    """

    def __init__(self, file: bytes, net_table: ClassTable) -> None:
        self.file = file
        self.net_table = net_table
        self.entries = HostTable(HOSTS * PLACES)
        self._hosts = BenchHosts(HOSTS)
        self._copies = bytearray(HOSTS * LONGEST_MESSAGE)
        self._slots = bytearray(SLOTS * SLOT_LENGTH)
        self._answers = bytearray(EVENTS)
        self._progress = Progress()

    @property
    def file(self) -> bytes:
        return self._file

    @file.setter
    def file(self, octets: bytes) -> None:
        self._file = octets_of(octets, "file")

    def __repr__(self) -> str:
        return f"Bench(events={self.events}, done={self.done}, nhosts={self.net_table.nhosts})"

    def __eq__(self, other: object) -> bool:
        if not isinstance(other, Bench):
            return NotImplemented
        return self._borrowed() == other._borrowed()

    __hash__ = None  # type: ignore[assignment]

    def _borrowed(self) -> tuple[bytes, ClassTable, BenchHosts, bytearray, HostTable, bytearray, bytearray, Progress]:
        return (
            self._file,
            self.net_table,
            self._hosts,
            self._copies,
            self.entries,
            self._slots,
            self._answers,
            self._progress,
        )

    def set_up(self) -> Answer:
        """Initializes all hosts of the file, each by its record; slots, answers and the number of
        events done are then zero. Answers HEADER, ABSENT and OUT_OF_RANGE change nothing."""
        return Answer(library.bench_set_up(*self._borrowed()))

    def run(self, allowance: SupportsIndex = EVENTS) -> Ran:
        """Carries out the next events in order, at most `allowance`, until the file ends: a Ran. The
        answers HEADER, ABSENT and OUT_OF_RANGE change nothing."""
        answer, count = library.bench_run(*self._borrowed(), allowance)
        return Ran(Answer(answer), count)

    @property
    def done(self) -> int:
        """How many events are done. Put back to 0, the next run begins with the file's first event."""
        return self._progress.done

    @done.setter
    def done(self, count: int) -> None:
        self._progress.done = count

    @property
    def events(self) -> int:
        """How many events the file has, by its header."""
        return int.from_bytes(self._file[_EVENT_COUNT], "big")

    @property
    def answers(self) -> tuple[Answer, ...]:
        """The Answers of the events that are done."""
        return tuple(Answer(number) for number in self._answers[: self.done])

    def host(self, number: SupportsIndex) -> BenchHost:
        """The host of that number, from 0, as it is: a BenchHost."""
        return BenchHost(self, fitting("number", number, 0, HOSTS - 1))

    @property
    def slots(self) -> tuple[Slot, ...]:
        """The 32 Slots."""
        starts = range(0, SLOTS * SLOT_LENGTH, SLOT_LENGTH)
        return tuple(_slot(self._slots[start : start + SLOT_LENGTH]) for start in starts)


class BenchHost:
    """A host of a bench: its clock, links, walk and table, in their places. What is written there
    counts from the next run on."""

    def __init__(self, bench: Bench, number: int) -> None:
        self._bench = bench
        self.number = number

    @property
    def clock(self) -> Clock:
        """Its Clock."""
        return self._bench._hosts.clock(self.number)

    @property
    def links(self) -> Links:
        """Its Links."""
        return self._bench._hosts.links(self.number)

    @property
    def walk(self) -> Walk:
        """Its Walk. No event opens one."""
        return self._bench._hosts.walk(self.number, self._bench._copies)

    @property
    def table(self) -> list[Entry]:
        """Its entries, one for each id."""
        start = self.number * PLACES
        ids = range(min(self._bench.net_table.nhosts, PLACES))
        return [self._bench.entries[start + id] for id in ids]


def _slot(octets: bytearray) -> Slot:
    length = int.from_bytes(octets[:2], "big")
    return Slot(bytes(octets[SLOT_LABEL : SLOT_LABEL + length]), octets[2], octets[3])
