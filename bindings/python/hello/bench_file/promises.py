"""What an exercise promises at a place among its events; no octet of the file says it."""

from __future__ import annotations

from typing import Mapping, NamedTuple, Optional, Sequence, Union

DOWN = 30_000
"""The DELAY of an entry that is down."""


class Entry(NamedTuple):
    """An entry of a host table."""

    delay: int
    offset: int
    ttl: int
    pid: int


class Compared(NamedTuple):
    """A value as it is promised and as it is; `actual` is None if there is no such entry."""

    field: str
    expected: int
    actual: Optional[int]

    @property
    def right(self) -> bool:
        """Whether the two are equal."""
        return self.expected == self.actual


class Held(NamedTuple):
    """That a seat's entry has these numbers; None for one of which nothing is promised."""

    line: int
    after: int
    seat: int
    host: int
    delay: Optional[int] = None
    offset: Optional[int] = None
    ttl: Optional[int] = None
    pid: Optional[int] = None

    def compared(self, tables: Mapping[tuple[int, int], Optional[Entry]]) -> list[Compared]:
        """Each number that is promised, beside the one in the table.

        `tables` gives the Entry of (seat, host), or None if the table has no such host."""
        entry = tables[self.seat, self.host]
        return [
            Compared(name.upper(), getattr(self, name), entry and getattr(entry, name))
            for name in Entry._fields
            if getattr(self, name) is not None
        ]

    def broken(self, tables: Mapping[tuple[int, int], Entry], answers: Sequence[int]) -> Optional[str]:
        """What is otherwise, in words; None if the promise is kept.

        `answers` are those of the events done."""
        wrong = [
            f"{each.field} is {each.actual:,}, not {each.expected:,}"
            for each in self.compared(tables)
            if not each.right
        ]
        if not wrong:
            return None
        return f"after {self.after} events, seat {self.seat}, host {self.host}: {'; '.join(wrong)}"


class Least(NamedTuple):
    """That the least DELAY of a host in the tables of these seats is this number."""

    line: int
    after: int
    host: int
    delay: int
    seats: tuple[int, ...]

    def compared(self, tables: Mapping[tuple[int, int], Optional[Entry]]) -> list[Compared]:
        """The least DELAY as it is promised, beside the one in the tables."""
        entries = [tables[seat, self.host] for seat in self.seats]
        delays = [entry.delay for entry in entries if entry]
        return [Compared("least DELAY", self.delay, min(delays, default=None))]

    def broken(self, tables: Mapping[tuple[int, int], Entry], answers: Sequence[int]) -> Optional[str]:
        """What is otherwise, in words; None if the promise is kept."""
        (least,) = self.compared(tables)
        if least.right:
            return None
        return (
            f"after {self.after} events, host {self.host}: the least DELAY is {least.actual:,},"
            f" not {self.delay:,}"
        )


class Answered(NamedTuple):
    """That the event just before was answered so."""

    line: int
    after: int
    answer: int

    def broken(self, tables: Mapping[tuple[int, int], Entry], answers: Sequence[int]) -> Optional[str]:
        """What is otherwise, in words; None if the promise is kept."""
        answer = answers[self.after - 1]
        if answer == self.answer:
            return None
        return f"event {self.after - 1} was answered {answer}, not {self.answer}"


Promise = Union[Answered, Held, Least]
