"""What is wrong with a file, in words."""

from __future__ import annotations


class Fault(ValueError):
    """Something is wrong: what, and what would be right."""


class Wrong(ValueError):
    """A text with wrong lines: `faults` has the number of each, and what is wrong with it."""

    def __init__(self, faults: list[tuple[int, str]]) -> None:
        super().__init__("\n".join(f"line {line}: {fault}" for line, fault in faults))
        self.faults = faults


def in_range(what: str, number: int, least: int, most: int) -> int:
    """The number, if it is in its range."""
    if least <= number <= most:
        return number
    raise Fault(f"{what} {number:,} is out of range: it is {least:,} to {most:,}")


def there(what: str, number: int, count: int, numbered_from: int = 0) -> int:
    """The number of something, if the file has one of that number."""
    if numbered_from <= number < numbered_from + count:
        return number
    raise Fault(f"{what} {number} is not there: {known(what, count, numbered_from)}")


def known(what: str, count: int, numbered_from: int = 0) -> str:
    """Which ones there are, in words."""
    last = numbered_from + count - 1
    if count == 0:
        return f"the file has no {what}s"
    if count == 1:
        return f"there is {what} {numbered_from} alone"
    return f"there are {what}s {numbered_from} to {last}"
