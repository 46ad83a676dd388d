"""The text of a bench file: of a seat what is not the default, an event that is repeated as one line."""

from __future__ import annotations

import itertools
from typing import Callable

from .file import KINDS, UNITS_PER_MS, Cable, Event, File, Seat, dotted
from .reader import SEAT_DEFAULTS, SEAT_PARTS


SEAT_WORDS = {part: word for word, part in SEAT_PARTS.items()}


def to_text(file: File) -> str:
    """The text; reading it gives the file again, and that file's text is this one."""
    nhosts = file.seats[0].nhosts if file.seats else 0
    sections = (
        [f"nhosts {nhosts}"] if nhosts not in (0, len(file.seats)) else [],
        [seat_line(number, seat, file.cables) for number, seat in enumerate(file.seats)],
        [f"cable {written_ends(cable)}" for cable in file.cables],
        [event_line(event, len(list(same))) for event, same in itertools.groupby(file.events)],
    )
    return "\n".join("".join(f"{line}\n" for line in lines) for lines in sections if lines)


def seat_line(number: int, seat: Seat, cables: tuple[Cable, ...]) -> str:
    """The line of a seat."""
    words = ["seat", dotted(seat.address)]
    written: tuple[tuple[str, Callable[..., str]], ...] = (
        ("offset", str),
        ("clock_host", str),
        ("hold", str),
        ("date", written_date),
        ("time", written_time),
        ("tick", written_tick),
    )
    for name, word in written:
        value = getattr(seat, name)
        if value != SEAT_DEFAULTS[name]:
            words += [SEAT_WORDS.get(name, name), word(value)]
    broadcast = {link: at for link, at in enumerate(seat.links, 1) if at is not None}
    named = [link for cable in cables for at, link in cable.ends if at == number]
    if len(seat.links) != max([1, *named, *broadcast]):
        words += ["links", str(len(seat.links))]
    if broadcast:
        words += ["broadcast", ",".join(f"{link}={dotted(at)}" for link, at in broadcast.items())]
    if seat.also:
        words += ["also", ",".join(map(str, sorted(seat.also)))]
    return " ".join(words)


def written_date(date: tuple[int, int, int]) -> str:
    """A date as it is written."""
    return "{:04}-{:02}-{:02}".format(*date)


def written_time(time: int) -> str:
    """A time of day as it is written."""
    seconds, ms = divmod(time, 1_000)
    minutes, seconds = divmod(seconds, 60)
    word = f"{minutes // 60:02}:{minutes % 60:02}:{seconds:02}"
    return f"{word}.{ms:03}" if ms else word


def written_tick(units: int) -> str:
    """A CLOCK-TICK as it is written."""
    ms, rest = divmod(units, UNITS_PER_MS)
    return f"{units}/{UNITS_PER_MS}" if rest else str(ms)


def written_ends(cable: Cable) -> str:
    """The ends of a cable as they are written."""
    return " ".join(f"{seat}.{link}" for seat, link in cable.ends)


def event_line(event: Event, times: int) -> str:
    """The line of an event that is carried out `times` times."""
    words = [event.kind]
    for part in KINDS[event.kind].parts:
        if part not in ("seat", "amount"):
            words.append(part)
        words.append(str(getattr(event, part)))
    if event.count:
        words += ["count", str(event.count)]
    if event.again is not None:
        words += ["again", str(event.again)]
    if times > 1:
        words += ["times", str(times)]
    return " ".join(words)
