"""The room as it stands as a bench file: its seats and cables, and the list of its calls as events.

A call that has no event ends the file before it, unless it has changed nothing: that one is left out.
"""

import json
from typing import NamedTuple, Optional

from hello.bench_file import Cable, Event, File, Seat
from hello.bench_file.file import CLOCK_SETTING_OFF, MOST_EVENTS, TRAYS

from ..answers import ANSWERS
from ..setup import FIRST_DAY, HOLD_INTERVAL, address_of, links_of, tick_of

EVENTS = {
    "tick": "tick",
    "adjust": "adjust",
    "set": "set",
    "second": "second",
    "self_report": "self-report",
    "send": "send",
    "act": "arrival",
    "receive": "arrival",
}
ARRIVALS = ("act", "receive")
"""The calls that have an event, each with its kind."""
CHANGE_NOTHING = ("inspect", "lookup", "write")
"""Calls without an event that change nothing at a host."""
MOST_LINES = 20_000
"""This many lines of the list are read."""


class Taken(NamedTuple):
    """The file of a room: how many lines of the list it has, of how many; those of them that are left
    out; and why it ends before the list does, or None."""

    file: File
    lines: int
    of: int
    left_out: list
    stopped: Optional[list]


class _Stopped(Exception):
    """Why a line has no event: a text of the language files."""

    def __init__(self, key, /, **values):
        super().__init__(key)
        self.text = [key, values]


def taken(room):
    """The room as a file, as far as its calls are events."""
    room.log.flush()
    lines = (json.loads(line) for line in room.lines())
    set_up = next(lines)["room"]
    calls, left_out, stopped = _calls(room, lines)
    events, end, no_tray = _events(room.cables, calls)
    seats = tuple(_seat(set_up, number) for number in range(len(set_up["seats"])))
    cables = tuple(Cable(tuple(map(tuple, cable["ends"]))) for cable in set_up["cables"])
    last = stopped[0] - 1 if stopped else room.log.count
    if no_tray:
        last, stopped = calls[end]["line"] - 1, (calls[end]["line"], no_tray)
    return Taken(
        File(seats, cables, tuple(events)),
        last,
        room.log.count,
        [line for line in left_out if line <= last],
        stopped and ["text.line", {"line": stopped[0], "words": stopped[1]}],
    )


def _seat(set_up, number):
    seat = set_up["seats"][number]
    return Seat(
        address=tuple(address_of(number)),
        nhosts=set_up["nhosts"],
        offset=1,
        clock_host=CLOCK_SETTING_OFF if seat["clock_host"] is None else seat["clock_host"],
        hold=HOLD_INTERVAL,
        date=FIRST_DAY,
        time=set_up["time"] + seat["difference"],
        tick=tick_of(seat),
        links=links_of(set_up, number) * (None,),
        also=frozenset(seat["also"]),
    )


def _calls(room, lines):
    """The calls that have events, the lines that are left out, and the line behind them, with why it
    has no event, or None."""
    calls, left_out, count = [], [], 0
    # The set-up of a bench does what a room's does: the first lines set all afresh.
    afresh = 1 + len(room.seats)
    before = None
    for line in lines:
        if "end" in line:
            return calls, left_out, None
        number = line["line"]
        try:
            if number <= afresh:
                continue
            if number > MOST_LINES:
                raise _Stopped("stopped.lines", most=MOST_LINES)
            if line["call"] not in EVENTS:
                _without_event(room, line)
                left_out.append(number)
                before = line
                continue
            _with_cable(room, line)
            if line["call"] == "act" and left_out and _inspected(before, line):
                # The inspection of the same arrival.
                left_out.pop()
            count += line["times"]
            if count > MOST_EVENTS:
                raise _Stopped("stopped.events", count=count, most=MOST_EVENTS)
            calls.append(line)
            before = line
        except _Stopped as why:
            return calls, left_out, (number, why.text)


def _inspected(before, line):
    """Whether the line before is the inspection of the packet on which this line's call acts."""
    if (before["line"], before["seat"], before["call"]) != (line["line"] - 1, line["seat"], "inspect"):
        return False
    return all(before["with"][part] == line["with"][part] for part in ("link", "packet"))


def _without_event(room, line):
    """That a call which has no event has changed nothing."""
    answer = line["answer"]
    if line["call"] in CHANGE_NOTHING or answer != 0 and ANSWERS[answer]["changes"] == "nothing":
        return
    who = ["history.tutor", {}] if line["seat"] is None else room.seats[line["seat"]].name
    raise _Stopped("stopped.no_event", call=line["call"], who=who)


def _with_cable(room, line):
    """That a send and an arrival are at a link with a cable."""
    call, seat = line["call"], line["seat"]
    if call in ("send", *ARRIVALS) and not room.cables.far(seat, link := line["with"]["link"]):
        raise _Stopped("stopped.no_cable", link=link, name=room.seats[seat].name, call=call)


def _way(cables, line):
    """Cable, end and octets of the packet that a call sent or took."""
    far = cables.far(line["seat"], line["with"]["link"])
    if line["call"] == "send":
        return far.cable, far.direction, line["returned"].get("octets")
    return far.cable, 1 - far.direction, line["with"]["packet"]


def _events(cables, calls):
    """The events of calls, how many calls they are, and why the next has none, or None. A packet has
    its tray from its send to its last arrival."""
    last = {_way(cables, line): place for place, line in enumerate(calls) if line["call"] in ARRIVALS}
    events, trays, free = [], {}, list(range(TRAYS))
    for place, line in enumerate(calls):
        parts = {}
        if line["call"] == "send":
            way = _way(cables, line)
            sent = line["answer"] == 0
            if sent and way not in trays and not free:
                return events, place, ["stopped.no_tray", {"trays": TRAYS}]
            # What never arrives takes a tray that no other needs; a refused send leaves its tray.
            parts = {"cable": way[0], "end": way[1], "tray": trays.get(way, free[0] if free else 0)}
            if sent and way not in trays and last.get(way, -1) > place:
                trays[way] = free.pop(0)
        elif line["call"] in ARRIVALS:
            way = _way(cables, line)
            if way not in trays:
                return events, place, ["stopped.by_hand", {}]
            parts = {"tray": trays[way]}
            if last[way] == place:
                free.append(trays.pop(way))
        else:
            parts = {"seat": line["seat"]}
        events += line["times"] * [_event(line, parts)]
    return events, len(calls), None


def _event(line, parts):
    given = line["with"]
    count, overflow, again = given.get("counter", [given.get("count", 0), False, 0])
    amount = {"amount": given["ms"]} if line["call"] == "set" else {}
    again = again if overflow else None
    return Event(EVENTS[line["call"]], **parts, **amount, count=count, again=again)
