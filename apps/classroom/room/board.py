"""The board: one row for each seat, with what a teacher wants to know of its student.

Rows that need help come first.
"""

import csv
import heapq
import io

from .lesson import exercise_of
from .state import DOWN

LEAST = 100
"""No cable counts for less: MINDELAY."""


def rows(room, presence):
    """The rows of the board, in the order in which help is needed. `presence` has, by seat, whether the
    student's page is open, and since when: a room knows no clock but its own."""
    found = [_row(room, seat, *presence.get(seat.number, (False, None))) for seat in room.seats]
    return sorted(found, key=lambda row: (-len(row["needs"]), row["seat"]))


def _row(room, seat, connected, since):
    student = room.lesson.students[seat.number]
    row = {
        "seat": seat.number,
        "host": seat.name,
        "name": student.name,
        "connected": connected,
        "since": since,
        "by_hand": seat.by_hand,
        "exercise_number": exercise_of(room),
        "box": seat.walk["next"] if seat.walk else None,
        "waiting": len(seat.waiting),
        "calls": student.calls,
        "refusals": student.refusals,
        "tried": student.tried,
        "right": student.right,
        "second": student.second,
        "missed": student.missed,
        "last": seat.last and {part: seat.last[part] for part in ("call", "answer", "name")},
        "table_right": table_right(room, seat),
    }
    gone = since is not None and not connected
    return {**row, "needs": _needs(room, seat, student, gone)}


def _needs(room, seat, student, gone):
    """Why a student may need help: keys of the language files."""
    needs = ["needs.gone"] if gone else []
    if any(not mark["right"] for mark in student.marks[-2:]):
        needs.append("needs.missed")
    if student.calls and seat.last and seat.last["answer"]:
        needs.append("needs.refused")
    if seat.number in room.waiting_for():
        needs.append("needs.waits")
    return needs


def table_right(room, seat):
    """Whether every entry is as it should be: up if a cable leads there, and else down; its DELAY that
    of a shortest way, its OFFSET within the bound of the true difference."""
    if seat.state.nhosts != room.net_table.nhosts:
        return False
    near, far = (distances(room, seat.number, most) for most in (0, 1))
    for id, entry in enumerate(seat.state.table):
        home = room.home(id)
        reached = home is not None and home.number in near
        if reached != (entry.delay < DOWN):
            return False
        if reached and not _entry_right(room, seat, id, entry, near[home.number], far[home.number]):
            return False
    return True


def _entry_right(room, seat, id, entry, near, far):
    """Whether an entry that is up has the true distance and the true difference."""
    true = room.true(seat, id)
    if 200 * abs(entry.offset - true) > 101 * entry.delay:
        return False
    (least, _), (most, hops) = near, far
    # A route is kept until another is shorter by more than LEAST, at each hop.
    return least <= entry.delay <= most + LEAST * max(hops - 1, 0)


def distances(room, start, most):
    """By seat the length of the shortest way from a seat, in ms, and its hops: each cable with its least
    or its most times, there and back, and no less than LEAST."""
    links = {}
    for cable in room.cables.cables:
        if 100 in cable["loss"]:
            continue
        (first, _), (second, _) = cable["ends"]
        length = max(LEAST, sum(way[most] for way in cable["ways"]))
        links.setdefault(first, []).append((second, length))
        links.setdefault(second, []).append((first, length))
    found, queue = {}, [(0, 0, start)]
    while queue:
        length, hops, at = heapq.heappop(queue)
        if at in found:
            continue
        found[at] = (length, hops)
        for to, more in links.get(at, ()):
            heapq.heappush(queue, (length + more, hops + 1, to))
    return found


COLUMNS = (
    *("seat", "name", "host", "connected", "exercise_number", "calls", "refusals"),
    *("tried", "right", "second", "missed", "table_right"),
)


def marks(room, presence):
    """The marks of the lesson as CSV: a line for each seat, in the order of the seats."""
    written = io.StringIO()
    writer = csv.writer(written, lineterminator="\r\n")
    writer.writerow(COLUMNS)
    for row in sorted(rows(room, presence), key=lambda row: row["seat"]):
        writer.writerow([_cell(row[column]) for column in COLUMNS])
    return written.getvalue()


def _cell(value):
    """A value as a table program reads it: no text is taken for a formula."""
    if value is None:
        return ""
    if type(value) is bool:
        return "yes" if value else "no"
    return f"'{value}" if type(value) is str and value[:1] in "=+-@\t" else value
