"""The sum that a box of a walk made, as texts: each a key of the language files and its values."""

import re
from typing import NamedTuple

from hello import UNITS_PER_MS

from . import fields
from .state import DOWN, State
from .texts import english


class Box(NamedTuple):
    """A box that was made: its place, its packet, the seat before and after it, and the rows of the
    class's net table."""

    place: dict
    own: str
    link: int
    packet: bytes
    before: State
    after: State
    rows: tuple

    @property
    def entry(self):
        """The entry of the box's host id, before."""
        return self.before.table[self.place["id"]]

    @property
    def neighbor(self):
        """The link's NEIGHBOR-ADDRESS, before."""
        return fields.dotted(self.before.links[self.link - 1].neighbor)

    @property
    def delay(self):
        """The DELAY that the update brings, and its sum as a text."""
        _, _, delay, _ = self.before.walk
        if fields.number(self.packet, "NHOSTS") == 0:
            return delay, _text("delay.alone", delay=delay)
        more = fields.number(self.packet, "DELAY", self.place["id"])
        return delay + more, _text("delay.more", delay=delay, more=more, total=delay + more)


def texts_of(box):
    """The box's arithmetic, a list of texts."""
    return _SUMS[box.place["line"] or box.place["step"]](box)


def place_text(name):
    """A place of a walk, "step 3" or "host 1, line a", as a text."""
    step, host = re.fullmatch("step (.)", name), re.fullmatch("host ([0-9]+), line (.)", name)
    return ["place.step", {"step": step[1]}] if step else ["place.line", {"id": int(host[1]), "line": host[2]}]


def in_english(texts):
    """The arithmetic in English."""
    return "; ".join(english(text) for text in texts)


def _text(key, **values):
    return [f"sum.{key}", values]


def _low(key, total, word, **values):
    """A sum of which the low 16 bits, signed, count."""
    cut = "" if total == word else ".cut"
    return _text(key + cut, total=total, word=word, **values)


def _step1(box):
    _, reading, _, _ = box.after.walk
    source = fields.source(box.packet)
    return [_text("source", source=source, own=box.own), _text("reading", reading=reading)]


def _step2(box):
    return [_text("keep_alive", before=box.before.links[box.link - 1].keep_alive)]


def _step3(box):
    _, reading, delay, offset = box.after.walk
    tsp = box.after.links[box.link - 1].tsp
    time, echo = fields.number(box.packet, "TIME"), fields.number(box.packet, "TSP")
    half = delay // 2
    return [
        _low("tsp", time - reading, tsp, time=time, reading=reading),
        _low("round", reading - echo, delay, reading=reading, echo=echo),
        _low("offset", tsp + half, offset, delay=delay, half=half, tsp=tsp),
    ]


def _step4(box):
    source, neighbor = fields.source(box.packet), box.neighbor
    if source != neighbor:
        return [_text("stranger", source=source, neighbor=neighbor, down=DOWN)]
    echo, hold = fields.number(box.packet, "TSP"), box.before.clock[2]
    valid = "valid" if echo and not hold else "not_valid"
    return [_text("neighbor", source=source), _text(valid, echo=echo, hold=hold)]


def _step5(box):
    _, _, delay, _ = box.before.walk
    least = _text("raised" if delay < 100 else "stays", delay=delay)
    nhosts = fields.number(box.packet, "NHOSTS")
    if nhosts:
        return [least, _text("each", nhosts=nhosts, last=nhosts - 1)]
    by, walk = _looked_up(box), box.after.walk
    if not walk:
        return [least, _text("not_found", neighbor=box.neighbor, by=by)]
    return [least, _text("found", neighbor=box.neighbor, by=by, next=place_text(walk[0]))]


def _looked_up(box):
    """Where the id of NEIGHBOR-ADDRESS is looked up: our net, of class C, or the first row that
    matches."""
    own, octets = (tuple(map(int, address.split("."))) for address in (box.own, box.neighbor))
    if octets[:3] == own[:3]:
        return _text("by.own_net")
    if octets[0] >= 224:
        return _text("by.above_c")
    net = (octets[0], 0, 0) if octets[0] < 128 else octets[:3]
    for number, row in enumerate(box.rows, 1):
        if row.net in (net, (0, 0, 0)):
            return _text("by.row" if any(row.net) else "by.row_zero", row=number)
    return _text("by.table")


def _line_a(box):
    delay, brought = box.delay
    if box.entry.pid == box.link:
        return [brought, _text("same_pid", pid=box.link)]
    over = delay + 100 > box.entry.delay
    return [
        brought,
        _text("other_pid", pid=box.link, entry=box.entry.pid),
        _text("over" if over else "not_over", delay=delay, more=delay + 100, entry=box.entry.delay),
    ]


def _line_b(box):
    delay, brought = box.delay
    up, down = box.entry.delay < DOWN, delay >= DOWN
    if up:
        return [_text("up"), brought, _text("goes_down" if down else "stays_up", down=DOWN)]
    revived = not down and box.entry.ttl == 0
    end = "revived" if revived else "held_down" if not down else "still_down"
    return [_text("down", ttl=box.entry.ttl), brought, _text(end, down=DOWN)]


def _line_c(box):
    _, brought = box.delay
    _, reading, _, offset = box.before.walk
    stored = box.after.table[box.place["id"]].offset
    total = _text("store.offset", offset=offset)
    if fields.number(box.packet, "NHOSTS"):
        more = fields.number(box.packet, "OFFSET", box.place["id"])
        total = _low("store.more", offset + more, stored, offset=offset, more=more)
    return [brought, total, _text("stored", pid=box.link, reading=reading)]


def _line_d(box):
    date, offset = fields.number(box.packet, "DATE"), box.entry.offset
    taken = date < 1 << 15 and box.after.clock[3] & 0x7FFF == date
    # A correction that became DELTA is there afterwards; a step leaves DELTA 0.
    slewed = box.after.clock[1] == offset * UNITS_PER_MS
    return [
        _text("date_taken" if taken else "date_not_taken", date=fields.day(date)),
        _text("slewed" if slewed else "stepped", offset=offset),
    ]


_SUMS = {
    1: _step1,
    2: _step2,
    3: _step3,
    4: _step4,
    5: _step5,
    "a": _line_a,
    "b": _line_b,
    "c": _line_c,
    "d": _line_d,
}
