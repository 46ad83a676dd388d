"""Predict, then see: a student writes what a call will set, and only then the library makes it.

The expected values are those of the same call on a copy of the host. Each field is marked. After a
first miss the reply has a hint, and the call waits for a second try; after that the call is made,
and the reply has the answers.
"""

from . import calls, fields, student
from .checks import Refused, keys, one_of, whole, words
from .copied import Made, copied
from .seat import READ
from .state import ms
from .student import box_of
from .sums import texts_of

MODES = ("off", "offered", "required")
KINDS = ("step", "receive", "send")
GOES_ON, ENDS = "on", "end"
LONGEST_FIELD = 40

_OF_BOX = {
    (1, None): ("reading",),
    (2, None): ("KEEP-ALIVE",),
    (3, None): ("TSP", "DELAY", "OFFSET"),
    (4, None): ("NEIGHBOR-ADDRESS", "then", "DELAY"),
    (5, None): ("then", "DELAY"),
    (5, "a"): ("then",),
    (5, "b"): ("then", "entry DELAY", "entry TTL"),
    (5, "c"): ("entry DELAY", "entry OFFSET", "entry TTL", "entry PID"),
    (5, "d"): ("DELTA", "HOLD"),
}
"""The fields that are asked at each box; `then` is whether the walk, or the host's update, goes on."""
_CLOCK = ("reading", "TIME", "TSP of the message")
"""Fields that depend on the moment: they are asked only while the room's time does not run."""


def still(room):
    """Whether the room's time does not run on while a student thinks."""
    return not room.running or bool(room.waiting_for())


def asked_of_box(room, place):
    """The fields that are asked at a place of a walk."""
    found = _OF_BOX[place["step"], place["line"]]
    return [field for field in found if field not in _CLOCK or still(room)]


def asked_of_send(room):
    """The fields that are asked before a send."""
    found = ("NHOSTS", "KEEP-ALIVE", "TIME", "TSP of the message")
    return [field for field in found if field not in _CLOCK or still(room)]


def set_mode(room, message):
    """The teacher chooses: off, offered or required."""
    room.lesson.predict = one_of("mode", message["mode"], MODES)
    return {"predict": room.lesson.predict}


def predict(room, seat, message):
    """A prediction of a student: the marks, and at the end the call itself with its reply."""
    if room.lesson.predict == "off":
        raise Refused("refused.no_predictions")
    student.not_full(room)
    kind = one_of("of", message["of"], KINDS)
    expected = _EXPECTED[kind](room, seat, message)
    given = _given(expected, message["fields"])
    marks = [_mark(expected, field, given[field]) for field in given if field in expected.fields]
    missing = [field for field in expected.changing if field not in given]
    right = not missing and all(mark["right"] for mark in marks)
    turn = 2 if expected.key in seat.trying else 1
    reply = {"of": kind, "place": expected.place, "try": turn, "right": right, "fields": marks}
    if turn == 1 and not right:
        reply.update(done=False, more=len(missing), hints=_hints(expected, marks), call=expected.call)
        seat.trying[expected.key] = reply
        return reply
    seat.trying.pop(expected.key, None)
    made = student.own_call(room, seat, {"do": "call", "call": kind, **expected.call}, predicted=True)
    for mark in marks:
        mark["expected"] = expected.fields[mark["field"]]
    for field in missing:
        marks.append({"field": field, "given": None, "right": False, "expected": expected.fields[field]})
    if marks:
        room.lesson.students[seat.number].marked(kind, expected.place, turn, right, room)
    seat.predicted = {**reply, "done": True, "words": expected.words}
    return {**seat.predicted, "reply": made}


class _Expected:
    """What the library did on a copy: each field's value, the fields that are asked, those that change
    and must be named, the arithmetic as texts, and what the call is given that is made afterwards."""

    def __init__(self, key, place, values, words, call, asked=None, changing=()):
        self.key = key
        self.place = place
        self.fields = values
        self.words = words
        self.call = call
        self.asked = values if asked is None else asked
        self.changing = changing


def _copy(room, seat):
    """A copy of the seat's host, with the ticks that a call of the host is given first."""
    copy = copied(seat.host)
    due = seat.due(room.now) - (1 if seat.crystal else 0)
    if due > 0 and not seat.in_walk:
        calls.make(copy, "tick", {"count": seat.count(room.now)}, due)
    return copy


def _mark(expected, field, given):
    return {"field": field, "given": given, "right": given == expected.fields[field]}


def _hints(expected, marks):
    """The keys of hints for what was wrong."""
    kind, wrong = expected.key[0], [mark["field"] for mark in marks if not mark["right"]]
    if kind == "receive":
        return ["hint.receive"]
    place = "send" if kind == "send" else expected.place.split(" ")[-1]
    return [f"hint.{place}.{field.replace(' ', '_')}" for field in wrong]


def _given(expected, value):
    """What the student wrote, by its fields: each a number, a short text, or None."""
    keys("fields", value, (), tuple(expected.asked))
    for field, written in value.items():
        if type(written) is int:
            whole(field, written, -(2**32), 2**32)
        elif written is not None:
            words(field, written, LONGEST_FIELD)
    if not expected.changing and not all(field in value for field in expected.fields):
        raise Refused("refused.each_field")
    return value


# A box of a walk.


def _box(room, seat, message):
    keys("a prediction", message, ("do", "of", "fields"), ("n",))
    if not seat.in_walk or seat.walk is None:
        raise Refused("refused.no_walk")
    walk, place = seat.walk, seat.walk["next"]
    made = Made(_copy(room, seat), "step", seat.handed("step", room.now))
    if made.answer not in READ:
        raise Refused("refused.box_not_now")
    box = box_of(room, seat, made.before, made.after)
    values = _values_of_box(made, walk, place)
    asked = asked_of_box(room, place)
    # A walk that has ended has no DELAY: that field is not marked then.
    marked = {field: values[field] for field in asked if field in values}
    key = ("step", room.number, walk["message"].number, len(walk["boxes"]))
    return _Expected(key, place["name"], marked, texts_of(box), {}, asked)


def _values_of_box(made, walk, place):
    """What the copy has after the box."""
    link = made.after.links[walk["message"].link - 1]
    found = {
        "KEEP-ALIVE": link.keep_alive,
        "TSP": link.tsp,
        "NEIGHBOR-ADDRESS": fields.dotted(link.neighbor),
        "then": _then(made, place),
        "DELTA": ms(made.after.clock[1]),
        "HOLD": made.after.clock[2],
    }
    if made.after.walk:
        _, reading, delay, offset = made.after.walk
        found.update({"reading": reading, "DELAY": delay, "OFFSET": offset})
    if place["line"]:
        entry = made.after.table[place["id"]]
        found.update(
            {
                "entry DELAY": entry.delay,
                "entry OFFSET": entry.offset,
                "entry TTL": entry.ttl,
                "entry PID": entry.pid,
            }
        )
    return found


def _then(made, place):
    """Whether the walk goes on, or at a line the update of its host."""
    following = made.returned["next"]
    if following is None:
        return ENDS
    if place["line"] and following["id"] != place["id"]:
        return ENDS
    return GOES_ON


# A message taken at once.


def _arrival(room, seat, message):
    keys("a prediction", message, ("do", "of", "fields", "message"), ("n",))
    waits = student.waiting(seat, message)
    if seat.in_walk:
        raise Refused("refused.in_walk")
    handed, link = seat.handed("act", room.now), {"link": waits.link, "packet": waits.given["packet"]}
    copy = _copy(room, seat)
    inspected = Made(copy, "inspect", link)
    made = Made(copy, "act", {**link, **handed}) if inspected.answer == 0 else inspected
    found, changing = {"answer": made.answer}, ["answer"]
    for id, (before, after) in enumerate(zip(made.before.table, made.after.table)):
        for field, old, new in (
            ("DELAY", before.delay, after.delay),
            ("OFFSET", before.offset, after.offset),
        ):
            found[f"host {id} {field}"] = new
            if old != new:
                changing.append(f"host {id} {field}")
    key, call = ("receive", room.number, waits.number), {"message": waits.number}
    texts = _walked(room, seat, waits, handed)
    return _Expected(key, f"message {waits.number}", found, texts, call, changing=changing)


def _walked(room, seat, waits, handed):
    """The arithmetic of the arrival, box by box, from a walk on another copy."""
    copy, texts = _copy(room, seat), []
    made = Made(copy, "open_walk", waits.given)
    while made.answer == 0 and made.returned["next"]:
        place = made.returned["next"]
        made = Made(copy, "step", handed)
        if made.answer in READ:
            box = box_of(room, seat, made.before, made.after, place, waits)
            texts += texts_of(box)
    return texts


# A send.


def _sending(room, seat, message):
    keys("a prediction", message, ("do", "of", "fields", "link"), ("n",))
    link = whole("link", message["link"], 1, seat.host.settings.link_count)
    made = Made(_copy(room, seat), "send", {"link": link, **seat.handed("send", room.now)})
    if made.answer != 0:
        raise Refused("refused.send_not_now")
    packet = bytes.fromhex(made.returned["octets"])
    values = {
        "NHOSTS": fields.number(packet, "NHOSTS"),
        "KEEP-ALIVE": made.after.links[link - 1].keep_alive,
        "TIME": fields.number(packet, "TIME"),
        "TSP of the message": fields.number(packet, "TSP"),
    }
    before = made.before.links[link - 1]
    returned = {"tsp": before.tsp, "time": values["TIME"], "sent": values["TSP of the message"]}
    sort = "sum.send.tsp" if before.keep_alive else "sum.send.none"
    neighbor = fields.dotted(before.neighbor)
    table = "sum.send.table" if values["NHOSTS"] else "sum.send.no_table"
    texts = [[sort, returned], [table, {"neighbor": neighbor, "nhosts": values["NHOSTS"]}]]
    asked = {field: values[field] for field in asked_of_send(room)}
    return _Expected(("send", room.number, link), f"link {link}", asked, texts, {"link": link})


_EXPECTED = {"step": _box, "receive": _arrival, "send": _sending}
PREDICT = {
    "predict": (predict, ("of", "fields"), ("message", "link")),
}
"""By its name: what does it, the keys that it needs, the keys that it may have."""
