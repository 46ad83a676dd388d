"""What the teacher's page asks for."""

from . import predict, student
from .bench import BENCH
from .checks import Refused, net, one_of, real, switch, whole
from .exercises import EXERCISE_MESSAGES
from .fields import dotted
from .setup import checked, conditions
from .student import not_full
from .timed import SECOND

MINUTE = 60 * SECOND
MOST_NUMBER = 2**32 - 1
"""So great a number the tutor's calls are given; the library answers whether it fits."""


def _set_up(room, message):
    set_up = checked({key: value for key, value in message.items() if key not in ("do", "n")})
    if room.exercise:
        room.waits = False  # an exercise waits for hands; the next room does so only if the teacher says so
    room.begin(set_up)
    return {"room": room.number}


def _run(room, message):
    room.running = True
    return {"running": True}


def _pause(room, message):
    room.running = False
    return {"running": False}


def _speed(room, message):
    room.speed = real("factor", message["factor"], 0.01, 100)
    return {"speed": room.speed}


def _may_go_on(room):
    not_full(room)
    if waiting := room.waiting_for():
        names = ", ".join(room.seats[number].name for number in waiting)
        raise Refused("refused.waits_for", names=names)


def _one_second(room, message):
    _may_go_on(room)
    room.go_on(room.now + SECOND)
    return {"time": room.now}


def _one_message(room, message):
    _may_go_on(room)
    if not room.cables.on_their_way and all(seat.by_hand for seat in room.seats):
        raise Refused("refused.no_message")
    room.to_arrival(MINUTE)
    return {"time": room.now}


def _waits(room, message):
    room.waits = switch("on", message["on"])
    return {"waits": room.waits}


def _by_hand(room, message):
    return student.by_hand(room, room.at(message["seat"]), message)


def _cable(room, message):
    cables = room.cables.cables
    if not cables:
        raise Refused("refused.no_cable")
    number = whole("cable", message["cable"], 0, len(cables) - 1)
    loss = message.get("loss", cables[number]["loss"])
    room.cables.change(number, conditions(message["ways"], loss))
    room.promise.cable(room, number)
    return {"cable": number}


def _show(room, message):
    room.show = one_of("what", message["what"], ("nothing", "picture", "tables"))
    return {"show": room.show}


def _call(room, message):
    return student.call(room, room.at(message["seat"]), message)


def _initialize_all(room, message):
    """All hosts with another NHOSTS than the class's are initialized, at one instant of the room's time."""
    not_full(room)
    others = [seat for seat in room.seats if seat.state.nhosts != room.net_table.nhosts]
    answers = [(seat.name, room.initialize(seat)["answer"]) for seat in others]
    return {"answers": [{"name": name, "answer": answer} for name, answer in answers]}


_CHECKS = {
    "net": lambda value: dotted(net("net", value)),
    "nhosts": lambda value: whole("nhosts", value, 0, MOST_NUMBER),
    "row": lambda value: whole("row", value, 0, MOST_NUMBER),
    "id": lambda value: whole("id", value, 0, MOST_NUMBER),
}


def _tutor(name, *needed):
    """A call of the tutor's: what makes it, and the keys that it needs."""

    def make(room, message):
        not_full(room)
        return room.tutor(name, {key: _CHECKS[key](message[key]) for key in needed})

    return make, needed, ()


_needed, _keys_of_calls = student.STUDENT["call"][1:]

TEACHER = {
    "set_up": (_set_up, ("seats", "cables"), ("interval", "seed", "time", "nhosts")),
    "run": (_run, (), ()),
    "pause": (_pause, (), ()),
    "speed": (_speed, ("factor",), ()),
    "one_second": (_one_second, (), ()),
    "one_message": (_one_message, (), ()),
    "waits": (_waits, ("on",), ()),
    "by_hand": (_by_hand, ("seat", "on"), ()),
    "cable": (_cable, ("cable", "ways"), ("loss",)),
    "show": (_show, ("what",), ()),
    "predict": (predict.set_mode, ("mode",), ()),
    **EXERCISE_MESSAGES,
    "call": (_call, ("seat", *_needed), _keys_of_calls),
    "initialize_all": (_initialize_all, (), ()),
    "net_afresh": _tutor("net_afresh", "nhosts"),
    "net_add": _tutor("net_add", "net", "id"),
    "net_remove": _tutor("net_remove", "row"),
    "net_change": _tutor("net_change", "row", "id"),
    **BENCH,
}
"""By its name: what does it, the keys that the message needs, the keys that it may have."""
