"""What the pages show."""

from . import board, exercises, net_table, predict
from .answers import ANSWERS
from .bench.loaded import READY
from .checklist import CHECKLIST
from .fields import clock_words, day, dotted
from .setup import address_of
from .state import DOWN, ms


def teacher_view(room, since, presence):
    """The teacher's view; `since` is the mark of the view before, or None."""
    first = since is None or since[0] != room.number
    line, point = (0, 0) if first else since[1:3]
    bench = since[3:5] if since else None
    view = {
        "room": _room(room),
        "net_table": _net_table(room),
        "seats": [seat_of(room, seat, teacher=True) for seat in room.seats],
        "cables": _cables(room),
        "on_their_way": room.cables.shown(),
        "board": board.rows(room, presence),
        "promise": list(room.promise.broken),
        "calls": room.log.since(line),
        "points": _points(room, point),
        "mark": [
            *(room.number, room.log.count, room.pointed, room.bench.number, room.bench.version),
            *(room.exercise.version if room.exercise else None, room.exercise_lists),
        ],
    }
    if first or since[5:6] != view["mark"][5:6]:
        view["exercise"] = exercises.for_teacher(room) if room.exercise else None
    if since is None or since[6:7] != view["mark"][6:7]:
        view["exercises"] = exercises.listed(room)
    if not bench or bench[1] != room.bench.version:
        view["bench"] = room.bench.shown(bench)
    if since is not None:
        return view
    return {**view, **_once(), "bench_files": list(READY)}


def seat_view(room, number, first):
    """A student's view; its seat is None where the room has no such one."""
    seat = room.seats[number] if 0 <= number < len(room.seats) else None
    view = {
        "seat": seat and seat_of(room, seat),
        "room": _room(room),
        "net_table": _net_table(room),
        "others": None if room.show == "nothing" else _others(room),
        "exercise": exercises.for_student(room, number),
        "observed": _observed(room, number),
    }
    return {**view, **_once()} if first else view


def _observed(room, number):
    """The hosts of the copy that a student observes, with their tables; None if she observes none."""
    copy, observes = room.exercise and room.exercise.copy_of(number) or (None, False)
    return [_other(room, room.seats[seat], True) for seat in copy.seats] if observes else None


def _other(room, seat, tables):
    shown = {"number": seat.number, "name": seat.name}
    return {**shown, "clock": _clock(room, seat), "table": _table(room, seat)} if tables else shown


def _once():
    """What does not change."""
    return {"checklist": CHECKLIST, "answers": list(ANSWERS.values())}


def _points(room, since):
    kept = list(room.points)
    return kept[max(len(kept) - (room.pointed - since), 0) :]


def _room(room):
    return {
        "number": room.number,
        "time": room.now,
        "running": room.running,
        "speed": room.speed,
        "waits": room.waits,
        "waiting_for": room.waiting_for(),
        "full": room.log.full,
        "show": room.show,
        "predict": room.lesson.predict,
        "interval": room.set_up["interval"],
        "places": room.places,
    }


def _net_table(room):
    """The class's net table, as everybody sees it."""
    table = net_table.shown(room.net_table)
    rows = [{**row, "name": _name(room, row["id"])} for row in table["rows"]]
    return {**table, "rows": rows, "last": room.tutored}


def _cables(room):
    return [{"cable": number, **cable} for number, cable in enumerate(room.cables.cables)]


def _others(room):
    """What a student sees of the others."""
    tables = room.show == "tables"
    return {
        "seats": [_other(room, seat, tables) for seat in room.seats],
        "cables": _cables(room),
        "on_their_way": room.cables.shown(),
    }


def seat_of(room, seat, teacher=False):
    """A seat; the true differences are for the teacher."""
    return {
        "number": seat.number,
        "name": seat.name,
        "id": seat.number,
        "address": dotted(address_of(seat.number)),
        "nhosts": seat.state.nhosts,
        "by_hand": seat.by_hand,
        "crystal": seat.crystal,
        "difference": seat.difference,
        "also": seat.also,
        "clock_host": room.set_up["seats"][seat.number]["clock_host"],
        "clock": _clock(room, seat),
        "links": [_link(room, seat, link) for link in range(1, len(seat.state.links) + 1)],
        "table": _table(room, seat, teacher),
        "waiting": [message.shown() for message in seat.waiting.values()],
        "lost": list(seat.lost.values()),
        "sent": room.cables.sent_by(seat.number),
        "walk": seat.walk and _walk(room, seat),
        "last": seat.last,
        "student": room.lesson.students[seat.number].name,
        "asks": {"send": predict.asked_of_send(room)},
        "trying": list(seat.trying.values()),
        "predicted": seat.predicted,
    }


def _clock(room, seat):
    _, delta, hold, date = seat.state.clock
    time = seat.reading(room.now, due=False)
    return {
        "time": time,
        "words": clock_words(time),
        "date": date,
        "day": day(date),
        "delta": ms(delta),
        "hold": hold,
    }


def _link(room, seat, number):
    neighbor, keep_alive, tsp = seat.state.links[number - 1]
    far = room.cables.far(seat.number, number)
    return {
        "link": number,
        "neighbor": dotted(neighbor),
        "keep_alive": keep_alive,
        "tsp": tsp,
        "cable": far and far.cable,
        "to": far and far.seat,
    }


def _table(room, seat, teacher=False):
    entries = enumerate(seat.state.table)
    return [_entry(room, seat, id, entry, teacher) for id, entry in entries]


def _entry(room, seat, id, entry, teacher):
    live = entry.delay < DOWN
    shown = {"id": id, "name": _name(room, id)}
    shown.update(entry._asdict(), live=live, bound=101 * entry.delay / 200 if live else None)
    if teacher:
        true = room.true(seat, id)
        error = None if true is None or not live else entry.offset - true
        shown.update(true=true, error=error)
        shown["within"] = None if error is None else 200 * abs(error) <= 101 * entry.delay
    return shown


def _name(room, id):
    """A host's name: its seat's; with an @ of one that lives there besides; empty for one that is nowhere."""
    home = room.home(id)
    if home is None:
        return ""
    return home.name if id == home.number else f"@{home.name}"


def _walk(room, seat):
    walk = seat.walk
    message, held = walk["message"], seat.state.walk or (None, None, None, None)
    # A copy: what a view shows is compared with the next one.
    returned = {"next": walk["next"], "boxes": list(walk["boxes"]), "ended": walk["ended"]}
    asks = predict.asked_of_box(room, walk["next"]) if walk["next"] else []
    packet = message.shown()
    held = dict(zip(("reading", "delay", "offset"), held[1:]))
    of = {"message": message.number, "link": message.link}
    return {**of, **returned, "packet": packet, "asks": asks, "held": held}
