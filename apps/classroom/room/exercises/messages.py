"""What the teacher's page asks for about exercises."""

from hello import bench_file

from ..checks import Refused, whole, words
from ..found_texts import text_of
from ..setup import SEATS
from ..student import not_full
from .catalog import EXERCISES, LONGEST_TEXT
from .course import Course
from .shown import listed

LONGEST_NAME = 100
MOST_FAULTS = 30
"""This many wrong lines of a text are reported."""
MOST_CALLS = 50_000
"""An exercise is run to its end at once unless it takes more calls than these."""


def _exercise(room, message):
    number = whole("number", message["number"], 1, 10**6)
    found = {**EXERCISES, **room.own_exercises}.get(number)
    if found is None:
        last = max([*EXERCISES, *room.own_exercises])
        raise Refused("refused.no_such_exercise", number=number, last=last)
    students = whole("students", message.get("students", room.places), 1, SEATS)
    course = Course(found, students)
    room.begin(course.set_up(), course)
    room.waits = True
    return {"exercise": number, "copies": len(course.copies)}


def _load(room, message):
    """An exercise of the teacher's own; each wrong line is reported with its number."""
    name = words("name", message["name"], LONGEST_NAME)
    text = words("text", message["text"], LONGEST_TEXT, lines=True)
    try:
        found = room.own_exercises.load(name, text)
    except bench_file.Wrong as wrong:
        faults = [{"line": line, "words": fault, "text": text_of(fault)} for line, fault in wrong.faults]
        return {"number": None, "faults": faults[:MOST_FAULTS], "more": max(0, len(faults) - MOST_FAULTS)}
    room.exercise_lists += 1
    return {"number": found.number, "faults": [], "more": 0, "exercises": listed(room)}


def _course(room):
    if room.exercise is None:
        raise Refused("refused.no_exercise")
    if room.exercise.ended:
        raise Refused("refused.exercise_ended")
    not_full(room)
    return room.exercise


def _next(room, message):
    return _course(room).next(room)


def _to_the_end(room, message):
    course, most = _course(room), room.log.count + MOST_CALLS
    holds = True
    while True:
        reply = course.next(room)
        holds = holds and reply["holds"]
        if course.ended or room.log.count >= most or room.log.full:
            return {**reply, "holds": holds}


EXERCISE_MESSAGES = {
    "exercise": (_exercise, ("number",), ("students",)),
    "exercise_load": (_load, ("name", "text"), ()),
    "next": (_next, (), ()),
    "to_the_end": (_to_the_end, (), ()),
}
"""By its name: what does it, the keys that the message needs, the keys that it may have."""
