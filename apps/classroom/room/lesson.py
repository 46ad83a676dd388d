"""What a lesson knows of each student: her name, her calls and her predictions. A new room keeps it."""

from .checks import Refused, words
from .setup import SEATS

LONGEST_NAME = 24


class Student:
    """The student at one seat. `marks` has one line for each prediction that is finished."""

    def __init__(self, seat):
        self.seat = seat
        self.name = None
        self.calls = 0
        self.refusals = 0
        self.marks = []

    def marked(self, kind, place, turn, right, room):
        """A prediction is finished."""
        line = {"kind": kind, "place": place, "try": turn, "right": right}
        self.marks.append({**line, "exercise": exercise_of(room), "time": room.now})

    @property
    def tried(self):
        """The number of predictions that are finished."""
        return len(self.marks)

    @property
    def right(self):
        """Of those, the number that were right at the first try."""
        return sum(mark["try"] == 1 and mark["right"] for mark in self.marks)

    @property
    def second(self):
        """Of those, the number that were right at the second try."""
        return sum(mark["try"] == 2 and mark["right"] for mark in self.marks)

    @property
    def missed(self):
        """Of those, the number of which the answer had to be shown."""
        return self.tried - self.right - self.second


class Lesson:
    """The students of a class, by their seats, and the teacher's choice of predictions."""

    def __init__(self):
        self.predict = "off"
        self.students = [Student(seat) for seat in range(SEATS)]


def exercise_of(room):
    """The number of the exercise that is set up, or None."""
    return room.exercise.listed.number if room.exercise else None


def name(room, seat, message):
    """The student writes her name."""
    given = words("name", message["name"], LONGEST_NAME).strip()
    if not given or any(ord(character) < 32 for character in given):
        raise Refused("refused.name")
    room.lesson.students[seat.number].name = given
    return {"name": given}
