"""The room as the pages meet it: what they ask for, and what they are shown."""

from . import board, exercises, net_table, views
from .bench import Stand
from .checks import Refused, keys
from .lesson import Lesson
from .paper import FilePaper
from .setup import checked, ring
from .state import shown
from .pupil import PUPIL
from .student import CALLS
from .teacher import TEACHER
from .timed import Timed


class Room(Timed):
    """A room of up to sixteen seats, and the teacher's bench beside it. What a page asks for that
    cannot be done raises Refused."""

    def __init__(self, set_up, paper=FilePaper):
        self.paper = paper
        self.number = 0
        self.speed = 1
        self.show = "picture"
        self.bench = Stand()
        self.lesson = Lesson()
        self.own_exercises = exercises.OWN()
        self.exercise_lists = 0
        set_up = checked(set_up)
        self.places = len(set_up["seats"])
        self.begin(set_up)

    @classmethod
    def fresh(cls, seats=4, paper=FilePaper):
        """A first room: that many hosts in a ring, which work by themselves."""
        return cls(ring(seats), paper)

    def __getstate__(self):
        return {**self.__dict__, "paper": None}

    def begin(self, set_up, exercise=None):
        """A new room by a checked set-up, paused."""
        self.exercise = None
        super().begin(set_up)
        self.number += 1
        self.running = False
        self.exercise = exercise

    def make(self, seat, call, given=None, times=1):
        """Makes a call of a seat; an exercise sees it, whoever asked for it."""
        in_walk = seat.in_walk
        reply = super().make(seat, call, given, times)
        self._saw(seat, call, given or {}, reply["answer"], times, in_walk and not seat.in_walk)
        return reply

    def receive(self, seat, message):
        """A seat takes a message; an exercise sees it."""
        reply = super().receive(seat, message)
        self._saw(seat, "receive", message.given, reply["answer"])
        return reply

    def _saw(self, seat, call, given, answer, times=1, ended=False):
        if self.exercise:
            self.exercise.saw(self, seat, call, given, answer, times, ended)

    def ways(self, way):
        """An exercise decides how long its messages take."""
        ways = self.exercise.ways(self.messages + 1) if self.exercise else None
        return super().ways(way) if ways is None else ways

    def called(self, seat, call, **given):
        """A call of a seat as its student would make it."""
        return CALLS[call][0](self, seat, given)

    def student_name(self, place):
        """The name of the student at a place, or None."""
        return self.lesson.students[place].name if place < len(self.lesson.students) else None

    def teacher(self, message):
        """Does what the teacher's page asks for, and replies."""
        return self._asked(TEACHER, message, self)

    def seat(self, number, message):
        """Does what a student's page asks for, and replies."""
        return self._asked(PUPIL, message, self, self.at(number))

    def _asked(self, commands, message, *of):
        asked = message.get("do") if type(message) is dict else None
        command = commands.get(asked) if type(asked) is str else None
        if command is None:
            raise Refused("refused.no_such_thing")
        do, needed, also = command
        keys("the message", message, ("do", *needed), ("n", *also))
        return do(*of, message)

    def at(self, number):
        """The seat of that number."""
        if type(number) is not int or not 0 <= number < len(self.seats):
            raise Refused("refused.no_such_seat")
        return self.seats[number]

    def teacher_view(self, since=None, presence=None):
        """What the teacher's page shows; `since` is the mark of the view before, or None. `presence`
        has, by seat, whether a student's page is open, and since when."""
        return views.teacher_view(self, since, presence or {})

    def seat_view(self, number, first=False):
        """What a student's page shows."""
        return views.seat_view(self, number, first)

    def marks(self, presence):
        """The marks of the lesson as CSV; `presence` as in a view."""
        return board.marks(self, presence)

    def lines(self):
        """The list of calls as a file, line by line."""
        return self.log.lines(*self.end())

    def end(self):
        """The end of that file: the net table, and the states of the seats."""
        return net_table.shown(self.net_table), [shown(seat.state) for seat in self.seats]
