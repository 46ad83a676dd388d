"""An exercise under way in a room, in as many copies as there are students for it."""

from ..checks import Refused
from ..seat import READ
from ..setup import checked
from ..timed import go_by
from . import fitting
from .copy import Copy
from .segments import KINDS, key_of, segments

MOST_BOXES = 2_000
"""A walk has fewer boxes."""


class Course:
    """An exercise under way. `version` counts what has changed of it."""

    def __init__(self, listed, students):
        self.listed = listed
        self.exercise = listed.exercise
        self.students = students
        count = min(max(1, students // len(self.exercise.file.seats)), fitting.most_copies(self.exercise))
        self.copies = [Copy(self.exercise, k, count) for k in range(count)]
        self._divide()
        self.version = 0
        self._of_seat = {seat: copy for copy in self.copies for seat in copy.seats}
        self._sent = None

    def _divide(self):
        """The segments follow from the text."""
        self.segments = segments(self.exercise)
        for copy in self.copies:
            copy.segments = self.segments

    def __getstate__(self):
        kept = {name: value for name, value in self.__dict__.items() if name not in ("exercise", "segments")}
        return {**kept, "_sent": None}

    def __setstate__(self, kept):
        self.__dict__.update(kept)
        self.exercise = self.listed.exercise
        self._divide()

    def set_up(self):
        """The set-up of its room."""
        return checked(fitting.set_up(self.exercise, len(self.copies)))

    @property
    def ended(self):
        """Whether all copies have ended."""
        return all(copy.ended for copy in self.copies)

    @property
    def stage(self):
        """The number of the first stage that a copy has still to end."""
        return min(copy.stage for copy in self.copies)

    def copy_of(self, place):
        """The copy that a student works in, and whether she only observes it; None if she has no part."""
        if place in self._of_seat:
            return self._of_seat[place], False
        if 0 <= place < self.students:
            return self.copies[place % len(self.copies)], True
        return None

    # What is done, by whomever.

    def saw(self, room, seat, call, given, answer, times, ended):
        """A seat has made a call, that many times; `ended` if it has ended a walk."""
        copy = self._of_seat.get(seat.number)
        kind = KINDS.get(call)
        if copy is None or kind is None or copy.ended:
            return
        number = seat.number - copy.numbers.base
        before = copy.at, copy.stage
        asked = given.get("ms") if call == "set" else given.get("link")
        found = copy.saw(room, (kind, number, asked), answer, times)
        if call == "step" and ended and not copy.ended:
            found = found or copy.saw(room, ("end-walk", number, None), answer, 1)
            link = seat.walk["message"].link if seat.walk else None
            found = found or copy.ended or copy.saw(room, ("arrival", number, link), answer, 1)
        if call == "send" and answer == 0:
            self._sent = (copy, found) if found else None
        if found or before != (copy.at, copy.stage):
            self.version += 1

    def ways(self, first):
        """The ways, in ms, of the message that was just sent, one for each of its arrivals; None if the
        cable decides. `first` is the number of the first of these messages."""
        if self._sent is None:
            return None
        copy, call = self._sent
        self._sent = None
        copy.trays[call.tray] = [first + k for k in range(len(call.ways))]
        return call.ways

    # What the teacher lets be done.

    def next(self, room):
        """Carries out what is still to be done of the first stage that a copy has not ended; copies that
        are further are not touched. The stage, and whether it came out right at all of them."""
        stage = self.stage
        group = [copy for copy in self.copies if copy.stage == stage]
        for number, segment in enumerate(self.segments):
            if segment.stage == stage:
                self._carry_out(room, number, segment, group)
        self.version += 1
        right = all(copy.results[stage].right for copy in group)
        return {"stage": stage, "of": len(self.exercise.stages), "holds": right, "ended": self.ended}

    def _carry_out(self, room, number, segment, group):
        for step in segment.steps:
            left = [copy for copy in group if copy.at <= number]
            if not left:
                return
            if step not in segment.before:
                go_by(room, step.ms)
                continue
            for copy in left:
                made = copy.made(number, key_of(step)) - segment.before[step]
                times = min(step.times, step.times - made)
                if copy.at <= number and times > 0:
                    self._make(room, copy, step, times)
        for copy in group:
            copy.advance(room)
            if copy.at == number:
                copy.give_up(room)

    def _make(self, room, copy, call, times):
        seat = room.seats[copy.numbers.seat(call.seat)]
        try:
            _MAKE[call.kind](room, seat, copy, call, times)
        except Refused:
            # What the room refuses is a call that is not made, and the copy's result says so.
            pass


def _plain(name):
    return lambda room, seat, copy, call, times: room.make(seat, name, times=times)


def _send(room, seat, copy, call, times):
    for _ in range(times):
        room.send(seat, call.link)


def _message(seat, copy, call):
    """The message of a tray that waits at the seat."""
    for number in copy.trays.get(call.tray, ()):
        if number in seat.waiting:
            return seat.waiting[number]
    raise Refused("refused.not_waiting")


def _take(room, seat, copy, call, times):
    for _ in range(times):
        room.receive(seat, _message(seat, copy, call))


def _open_walk(room, seat, copy, call, times):
    room.called(seat, "open_walk", message=_message(seat, copy, call).number)


def _step(room, seat, copy, call, times):
    for _ in range(times):
        room.called(seat, "step")


def _end_walk(room, seat, copy, call, times):
    for _ in range(MOST_BOXES):
        if not seat.in_walk or room.called(seat, "step")["answer"] not in READ:
            return


_MAKE = {
    "self-report": _plain("self_report"),
    "second": _plain("second"),
    "adjust": _plain("adjust"),
    "set": lambda room, seat, copy, call, times: room.make(seat, "set", {"ms": call.amount}, times),
    "send": _send,
    "arrival": _take,
    "open-walk": _open_walk,
    "step": _step,
    "end-walk": _end_walk,
}
"""By its kind what makes a call."""
