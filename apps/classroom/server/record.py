"""A room whose every change is in a store before anyone is answered.

`take` and `pass_time` change the room and note what is to be written; `write` writes it, in one
transaction. A room is resumed from the store by its last checkpoint and the inputs after that.
"""

import contextlib
import json

from ..room import Refused, Room, journal
from ..room.paper import NoPaper
from . import checkpoint
from .guard import LOG
from .store import Input, RoomRow, StoreError

LINES_BETWEEN = 2_000
"""After that many lines of calls, or that many inputs, a checkpoint is written."""
INPUTS_BETWEEN = 1_000
LONGEST_STEPS = 500
"""This many steps of time are one input at most."""


class StorePaper:
    """The lines of a room's list, in a store; those still to be written are noted for it."""

    def __init__(self, store, noted, room, line=-1):
        self._store = store
        self._noted = noted
        self._room = room
        self._line = line

    def write(self, octets):
        """One line more."""
        self._line += 1
        self._noted.append((self._room, self._line, octets.decode().rstrip("\n")))

    def lines(self):
        """All lines, as they are now."""
        rest = [text for room, _, text in self._noted if room == self._room]
        return self._lines(self._line - len(rest), rest)

    def _lines(self, last, rest):
        yield from self._store.calls(self._room, most=last)
        yield from rest


def title_of(room):
    """A room in a few words, for the list of rooms: a text of the language files."""
    if room.exercise:
        title = room.exercise.exercise.said("title")
        return ["room.exercise", {"number": room.exercise.listed.number, "title": title}]
    count = len(room.seats)
    return ["room.hosts.one" if count == 1 else "room.hosts.many", {"n": count}]


class Record:
    """The room of a class and its store."""

    def __init__(self, store, seats):
        self.store = self._store = store
        self._inputs, self._calls, self._rooms = [], [], []
        self._steps = []
        self._title = None
        self._by = None
        self._since = (0, 0)
        self._complained = False
        if store.begun():
            self.room = self._resumed()
        else:
            self.room = Room.fresh(seats, lambda: StorePaper(store, self._calls, 1))
            self._next, self._number = 0, 0
            self._note("begin", self.room.set_up, None)
            self.write()
            self.keep()
        self.room.paper = self._paper

    def _paper(self):
        """The paper of the next room's list."""
        return StorePaper(self._store, self._calls, self.room.number + 1)

    def take(self, by, message):
        """The room's reply to a message; Refused if there is none. The input is noted, and so is one
        at which the room failed: made again it fails in the same way."""
        self._end_steps()
        reply = None
        try:
            reply = journal.make(self.room, by, message)
        except Refused:
            raise
        except Exception:
            self._note(by, message, None)
            raise
        self._note(by, message, reply)
        return reply

    def pass_time(self, ms):
        """The room's time goes on by that many ms; tells whether anything changed."""
        room = self.room
        step = room.step_of(ms)
        if step == 0:
            return False
        before = (room.now, room.log.changes)
        room.go_on(room.now + step)
        if (room.now, room.log.changes) == before:
            return False
        self._steps.append(step)
        if len(self._steps) >= LONGEST_STEPS:
            self._end_steps()
        return True

    def branch(self, room, number, line, input, title):
        """Goes on from a room as it was after an input, which is that of a line of an earlier room's
        list. Its list so far is the new room's too."""
        self._end_steps()
        self.room = journal.branched(room, self.room)
        count = self.room.log.count
        paper = StorePaper(self._store, self._calls, self.room.number)
        for text in self._store.calls(number, most=count):
            paper.write(text.encode() + b"\n")
        self.room.paper, self.room.log.paper = self._paper, paper
        self._title = (title, number, line)
        self._note(journal.BRANCH, {"room": number, "line": line, "input": input}, None)

    def last(self):
        """The last input: its number, and by whom it was. Steps of time count."""
        if self._steps:
            return self._next, journal.TIME
        return self._next - 1, self._by

    def _end_steps(self):
        if self._steps:
            steps, self._steps = self._steps, []
            self._note(journal.TIME, steps, None)

    def _note(self, by, asked, reply):
        room = self.room
        # What is noted is what a reader of the store gets.
        reply = json.loads(json.dumps(reply))
        self._inputs.append(Input(self._next, room.number, room.log.count, by, asked, reply))
        if room.number != self._number:
            self._number = room.number
            title, parent, line = self._title or (title_of(room), None, None)
            self._title = None
            self._rooms.append(RoomRow(room.number, json.dumps(title), room.set_up, self._next, parent, line))
        self._next += 1
        self._by = by

    def write(self):
        """Writes all that is noted; StoreError if that cannot be done, and it stays noted."""
        self._end_steps()
        if not self._inputs:
            return
        self._store.write(self._inputs, self._calls, self._rooms)
        for noted in (self._inputs, self._calls, self._rooms):
            noted.clear()
        lines, inputs = self._since
        if self._moved() > lines + LINES_BETWEEN or self._next > inputs + INPUTS_BETWEEN:
            with contextlib.suppress(StoreError):
                self.keep()

    def _moved(self):
        """How far the room is: its lines, and those of all rooms before count as a step each."""
        return self.room.log.count + self.room.number * 10**9

    def keep(self):
        """Writes a checkpoint. A room that cannot be kept is resumed from its inputs alone."""
        self._since = (self._moved(), self._next)
        try:
            state = checkpoint.dump(self.room)
        except checkpoint.NotKept as why:
            if not self._complained:
                LOG.error("no checkpoint can be written (%s): a resume takes longer", why)
            self._complained = True
            return
        last = (self._next - 1, self.room.number, self.room.log.count)
        self._store.keep(*last, checkpoint.program(), state)

    def _resumed(self):
        """The room as the store has it."""
        self._next = self._store.last_input() + 1
        self._by = next((each.by for each in self._store.inputs(self._next - 2)), None)
        room = rebuilt(self._store)
        self._number = room.number
        room.log.paper = StorePaper(self._store, self._calls, room.number, room.log.count)
        self._since = (room.log.count + room.number * 10**9, self._next)
        return room


class _Compared:
    """A paper that compares the lines of a room that is made again with those of the store."""

    def __init__(self, store, room, line=-1):
        self._store = store
        self._room = room
        self._line = line
        self._stored = store.calls(room, after=line)

    def write(self, octets):
        """One line, which must be the stored one."""
        self._line += 1
        stored, made = next(self._stored, None), octets.decode().rstrip("\n")
        if stored is not None and stored != made:
            raise Differs(f"line {self._line:,} of room {self._room} is {made[:200]}, and not {stored[:200]}")

    def lines(self):
        """The lines so far, as the store has them."""
        return self._store.calls(self._room, most=self._line)


class Differs(BaseException):
    """A call that is made again has another end than it had. No part of the room may catch it."""


def rebuilt(store, most=2**62, checkpoints=True):
    """The room after the input of that number, from the last checkpoint before it, or from the first
    set-up. Every call that is made again must be the one in the store; else StoreError."""
    room, after = _start(store, most, checkpoints)
    _compare(room, store)
    try:
        for each in store.inputs(after, most):
            if each.by == journal.BRANCH:
                room = journal.branched(rebuilt(store, each.asked["input"], checkpoints), room)
                _compare(room, store)
            else:
                journal.again(room, each.by, each.asked)
            if (room.number, room.log.count) != (each.room, each.line):
                place = f"room {room.number}, line {room.log.count:,}"
                raise Differs(f"it ends at {place}, and not at room {each.room}, line {each.line:,}")
    except Differs as why:
        raise StoreError(
            f"The store {store.path} cannot be followed: input {each.number:,}, made again, differs: {why}. "
            "It stays as it is; begin another class with --new, or use the program that wrote it."
        ) from None
    return room


def _compare(room, store):
    """Each line of the room's list, and of later ones, is compared with the store's."""
    room.paper = lambda: _Compared(store, room.number + 1)
    room.log.paper = _Compared(store, room.number, room.log.count)


def _start(store, most, checkpoints):
    """The room to begin with, and the input after which it is."""
    while checkpoints and (kept := store.checkpoint(checkpoint.program(), most)):
        input, number, line, state = kept
        try:
            return checkpoint.load(state), input
        except checkpoint.NotKept:
            most = input - 1
    room = Room(store.rooms()[0].set_up, NoPaper)
    return room, 0


def seen(room):
    """All that the teacher sees of a room, with its end and the ticks still to be written, as a text."""
    view = {**room.teacher_view(), "mark": None}
    return json.dumps([view, room.end(), room.log.count, room.log.octets, room.log.unwritten()])


def same(one, other):
    """Whether two rooms are in the same state, as far as anyone sees it."""
    return seen(one) == seen(other)
