"""A copy of an exercise in the room: how far it is, and what was expected and found at each stage."""

from hello.bench_file import Entry

from . import predicted
from .fitting import Numbers, name_of
from .segments import key_of

AHEAD = 4
"""This many segments ahead calls count, if the calls before them are still to be made."""
MOST_CALLS = 6
MOST_PROMISES = 24
"""This many right calls and promises of a stage are kept; the others are counted."""
MOST_WRONG = 100
"""This many wrong ones."""


class Checks:
    """Some checks of a stage: how many there were and how many were right, and some of them. A check is
    what, expected, actual, right; `what` is a text by its key, with its values."""

    def __init__(self, most):
        self._most = most
        self.count = 0
        self.right = 0
        self.kept = []
        self.wrong = []

    def add(self, what, expected, actual):
        """Takes a check."""
        right = expected == actual
        self.count += 1
        self.right += right
        kept, most = (self.kept, self._most) if right else (self.wrong, MOST_WRONG)
        if len(kept) < most:
            kept.append({"what": what, "expected": expected, "actual": actual, "right": right})


class Result:
    """What came of a stage: the answers of its calls, and the numbers that it promises. `right` is None
    while the stage is under way."""

    def __init__(self):
        self.calls = Checks(MOST_CALLS)
        self.promises = Checks(MOST_PROMISES)
        self.right = None

    def end(self):
        """The stage is over."""
        self.right = all(checks.right == checks.count for checks in (self.calls, self.promises))


class Copy:
    """One copy: which seats it has, which segment it is at, and what calls of it were made."""

    segments = ()
    """Those of the exercise; the course gives them."""

    def __init__(self, exercise, number, copies):
        self.number = number
        self.numbers = Numbers(exercise, number, copies)
        self.seats = range(self.numbers.base, self.numbers.base + self.numbers.seats)
        self.names = [name_of(exercise, k, number, copies) for k in range(self.numbers.seats)]
        self.stages = len(exercise.stages)
        self.at = 0
        self.results = [Result() for _ in exercise.stages]
        self.trays = {}
        self.predicted = {}
        self._made = {}
        self._others = {}

    def __getstate__(self):
        return {name: value for name, value in self.__dict__.items() if name != "segments"}

    @property
    def ended(self):
        """Whether all stages are over."""
        return self.at == len(self.segments)

    @property
    def stage(self):
        """The number of the stage that is under way; that of stages at the end."""
        return self.stages if self.ended else self.segments[self.at].stage

    @property
    def right(self):
        """Whether it came out as the exercise says; None before its end."""
        return all(result.right for result in self.results) if self.ended else None

    def made(self, segment, key):
        """How many times calls of a key were made that count in a segment."""
        return self._made.get(segment, {}).get(key, 0)

    def saw(self, room, key, answer, times):
        """A call was made, by whomever: the call that it counts as, or None."""
        found = None
        for segment in range(self.at, min(self.at + AHEAD, len(self.segments))):
            done = self.made(segment, key)
            matched = self.segments[segment].matching(key, done, answer, times)
            if matched:
                found = found or self.segments[segment].next(key, done)[0]
                self._made.setdefault(segment, {})[key] = done + matched
                self._note(found, segment, matched, answer)
                times -= matched
            if not times:
                break
        if not found and key in self.segments[self.at].total:
            self._others[key] = answer
        self.advance(room)
        return found

    def _note(self, call, segment, times, answer):
        result = self.results[self.segments[segment].stage]
        result.calls.add(self.words(call, times), call.answer, answer)

    def words(self, call, times=1):
        """A call as a text by its key."""
        values = {"name": self.names[call.seat], "link": call.link, "amount": call.amount}
        given = {name: value for name, value in values.items() if value is not None}
        text = [f"exercise.call.{call.kind}", given]
        return ["exercise.times", {"call": text, "times": times}] if times > 1 else text

    def advance(self, room):
        """Goes past each segment whose calls are all made, and looks at what it promises."""
        while not self.ended and self._complete():
            self._pass(room)

    def _complete(self):
        return sum(self._made.get(self.at, {}).values()) == sum(self.segments[self.at].total.values())

    def give_up(self, room):
        """Goes past the segment, of which calls were not made as the exercise says."""
        segment, result = self.segments[self.at], self.results[self.segments[self.at].stage]
        for call, before in segment.before.items():
            missing = min(call.times, before + call.times - self.made(self.at, key_of(call)))
            if missing > 0:
                other = self._others.get(key_of(call))
                # None is a call that was not made, or not with this answer.
                actual = None if other == call.answer else other
                result.calls.add(self.words(call, missing), call.answer, actual)
        self._pass(room)

    def _pass(self, room):
        segment = self.segments[self.at]
        result = self.results[segment.stage]
        tables = _Tables(room, self.numbers)
        for promise in segment.promises:
            for each in promise.compared(tables):
                result.promises.add(self._of(promise, each.field), each.expected, each.actual)
        self._made.pop(self.at, None)
        self._others.clear()
        self.at += 1
        if self.ended or self.segments[self.at].stage != segment.stage:
            result.end()
            predicted.mark(room, self, segment.stage, segment.predictions, tables)

    def host_name(self, host):
        """The name of a host of the exercise, in this copy."""
        return self.names[host] if host < len(self.names) else f"host {host}"

    def _of(self, promise, field):
        """A value of a table as a text by its key."""
        host = self.host_name(promise.host)
        seat = getattr(promise, "seat", None)
        if seat is None:
            return ["exercise.least", {"host": host}]
        return ["exercise.entry", {"host": host, "seat": self.names[seat], "field": field}]


class _Tables:
    """The entry of a room by (seat, host) of an exercise; None if the table has no such host."""

    def __init__(self, room, numbers):
        self._room = room
        self._numbers = numbers

    def __getitem__(self, place):
        seat, host = place
        table = self._room.seats[self._numbers.seat(seat)].state.table
        host = self._numbers.host(host)
        return Entry(*table[host][: len(Entry._fields)]) if host < len(table) else None
