"""The conditions under which the bound of demand 3 is promised, and since when one does not hold.

A condition that failed stays failed: the theorem speaks of the list of calls from its start.
"""

from .setup import DAY

FURTHEST = 16_384
"""The clocks of two seats differ by at most these ms."""
LONGEST = 16_383
"""A message is on its way for at most these ms."""


class Promise:
    """The conditions of one room, watched call by call. `broken` is a list of texts, each a key of the
    language files and its values, in the order in which the conditions failed."""

    def __init__(self, room):
        self.broken = []
        self._seen = set()
        self._fixed = {}
        for seat in room.seats:
            self._fixed[seat.number] = apart(seat, room.now)
            if room.set_up["seats"][seat.number]["clock_host"] is not None:
                self._break("clock_host", room, seat)
        self._differences(room, None, None)
        for number in range(len(room.cables.cables)):
            self.cable(room, number)

    def _break(self, sort, room, seat, **values):
        """A condition fails, once for each sort and seat."""
        if (sort, seat and seat.number) in self._seen:
            return
        self._seen.add((sort, seat and seat.number))
        returned = {"seat": seat.name} if seat else {}
        self.broken.append([f"promise.{sort}", {**returned, "time": clock(room.now), **values}])

    def cable(self, room, number):
        """A cable has new times."""
        ways = room.cables.cables[number]["ways"]
        if max(most for _, most in ways) > LONGEST:
            self._break("slow", room, None, cable=number + 1, longest=LONGEST)

    def call(self, room, seat, name, answer):
        """A call of a seat was made: its clock may have moved against the room's time."""
        if answer not in (0, 10, 11):
            return
        if name == "initialize":
            self._break("initialized", room, seat)
        now = apart(seat, room.now)
        if abs(now - self._fixed[seat.number]) > 1:
            if name != "initialize":
                self._break("moved", room, seat, by=now - self._fixed[seat.number])
            self._fixed[seat.number] = now
            self._differences(room, seat, name)

    def written(self, room, seat):
        """A seat takes a message that no seat has sent."""
        self._break("written", room, seat)

    def _differences(self, room, seat, name):
        """Whether any two clocks differ by too much."""
        numbers = list(self._fixed.values())
        if numbers and max(numbers) - min(numbers) > FURTHEST:
            cause = {"initialize": "far_initialized", None: "far_set_up"}.get(name, "far_moved")
            self._break(cause, room, seat, most=FURTHEST)


def apart(seat, now):
    """By how many ms the seat's clock is ahead of the room's time."""
    return seat.reading(now) - now % DAY


def clock(now):
    """A time of the room: 3:06."""
    return f"{now // 60_000}:{now // 1_000 % 60:02}"
