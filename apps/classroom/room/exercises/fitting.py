"""Whether a room can carry an exercise out, and the set-up of as many copies of it as fit."""

from hello.bench_file import Call
from hello.bench_file.file import LONGEST_TICK

from ..setup import CABLES, HOLD_INTERVAL, HOSTS, LONGEST_WAY, SEATS, address_of

LONGEST = 600_000
"""The longest time, in ms, that an exercise may keep a message on its way."""


def faults_of(exercise):
    """What a room cannot carry out: numbers of lines, each with what is wrong, in words."""
    return sorted({*_of_seats(exercise), *_of_cables(exercise), *_of_calls(exercise)})


def _of_seats(exercise):
    seats = exercise.file.seats
    if not seats:
        yield 1, "an exercise has a line 'seat' for each host, and this one has none"
    for number, (seat, line) in enumerate(zip(seats, exercise.seat_lines)):
        address = ".".join(map(str, address_of(number)))
        if tuple(seat.address) != tuple(address_of(number)) or seat.offset != 1:
            yield line, f"in a room seat {number} has the address {address} and ADDRESS-OFFSET 1"
        if seat.hold != HOLD_INTERVAL:
            yield line, f"in a room HOLD-INTERVAL is {HOLD_INTERVAL}"
        if seat.tick != LONGEST_TICK:
            yield line, "in an exercise of the room every clock is a crystal: leave clock-tick out"
        if any(seat.links):
            yield line, "a room has no broadcast links"
        for id in seat.also:
            if id < len(seats):
                yield line, f"host {id} is a seat's own: further hosts have ids from {len(seats)} on"
        if seat.nhosts > HOSTS:
            yield line, f"NHOSTS is {seat.nhosts}: a room has {HOSTS} hosts at most"


def _of_cables(exercise):
    used = set()
    for cable, line in zip(exercise.file.cables, exercise.cable_lines):
        first, second = cable.ends
        if first[0] == second[0]:
            yield line, "in a room a cable joins two different seats"
        for end in cable.ends:
            if end in used:
                yield line, f"link {end[1]} of seat {end[0]} has a cable already"
            used.add(end)


def _of_calls(exercise):
    for stage in exercise.stages:
        for call in stage.calls:
            if call.kind == "tick":
                yield call.line, "in a room clocks tick by themselves: write 'wait' instead"
            if call.kind == "arrival" and call.seat is None:
                yield call.line, f"tray {call.tray} is empty: nothing was sent into it"
            if any(way > LONGEST for way in call.ways):
                yield call.line, f"a message is on its way for more than {LONGEST:,} ms"


def most_copies(exercise):
    """How many copies a room has place for."""
    seats, cables = len(exercise.file.seats), len(exercise.file.cables)
    limits = (SEATS // seats, HOSTS // exercise.file.seats[0].nhosts)
    return max(1, min(*limits, CABLES // cables if cables else SEATS))


class Numbers:
    """The numbers that the seats and hosts of an exercise have in a copy of it."""

    def __init__(self, exercise, copy, copies):
        self.seats = len(exercise.file.seats)
        self.base = copy * self.seats
        further = exercise.file.seats[0].nhosts - self.seats
        self._further = copies * self.seats + copy * further

    def seat(self, number):
        """The room's number of a seat."""
        return self.base + number

    def host(self, id):
        """The room's id of a host."""
        return self.base + id if id < self.seats else self._further + id - self.seats


def set_up(exercise, copies):
    """The set-up of a room with that many copies, all seats with crystals and by hand."""
    seats, cables = [], []
    first = exercise.file.seats[0]
    ways = _ways(exercise)
    for copy in range(copies):
        numbers = Numbers(exercise, copy, copies)
        for number, seat in enumerate(exercise.file.seats):
            seats.append(
                {
                    "name": name_of(exercise, number, copy, copies),
                    "difference": seat.time - first.time,
                    "crystal": True,
                    "by_hand": True,
                    "clock_host": None if seat.clock_host == 255 else numbers.host(seat.clock_host),
                    "also": sorted(numbers.host(id) for id in seat.also),
                }
            )
        for number, cable in enumerate(exercise.file.cables):
            ends = [[numbers.seat(seat), link] for seat, link in cable.ends]
            cables.append({"ends": ends, "ways": ways[number]})
    return {"seats": seats, "cables": cables, "time": first.time, "nhosts": copies * first.nhosts}


def name_of(exercise, number, copy, copies):
    """The name of a seat in a copy."""
    name = exercise.names[number]
    return name if copies == 1 else f"{name} {copy + 1}"


def _ways(exercise):
    """Of each cable the least and the most time of a message, there and back."""
    taken = {}
    for stage in exercise.stages:
        for call in stage.calls:
            if isinstance(call, Call) and call.kind == "send":
                taken.setdefault((call.seat, call.link), []).extend(call.ways)
    ends = [[taken.get(tuple(end)) or [0] for end in cable.ends] for cable in exercise.file.cables]
    return [[[min(min(of), LONGEST_WAY), min(max(of), LONGEST_WAY)] for of in both] for both in ends]
