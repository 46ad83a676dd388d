"""The room's time: it goes on from one second, or one arrival, to the next."""

from .net import Net

SECOND = 1_000
MOST_TICKS = 4_000
"""An advance gives about that many ticks of line clocks at most, which bounds the speed."""


class Timed(Net):
    """A net whose time goes on; where it `waits`, not while a hand is asked for."""

    waits = False

    def begin(self, set_up):
        super().begin(set_up)
        self._rest = 0.0

    def waiting_for(self):
        """The seats for whose sake time stands."""
        return [
            seat.number
            for seat in self.seats
            if seat.behind(self.now) or self.waits and seat.busy
        ]

    def advance(self, ms):
        """Time goes on by that many ms, of which parts add up, unless it has to stand, and not by
        more than the line clocks' ticks allow; tells by how many it went on."""
        start = self.now
        self.go_on(start + self.step_of(ms))
        return self.now - start

    def step_of(self, ms):
        """The whole ms by which time may go on after that many ms more, of which parts add up."""
        line_clocks = sum(not seat.crystal for seat in self.seats)
        self._rest = min(self._rest + ms, MOST_TICKS // max(line_clocks, 1))
        whole = int(self._rest)
        self._rest -= whole
        return whole

    def go_on(self, to):
        """Time goes on to that ms, unless it has to stand before."""
        while self.now < to and not self.waiting_for() and not self.log.full:
            self.go(to)
        self.tick()

    def to_arrival(self, most):
        """Time goes on to the next arrival of a message, in at most that many ms."""
        to = self.now + most
        while self.now < to and not self.waiting_for() and not self.log.full:
            if self.go(to):
                break
        self.tick()

    def go(self, to):
        """To the next second, the next arrival or that ms, whichever comes first; tells whether
        messages arrived."""
        arrival = self.cables.next_arrival()
        second = self.now - self.now % SECOND + SECOND
        self.now = min(to, second, to if arrival is None else arrival)
        if self.now % SECOND == 0:
            self._second(self.now // SECOND)
        return self.arrivals()

    def _second(self, second):
        """What seats that work by themselves do each second."""
        for seat in self.seats:
            if seat.by_hand or seat.in_walk:
                continue
            self.take_all(seat)
            self.make(seat, "second")
            self.make(seat, "adjust")
            if (second + seat.number) % self.set_up["interval"] == 0:
                self._report(seat)

    def _report(self, seat):
        self.make(seat, "self_report")
        for link in range(1, seat.host.settings.link_count + 1):
            if self.cables.far(seat.number, link):
                self.send(seat, link)

    def tick(self):
        """The line clocks tick, so that none is far behind."""
        for seat in self.seats:
            if not seat.crystal:
                self.catch_up(seat)


def go_by(room, ms):
    """Milliseconds go by, whatever waits."""
    to = room.now + ms
    while room.now < to:
        room.go(to)
    room.tick()
