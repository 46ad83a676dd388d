"""The hosts, their cables and the class's net table. Every change of a seat or of the table is a call
that is made, and logged, here."""

from collections import deque

from . import calls, net_table
from .answers import in_words
from .cables import Cables
from .log import Log
from .paper import FilePaper
from .promise import Promise
from .seat import READ, Message, Seat
from .setup import DAY, class_of
from .state import changes, state_of, stored, ticked

MOST_POINTS = 20_000
STORING = ("act", "step", "self_report")
"""The calls that may store an entry."""


class Net:
    """Seats, cables, the class's net table and the list of calls, at one millisecond, `now`. `paper`
    makes the place of a list's lines."""

    paper = FilePaper

    def begin(self, set_up):
        """Net table and hosts freshly set by a checked set-up; the list of calls begins anew."""
        self.set_up = set_up
        self.now = 0
        self.messages = 0
        self.log = Log(set_up, self.paper())
        self.points = deque(maxlen=MOST_POINTS)
        self.pointed = 0
        self.cables = Cables([dict(cable) for cable in set_up["cables"]], set_up["seed"])
        self.net_table, hosts = class_of(set_up)
        plans = enumerate(zip(set_up["seats"], hosts))
        self.seats = [Seat(number, plan, host) for number, (plan, host) in plans]
        self.tutor("net_afresh", {"nhosts": set_up["nhosts"]})
        self.tutored = None
        self.promise = None
        for seat in self.seats:
            self.initialize(seat)
            seat.last = None
        self.promise = Promise(self)

    def tutor(self, call, given):
        """Makes a call of the tutor's on the net table, after all seats' ticks that are due: the
        reply, with what changed."""
        for seat in self.seats:
            self.catch_up(seat)
        before = net_table.shown(self.net_table)
        answer, returned = calls.tutor(self.net_table, call, given)
        self.log.add(self.now, None, call, given, answer, returned, 1)
        moved = net_table.changes(before, net_table.shown(self.net_table))
        self.tutored = {"call": call, **in_words(answer), "changes": moved, "returned": returned}
        return self.tutored

    def initialize(self, seat):
        """A seat is set afresh, with the class's NHOSTS."""
        return self.make(seat, "initialize", {"nhosts": self.net_table.nhosts})

    def make(self, seat, call, given=None, times=1):
        """Makes a call of a seat, after the ticks that are due: the reply, with what changed."""
        # An inspection leaves a crystal's last tick to the reading of the action after it.
        self.catch_up(seat, leave=1 if call in calls.READING or call == "inspect" else 0)
        given = {**(given or {}), **seat.handed(call, self.now)}
        before, reads = seat.state, seat.reads(call)
        answer, returned = calls.make(seat.host, call, given, times)
        self.log.add(self.now, seat.number, call, given, answer, returned, times)
        seat.state = state_of(seat.host)
        if reads and answer in READ:
            seat.given += seat.marks(self.now)
        if call == "initialize" and answer == 0:
            seat.given += seat.due(self.now)
        if call in STORING:
            self._point(seat, stored(before, seat.state))
        if self.promise:
            self.promise.call(self, seat, call, answer)
        if not seat.in_walk and call != "step":
            seat.walk = None
        moved = changes(before, seat.state)
        seat.last = {"call": call, **in_words(answer), "changes": moved, "returned": returned}
        return seat.last

    def catch_up(self, seat, leave=0):
        """Gives a seat the ticks that are due; a crystal's last one may be left to a reading."""
        due = seat.due(self.now) - (leave if seat.crystal else 0)
        if due <= 0 or seat.in_walk:
            return
        given = {"count": seat.count(self.now)}
        answer, _ = calls.make(seat.host, "tick", given, due)
        self.log.ticks(self.now, seat.number, given, answer, due)
        seat.given += due
        seat.state = ticked(seat.state, seat.host)

    def home(self, id):
        """The seat at which the host of that id lives, or None."""
        return next((seat for seat in self.seats if id == seat.number or id in seat.also), None)

    def true(self, seat, id):
        """The clock of the seat at which that host lives less this seat's, in ms, or None."""
        home = self.home(id)
        if home is None:
            return None
        apart = home.reading(self.now) - seat.reading(self.now)
        return (apart + DAY // 2) % DAY - DAY // 2

    def _point(self, seat, ids):
        for id in ids:
            entry, true = seat.state.table[id], self.true(seat, id)
            if true is not None:
                self.points.append([self.now, seat.number, id, entry.offset - true, entry.delay])
                self.pointed += 1

    def send(self, seat, link, way=None):
        """A send of a seat; the message goes on its cable, and may be there at once."""
        reply = self.make(seat, "send", {"link": link})
        if reply["answer"] == 0:
            octets = bytes.fromhex(reply["returned"]["octets"])
            reply["returned"]["way"] = {"message": None, "to": None, "arrival": None, "lost": True}
            for way in self.ways(way):
                number = self.new_message()
                sent = self.cables.send(self.now, seat.number, link, number, octets, way)
                reply["returned"]["way"] = {"message": number, **sent}
            self.arrivals()
        return reply

    def ways(self, way):
        """The times of the message that was just sent, one for each of its arrivals; None if its cable
        decides."""
        return [way]

    def new_message(self):
        """The number of a new message."""
        self.messages += 1
        return self.messages

    def arrivals(self):
        """The messages that have arrived wait at their links; a seat that works by itself takes
        them. Tells whether there were any."""
        some = False
        while way := self.cables.arrived(self.now):
            number, link = way.to
            seat, some = self.seats[number], True
            seat.arrive(Message(way.message, link, way.octets, self.now))
            self.take_all(seat)
        return some

    def take_all(self, seat):
        """A seat that works by itself takes all that waits, as long as it is taken."""
        while seat.waiting and not seat.by_hand and not seat.in_walk:
            message = next(iter(seat.waiting.values()))
            self.receive(seat, message)
            if message.number in seat.waiting:
                return

    def receive(self, seat, message):
        """A seat takes a message that waits: an inspection and, if that is passed, the action."""
        inspected = self.make(seat, "inspect", message.given)
        reply = self.make(seat, "act", message.given) if inspected["answer"] == 0 else inspected
        if message.by_hand and inspected["answer"] == 0:
            self.promise.written(self, seat)
        if reply["answer"] not in (1, 12, 16):
            del seat.waiting[message.number]
        seat.last = {**reply, "call": "receive", "returned": {}}
        return seat.last
