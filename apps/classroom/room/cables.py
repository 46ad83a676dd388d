"""The cables, and the messages on their way."""

import heapq
import random
from typing import NamedTuple

MOST = 256
"""This many messages may be on their way at once from one end of a cable."""


class Far(NamedTuple):
    """The other end of a link's cable, and the direction there: 0 from the first end, 1 back."""

    cable: int
    direction: int
    seat: int
    link: int


class Way(NamedTuple):
    """A message on its way, by its arrival in room ms, then by its number."""

    arrival: int
    message: int
    cable: int
    direction: int
    sent: int
    to: tuple
    octets: bytes


class Cables:
    """All cables of a room: dicts of ends, ways and loss."""

    def __init__(self, cables, seed):
        self.cables = cables
        self.on_their_way = []
        self._random = random.Random(seed)
        self._far = {}
        for number, cable in enumerate(cables):
            first, second = (tuple(end) for end in cable["ends"])
            self._far[first] = Far(number, 0, *second)
            self._far[second] = Far(number, 1, *first)

    def far(self, seat, link):
        """The other end of the cable at a link, or None."""
        return self._far.get((seat, link))

    def change(self, cable, conditions):
        """New times and losses for a cable; what is on its way goes on."""
        self.cables[cable].update(conditions)

    def full(self, seat, link):
        """Whether the cable at a link holds no more messages in that direction."""
        far = self.far(seat, link)
        same = [w for w in self.on_their_way if far and w[2:4] == (far.cable, far.direction)]
        return len(same) >= MOST

    def send(self, now, seat, link, message, octets, way=None):
        """Sends a message, unless the cable loses it; `way` decides its time. What became of it: the
        seat to which it goes and its arrival, `lost`, or no cable at all."""
        far = self.far(seat, link)
        if far is None or self.full(seat, link):
            return {"to": None, "arrival": None, "lost": False}
        cable = self.cables[far.cable]
        lost = self._random.randrange(100) < cable["loss"][far.direction]
        took = self._random.randint(*cable["ways"][far.direction])
        if lost:
            return {"to": far.seat, "arrival": None, "lost": True}
        arrival = now + (took if way is None else way)
        to = (far.seat, far.link)
        way = Way(arrival, message, far.cable, far.direction, now, to, octets)
        heapq.heappush(self.on_their_way, way)
        return {"to": far.seat, "arrival": arrival, "lost": False}

    def next_arrival(self):
        """When the next message arrives, or None."""
        return self.on_their_way[0].arrival if self.on_their_way else None

    def arrived(self, now):
        """Takes the next message that has arrived by now off its cable, or None."""
        if self.on_their_way and self.on_their_way[0].arrival <= now:
            return heapq.heappop(self.on_their_way)
        return None

    def sent_by(self, seat):
        """The messages of a seat that are on their way: number, link, receiver, arrival."""
        found = []
        for way in sorted(self.on_their_way):
            sender, link = self.cables[way.cable]["ends"][way.direction]
            if sender == seat:
                returned = {"message": way.message, "link": link, "to": way.to[0]}
                found.append({**returned, "arrival": way.arrival})
        return found

    def shown(self):
        """The messages on their way as a page shows them, each with the room ms at which it arrives."""
        return [
            {
                "message": way.message,
                "cable": way.cable,
                "from": self.cables[way.cable]["ends"][way.direction][0],
                "to": way.to[0],
                "arrives": way.arrival,
                "of": way.arrival - way.sent,
            }
            for way in sorted(self.on_their_way)
        ]
