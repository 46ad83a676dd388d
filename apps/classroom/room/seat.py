"""A seat: a host, what drives its clock, the messages that wait at its links, its walk."""

from functools import cached_property

from hello import UNITS_PER_MS

from . import fields
from .calls import COUNTED, READING
from .setup import DAY, OVERFLOW
from .state import state_of

MOST_WAITING = 64
"""The messages that may wait at a link. If one more arrives there, the oldest of that link is lost."""
MOST_BEHIND = 600_000
"""This many ticks may wait for the end of a walk; then the room's time stands."""
READ = (0, 10, 11)
"""The answers of calls that have read the clock."""


class Message:
    """A message that waits at a link; one that was written by hand, no seat has sent."""

    def __init__(self, number, link, octets, arrived, by_hand=False):
        self.number = number
        self.link = link
        self.octets = octets
        self.arrived = arrived
        self.by_hand = by_hand

    @property
    def given(self):
        """What a call that takes the message is given of it."""
        return {"link": self.link, "packet": self.octets.hex(" ")}

    @cached_property
    def _shown(self):
        return {
            "message": self.number,
            "link": self.link,
            "from": fields.source(self.octets),
            "arrived": self.arrived,
            "octets": self.octets.hex(" "),
            "fields": fields.fields(self.octets),
            "text": fields.text(self.octets),
        }

    def shown(self):
        """The message as a page shows it; how long it has waited the page knows by the room's time."""
        return self._shown

    def __getstate__(self):
        return {name: value for name, value in self.__dict__.items() if name != "_shown"}


class Seat:
    """A seat of the room. `given` counts the ticks that its clock has been given, `filled` the
    octets of the list that its own page's calls have filled."""

    def __init__(self, number, plan, host):
        self.number = number
        self.name = plan["name"]
        self.difference = plan["difference"]
        self.crystal = plan["crystal"]
        self.by_hand = plan["by_hand"]
        self.also = plan["also"]
        self.host = host
        self.given = 0
        self.filled = 0
        self.waiting = {}
        self.lost = {}
        self.trying = {}
        self.predicted = None
        self.walk = None
        self.last = None
        self.state = state_of(host)

    @property
    def in_walk(self):
        """Whether a walk is open."""
        return self.state.walk is not None

    @property
    def busy(self):
        """Whether a hand is asked for."""
        return self.in_walk or self.by_hand and bool(self.waiting)

    def due(self, now):
        """The ticks that are due: of a line clock for each ms, of a crystal for each overflow."""
        return (now // OVERFLOW if self.crystal else now) - self.given

    def behind(self, now):
        """Whether an open walk keeps so many ticks waiting that time has to stand. A crystal's
        reading is still to come at step 1, and can make one tick only."""
        if not self.in_walk:
            return False
        to_read = self.crystal and self.host.walk.step == 1
        return self.due(now) >= (1 if to_read else MOST_BEHIND)

    def count(self, now):
        """What a crystal's counter shows; a line clock has none, and passes 0."""
        return now % OVERFLOW if self.crystal else 0

    def handed(self, call, now):
        """What a call is handed of the counter."""
        count = self.count(now)
        if call in COUNTED:
            return {"count": count}
        if call in READING:
            return {"counter": [count, True, count] if self.marks(now) else [count, False, 0]}
        return {}

    def reads(self, call):
        """Whether the call, unless it is refused, reads the clock; of a walk the first box does."""
        return call in READING and (call != "step" or self.host.walk.step == 1)

    def marks(self, now):
        """Whether the next reading is handed the mark of an overflow."""
        return self.crystal and self.due(now) > 0

    def reading(self, now, due=True):
        """What the clock reads, with or without the ticks that are due, in whole ms."""
        units = self.state.clock[0] + UNITS_PER_MS * self.count(now)
        if due or self.crystal:
            units += self.due(now) * self.host.settings.clock_tick
        time = units // UNITS_PER_MS
        return time if 0 <= time <= DAY else time % DAY

    def arrive(self, message):
        """A message arrives, and waits in the queue of its link. If that is full, its oldest message
        is lost, and `lost` says so."""
        queue = [waits for waits in self.waiting.values() if waits.link == message.link]
        if len(queue) >= MOST_WAITING:
            oldest, lost = queue[0].number, self.lost.get(message.link)
            del self.waiting[oldest]
            count = lost["count"] + 1 if lost else 1
            self.lost[message.link] = {
                "link": message.link,
                "count": count,
                "message": oldest,
                "time": message.arrived,
                "most": MOST_WAITING,
            }
        self.waiting[message.number] = message
