"""A copy of a host, on which a call is made to learn what it would do."""

import hello

from . import calls
from .state import state_of

_WALK = ("opened", "link", "step", "line", "id", "length", "count", "reading", "delay", "offset")


def copied(host):
    """A host with the same settings, net table, clock, links, walk and entries. A call of the copy
    changes nothing of the host."""
    room = hello.Room(host.number + 1, host.room.net_table.nhosts)
    room.net_table.slots = host.room.net_table.rows
    copy = room.host(host.number, host.settings)
    clock = host.clock
    copy.clock = hello.Clock(clock.clock, clock.delta, clock.hold, clock.date)
    copy.links = hello.Links([host.links[link] for link in range(hello.LINKS)])
    for part in _WALK:
        setattr(copy.walk, part, getattr(host.walk, part))
    copy.walk.copy = host.walk.copy
    first = host.number * hello.PLACES
    for id, entry in enumerate(host.table):
        room.entries[first + id] = entry
    return copy


class Made:
    """A call made on a copy: the states before and after it, its answer and what it returned."""

    def __init__(self, copy, call, given):
        self.before = state_of(copy)
        self.answer, self.returned = calls.make(copy, call, given)
        self.after = state_of(copy)
