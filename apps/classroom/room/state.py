"""The state of a host, and what changed between two of them."""

from typing import NamedTuple, Optional

from hello import UNITS_PER_MS

from .fields import dotted

DOWN = 30_000


class State(NamedTuple):
    """All that a call may change. `walk` is None, or the next place, and what is held there."""

    clock: tuple
    links: tuple
    table: tuple
    walk: Optional[tuple]

    @property
    def nhosts(self):
        """NHOSTS of the settings with which it was set afresh."""
        return len(self.table)


def state_of(host, link_count=None):
    """The state of a host as its last call left it; one without settings gets its number of links."""
    clock = host.clock
    count = host.settings.link_count if link_count is None else link_count
    links = tuple(host.links[link] for link in range(count))
    times = (clock.clock, clock.delta, clock.hold, clock.date)
    return State(times, links, tuple(host.table), _walk(host.walk))


def ticked(state, host):
    """The state after ticks, which change the clock alone."""
    clock = host.clock
    return state._replace(clock=(clock.clock, clock.delta, clock.hold, clock.date))


def _walk(walk):
    if not walk.opened:
        return None
    line = "abcd"[walk.line - 1] if walk.line else None
    name = f"host {walk.id}, line {line}" if line else f"step {walk.step}"
    return (
        name,
        walk.reading if walk.step > 1 else None,
        walk.delay if walk.step > 3 else None,
        walk.offset if walk.step > 3 else None,
    )


def ms(units):
    """Clock units as milliseconds: a whole number where it is one."""
    whole, rest = divmod(units, UNITS_PER_MS)
    return round(units / UNITS_PER_MS, 4) if rest else whole


def _settings(nhosts):
    return {"NHOSTS": nhosts}


def _clock(clock):
    units, delta, hold, date = clock
    return {"CLOCK": ms(units), "DELTA": ms(delta), "HOLD": hold, "DATE": date}


def _link(link):
    neighbor, keep_alive, tsp = link
    return {"NEIGHBOR-ADDRESS": dotted(neighbor), "KEEP-ALIVE": keep_alive, "TSP": tsp}


def _entry(entry):
    delay, offset, ttl, pid, here, time = entry
    return {"DELAY": delay, "OFFSET": offset, "TTL": ttl, "PID": pid, "lives here": here, "time": time}


def _held(walk):
    return dict(zip(("next", "reading", "DELAY", "OFFSET"), walk or 4 * (None,)))


def changes(before, after):
    """What changed, each with its place, its field, and the values before and after."""
    parts = [("settings", before.nhosts, after.nhosts, _settings)]
    parts.append(("clock", before.clock, after.clock, _clock))
    for number, (old, new) in enumerate(zip(before.links, after.links), 1):
        parts.append((f"link {number}", old, new, _link))
    for id, (old, new) in enumerate(zip(before.table, after.table)):
        parts.append((f"host {id}", old, new, _entry))
    parts.append(("walk", before.walk, after.walk, _held))
    found = []
    for where, old, new, fields in parts:
        if old != new:
            # What a walk holds ends with it, which is no change.
            returned = ("next",) if new is None else fields(new)
            old, new = fields(old), fields(new)
            moved = [field for field in returned if old[field] != new[field]]
            found += [
                {"where": where, "field": field, "before": old[field], "after": new[field]}
                for field in moved
            ]
    return found


def stored(before, after):
    """The ids whose entries were stored anew, up."""
    pairs = enumerate(zip(before.table, after.table))
    return [id for id, (old, new) in pairs if old != new and new.delay < DOWN]


def shown(state):
    """The state as the end of the file of calls has it."""
    return {
        "clock": list(state.clock),
        "links": [_link(link) for link in state.links],
        "walk": _held(state.walk) if state.walk else None,
        "table": [list(entry) for entry in state.table],
    }
