"""The calls of the library, of a host and of the tutor: each by its name and the numbers that it is
given.

What is given stands so in the list of calls, a packet as hex; so a replay makes the same call.
"""

import hello


def _counter(counter):
    count, overflow, again = counter
    return hello.Counter(count, overflow, again)


def _place(place):
    """A place of a walk as a reply has it, or None."""
    if place is None:
        return None
    returned = {"step": place.step, "line": place.line or None}
    return {**returned, "id": place.host if place.line else None, "name": str(place)}


def _initialize(host, nhosts):
    """With an NHOSTS for the host's settings, which one that is refused does not keep."""
    before = host.settings.nhosts
    host.settings.nhosts = nhosts
    answer = host.initialize()
    if answer != 0:
        host.settings.nhosts = before
    return answer, {}


def _read(host, counter):
    answer, time, date = host.read(_counter(counter))
    return answer, {"time": time, "date": date}


def _lookup(host, address):
    answer, id, pid = host.lookup([int(octet) for octet in address.split(".")])
    return answer, {"id": id, "pid": pid}


def _send(host, link, counter):
    answer, message = host.send(link, _counter(counter))
    return answer, {"length": len(message), "octets": message.hex(" ")}


def _inspect(host, link, packet):
    answer, source, time, tsp, nhosts = host.inspect(link, bytes.fromhex(packet))
    returned = {"source": ".".join(map(str, source)), "time": time, "tsp": tsp, "nhosts": nhosts}
    return answer, returned


def _act(host, link, packet, counter):
    return host.act(link, bytes.fromhex(packet), _counter(counter)), {}


def _receive(host, link, packet, counter):
    """The arrival in one piece: only lists of calls written before have it."""
    return host.receive(link, bytes.fromhex(packet), _counter(counter)), {}


def _open_walk(host, link, packet):
    answer, place = host.open_walk(link, bytes.fromhex(packet))
    return answer, {"next": _place(place)}


def _step(host, counter):
    answer, place = host.step(_counter(counter))
    return answer, {"next": _place(place)}


def _write(host, text):
    """Not a call on the host: the reader of texts."""
    try:
        return 0, {"octets": hello.text.from_text(text).hex(" ")}
    except hello.Refused as refused:
        return refused.number, {}


_CALLS = {
    "initialize": _initialize,
    "tick": lambda host, count: (host.tick(count), {}),
    "adjust": lambda host, count: (host.adjust(count), {}),
    "set": lambda host, ms, count: (host.set(ms, count), {}),
    "read": _read,
    "second": lambda host: (host.second(), {}),
    "self_report": lambda host, counter: (host.self_report(_counter(counter)), {}),
    "lookup": _lookup,
    "send": _send,
    "inspect": _inspect,
    "act": _act,
    "receive": _receive,
    "open_walk": _open_walk,
    "step": _step,
    "write": _write,
}
COUNTED = ("tick", "adjust", "set")
"""The calls that are handed the crystal's count."""
READING = ("read", "self_report", "send", "act", "receive", "step")
"""The calls that are handed the counter: count, mark of an overflow, count again."""


def _net_add(table, net, id):
    answer, row = table.add([int(octet) for octet in net.split(".")], id)
    return answer, {"row": row}


_TUTORS = {
    "net_afresh": lambda table, nhosts: (table.initialize(nhosts), {}),
    "net_add": _net_add,
    "net_remove": lambda table, row: (table.remove(row), {}),
    "net_change": lambda table, row, id: (table.change(row, id), {}),
}


def make(host, call, given, times=1):
    """Makes a call, that many times: the number of the last answer, and what it returned."""
    if call == "tick":
        return int(host.ticks(times, **given)), {}
    for _ in range(times):
        answer, returned = _CALLS[call](host, **given)
    return int(answer), returned


def tutor(table, call, given):
    """Makes a call of the tutor's on the class's net table: the number of its answer, and what it
    returned."""
    answer, returned = _TUTORS[call](table, **given)
    return int(answer), returned
