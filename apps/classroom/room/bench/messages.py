"""What the teacher's page asks for at the bench."""

import base64
import binascii

from .. import checks
from ..checks import Refused, one_of, whole, words
from . import loaded, of_room

LONGEST_NAME = 100
MOST_EVENTS = 2_048


def _returned(room):
    """What was loaded."""
    now = room.bench.loaded
    return {"name": now.name, "octets": len(now.octets), "fault": now.fault}


def _load(room, message):
    name = checks.name("name", message["name"], LONGEST_NAME)
    if ("octets" in message) == ("text" in message):
        raise Refused("refused.octets_or_text")
    if "text" in message:
        file = loaded.read_text(name, words("text", message["text"], loaded.LONGEST_TEXT, lines=True))
    else:
        file = loaded.read_octets(name, _octets(message["octets"]))
    room.bench.load(file)
    return _returned(room)


def _octets(value):
    try:
        return base64.b64decode(words("octets", value, 4 * loaded.LONGEST), validate=True)
    except (binascii.Error, ValueError):
        raise Refused("refused.base64") from None


def _ready(room, message):
    room.bench.load(loaded.read_ready(one_of("file", message["file"], loaded.READY)))
    return _returned(room)


def _room(room, message):
    taken = of_room.taken(room)
    room.bench.load(loaded.of_file("room", taken.file))
    returned = {"events": len(taken.file.events), "lines": taken.lines, "of": taken.of}
    return {**_returned(room), **returned, "left_out": taken.left_out, "stopped": taken.stopped}


def _set_up(room, message):
    net = one_of("net", message["net"], ("own", "class"))
    return room.bench.set_up(room.net_table, net)


def _run(room, message):
    return room.bench.run(room.net_table, whole("events", message["events"], 1, MOST_EVENTS))


def _back(room, message):
    room.bench.back()
    return {"done": 0}


BENCH = {
    "bench_load": (_load, ("name",), ("octets", "text")),
    "bench_ready": (_ready, ("file",), ()),
    "bench_room": (_room, (), ()),
    "bench_set_up": (_set_up, ("net",), ()),
    "bench_run": (_run, ("events",), ()),
    "bench_back": (_back, (), ()),
}
"""By its name: what does it, the keys that the message needs, the keys that it may have."""
