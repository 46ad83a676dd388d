"""A packet as octets, as fields and as text."""

import hello

from .packet import HEADER

_HEADER = (
    ("version and header length", 1),
    ("service", 1),
    ("total length", 2),
    ("identification", 2),
    ("fragment", 2),
    ("time to live", 1),
    ("protocol", 1),
    ("header checksum", 2),
    ("source", 4),
    ("destination", 4),
)
_HELLO = (
    ("CHECKSUM", 2),
    ("DATE", 2),
    ("TIME", 4),
    ("TSP", 2),
    ("ADDRESS-OFFSET", 1),
    ("NHOSTS", 1),
)
_IN_HEX = ("version and header length", "header checksum", "CHECKSUM")


def dotted(octets):
    """An address in four decimal numbers."""
    return ".".join(str(octet) for octet in octets)


def day(date):
    """The day of a DATE word: 1984-01-31."""
    return f"{1972 + (date & 31)}-{date >> 10 & 15:02}-{date >> 5 & 31:02}"


def number(packet, name, id=None):
    """The number in a field of a packet; of a host's entry DELAY or OFFSET."""
    if id is not None:
        start = HEADER + 12 + 4 * id + (2 if name == "OFFSET" else 0)
        return int.from_bytes(packet[start : start + 2], "big", signed=name == "OFFSET")
    start = HEADER
    for field, length in _HELLO:
        if field == name:
            return int.from_bytes(packet[start : start + length], "big")
        start += length
    raise KeyError(name)


def source(packet):
    """The address from which a packet comes."""
    return dotted(packet[12:16])


def fields(packet):
    """The fields of a packet in their order: name, value, first octet and end. A value is a number, words,
    or a text of the language files."""
    hosts = [(f"host {id} {what}", 2) for id in range(packet[31]) for what in ("DELAY", "OFFSET")]
    listed, start = [], 0
    for name, length in (*_HEADER, *_HELLO, *hosts):
        value = _value(name, packet[start : start + length])
        listed.append({"name": name, "value": value, "octets": [start, start + length]})
        start += length
    return listed


def _value(name, octets):
    word = int.from_bytes(octets, "big", signed=name.endswith(" OFFSET"))
    if name in ("source", "destination"):
        return dotted(octets)
    if name in _IN_HEX:
        return f"{octets.hex()} hex"
    if name == "DATE":
        return ["packet.date.awaited" if word >> 15 else "packet.date", {"word": word, "day": day(word)}]
    if name == "TIME":
        return ["packet.time", {"ms": word, "clock": clock_words(word)}]
    if name.endswith(("DELAY", " OFFSET")):
        return ["packet.ms", {"ms": word}]
    return word


def clock_words(ms):
    """A time of the day: 12:00:00.081."""
    seconds, ms = divmod(ms, 1_000)
    minutes, seconds = divmod(seconds, 60)
    return f"{minutes // 60:02}:{minutes % 60:02}:{seconds:02}.{ms:03}"


def text(packet):
    """The packet's HELLO as text."""
    return hello.text.to_text(packet[HEADER:])
