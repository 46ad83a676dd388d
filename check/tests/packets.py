#!/usr/bin/env python3
"""Packets and what a host makes of them: the table of the arrivals that the program vectors runs. Checksums are computed here, and nothing of the library is used.

usage: packets.py FOLDER     write each packet for the packet program to FOLDER/NAME, what the programs print of it to NAME.hello_packet, NAME.hello_inspect and NAME.hello_walk, and print the names
       packets.py stdin      print the arrivals as vectors reads them: crates/test_calls/stdin
       packets.py stdout     print what it writes of them: the lines in front of crates/test_calls/stdout
"""
import os
import sys
from typing import NamedTuple

HELLO = 63
MORE_FRAGMENTS = 0x2000
US, NEIGHBOR, STRANGER, NOBODY = bytes([192, 0, 2, 1]), bytes([192, 0, 2, 2]), bytes([10, 0, 0, 1]), bytes(4)


def word(n, size=2):
    return n.to_bytes(size, "big")


def checksum(octets):
    """the complement of the one's complement sum of the 16-bit words"""
    total = sum(int.from_bytes(octets[i : i + 2], "big") for i in range(0, len(octets), 2))
    while total > 0xFFFF:
        total = (total & 0xFFFF) + (total >> 16)
    return total ^ 0xFFFF


def hello(table=(), nhosts=None, offset=1, time=40000, tsp=0, wrong=0):
    count = len(table) if nhosts is None else nhosts
    rest = word(1056) + word(time, 4) + word(tsp) + bytes([offset, count])
    rest += b"".join(word(delay) + word(clock_offset) for delay, clock_offset in table)
    return word(checksum(rest) ^ wrong) + rest


def ip(data, source=NEIGHBOR, version=4, words=5, length=None, fragment=0, protocol=HELLO, wrong=0):
    total = 20 + len(data) if length is None else length
    front = bytes([version * 16 + words, 0]) + word(total) + word(0) + word(fragment) + bytes([255, protocol])
    ends = source + US
    return front + word(checksum(front + ends) ^ wrong) + ends + data


class Entry(NamedTuple):
    delay: int
    ttl: int
    pid: int
    offset: int = 0


class Link(NamedTuple):
    keep_alive: int
    tsp: int
    neighbor: bytes


class Arrival(NamedTuple):
    """A packet that arrives on link 1 of a host of 192.0.2, NHOSTS 4, and what is expected of it. What is not said is as at a fresh host, and stays."""

    name: str
    packet: bytes
    answer: int
    link: Link = None  # afterwards
    entry: Entry = None  # that of the id afterwards
    host: int = 1  # the octets of the host's and the neighbor's addresses; no neighbor: 0.0.0.0
    neighbor: int = 0
    reading: int = 0
    hold: int = 0
    before: Entry = Entry(30000, 0, 0)  # all entries
    id: int = 1


def by_host(text, answer, packet, **more):
    """An arrival at a host that knows its neighbor, at 1,000 ms."""
    return Arrival(text, packet, answer, Link(4, 0, NEIGHBOR), neighbor=2, reading=1000, **more)


def reported(text, delay, before, after=None):
    """Link 1 reports host 2 at a DELAY, of which 100 are the way to the neighbor."""
    table = [(30000, 0), (30000, 0), (delay - 100, 0), (30000, 0)]
    packet = ip(hello(table, time=1000, tsp=1000))
    return by_host(text, 0, packet, before=before, entry=after, id=2)


def measured(tsp, offset):
    """Reading 1,000 less TSP is DELAY, half of it OFFSET: the packet's time is 1,000 too."""
    text = "reading 1,000, TSP %s: DELAY %d and its half" % (format(tsp, ","), 1000 - tsp)
    return by_host(text, 0, ip(hello(time=1000, tsp=tsp)), entry=Entry(100, 120, 1, offset))


TABLE = [(30000, 0), (0, 0), (250, 489), (30000, 0)]
HEARD = Link(4, -25536, NEIGHBOR)  # from a time of 40,000 at a reading of 0

# a packet of each sort, for the packet program's host
PACKETS = [
    Arrival("a new neighbor, no table", ip(hello()), 0, HEARD),
    Arrival("a table of our layout", ip(hello(TABLE)), 0, HEARD),
    Arrival("another ADDRESS-OFFSET, but no table", ip(hello(offset=9)), 0, HEARD),
    Arrival("19 octets", ip(hello())[:19], 3),
    Arrival("version 6", ip(hello(), version=6), 3),
    Arrival("header length 6", ip(word(0, 4) + hello(), words=6), 3),
    Arrival("a total length of one octet more", ip(hello(), length=33), 3),
    Arrival("the more-fragments bit", ip(hello(), fragment=MORE_FRAGMENTS), 3),
    Arrival("fragment offset 1", ip(hello(), fragment=1), 3),
    Arrival("a wrong IP checksum", ip(hello(), wrong=1), 4),
    Arrival("protocol 17", ip(hello(), protocol=17), 5),
    Arrival("a HELLO of 11 octets", ip(hello()[:11]), 6),
    Arrival("NHOSTS 4, and three hosts", ip(hello(TABLE[:3], nhosts=4)), 6),
    Arrival("a wrong HELLO checksum", ip(hello(wrong=1)), 7),
    Arrival("a table of NHOSTS 3", ip(hello(TABLE[:3])), 8),
    Arrival("a table of ADDRESS-OFFSET 2", ip(hello(TABLE, offset=2)), 8),
    Arrival("our own address as source", ip(hello(), source=US), 9),
    # A source of 0.0.0.0 equals the NEIGHBOR-ADDRESS of a fresh link, so it is no new neighbor.
    Arrival("from 0.0.0.0, TSP 0", ip(hello(TABLE), source=NOBODY), 10, Link(4, -25536, NOBODY)),
    Arrival("from 0.0.0.0, a TSP, no table", ip(hello(tsp=1), source=NOBODY), 11, Link(4, -25536, NOBODY)),
    Arrival("from 0.0.0.0, a TSP, a table", ip(hello(TABLE, tsp=1), source=NOBODY), 0, Link(4, -25536, NOBODY), Entry(350, 120, 1, -25048), id=2),
    Arrival("a new neighbor whose address has no id, no table", ip(hello(), source=STRANGER), 11, Link(4, -25536, STRANGER)),
]

# for the programs alone: the numbers that an inspection tells at their ends, and what is too long for the table
OTHERS = [
    ("time_and_TSP_of_all_ones", 0, ip(hello(TABLE, time=0xFFFFFFFF, tsp=0xFFFF))),
    ("TSP_8000_hex", 0, ip(hello(tsp=0x8000))),
    ("empty", 3, b""),
    ("long_2000", 6, ip(bytes(1980))),
    ("longest", 6, ip(bytes(65515))),
    ("too_long", 3, ip(bytes(65516), length=0)),
    ("far_too_long", 3, ip(bytes(65515)) + bytes(134465)),
]

FAR = ip(hello([(30000, 0), (30000, 0), (65400, 0), (30000, 0)], time=1000, tsp=800))
LIVE, BY_2 = Entry(500, 60, 1), Entry(500, 60, 2)
DOWN, DOWN_BY_2, HELD = Entry(30000, 0, 1), Entry(30000, 0, 2), Entry(30000, 77, 1)

# "Sums on the blackboard", "Slips the red pen has met", and what may surprise
SUMS = [
    reported("route via 2 at 500, link 1 reports 400", 400, BY_2, Entry(400, 120, 1)),
    reported("route via 2 at 500, link 1 reports 401", 401, BY_2),
    reported("down entry, other PID, report 29,900", 29900, DOWN_BY_2, Entry(29900, 120, 1)),
    reported("down entry, other PID, report 29,901", 29901, DOWN_BY_2),
    reported("down entry, own PID, report 29,999", 29999, DOWN, Entry(29999, 120, 1)),
    reported("down entry, own PID, report 30,000", 30000, DOWN),
    reported("fresh entry, report 29,900", 29900, Entry(30000, 0, 0), Entry(29900, 120, 1)),
    reported("fresh entry, report 29,901", 29901, Entry(30000, 0, 0)),
    reported("live entry, own PID, report 30,000", 30000, LIVE, Entry(30000, 120, 1)),
    reported("host already down, report 30,000", 30000, HELD),
    reported("host already down, report 100", 100, HELD),
    by_host("dead route, 200 plus 65,400", 0, FAR, id=2),
    by_host("live route, 200 plus 65,400", 0, FAR, before=LIVE, entry=Entry(30000, 120, 1), id=2),
    measured(1000, 0),
    measured(1002, -1),
    measured(1003, -2),
    measured(1004, -2),
    measured(1005, -3),
    by_host("HOLD 1: the delay is not valid", 10, ip(hello(time=1000, tsp=1000)), hold=1),
    Arrival("B, 500 ahead, gets at 40,530 what A sent at 40,000", ip(hello(time=40000), source=US), 0, Link(4, -530, US), host=2, reading=40530),
    Arrival("A gets B's answer, TSP 45,000, at 45,081: DELAY 81, then 100", ip(hello(time=45530, tsp=45000)), 0, Link(4, 449, NEIGHBOR), Entry(100, 120, 1, 489), neighbor=2, reading=45081),
    Arrival("the same with TSP 44,900: DELAY 181", ip(hello(time=45530, tsp=44900)), 0, Link(4, 449, NEIGHBOR), Entry(181, 120, 1, 539), neighbor=2, reading=45081),
]


def record(a):
    """128 octets: the name (64), the host's state (16), the packet (48)."""
    state = bytes([a.host, a.neighbor]) + word(a.reading, 3) + bytes([a.hold]) + word(a.before.delay) + bytes([a.before.ttl, a.before.pid, a.id, len(a.packet)])
    return a.name.encode().ljust(64) + state.ljust(16, b"\0") + a.packet.ljust(48, b"\0")


def line(a):
    before = Link(0, 0, bytes([192, 0, 2, a.neighbor]) if a.neighbor else NOBODY)
    link, e = a.link or before, a.entry or a.before
    neighbor = ".".join(map(str, link.neighbor))
    return f"{a.name:64} answer {a.answer}: KEEP-ALIVE {link.keep_alive} TSP {link.tsp} neighbor {neighbor}; id {a.id}: DELAY {e.delay} OFFSET {e.offset} TTL {e.ttl} PID {e.pid}"


def inspection(answer, octets):
    """What hello_inspect prints: 10 and 11 arise in the action alone, and of a packet that is not refused it tells four things."""
    if 3 <= answer <= 9:
        return f"{answer}\n"
    source = ".".join(map(str, octets[12:16]))
    time, tsp = int.from_bytes(octets[24:28], "big"), int.from_bytes(octets[28:30], "big")
    return f"0\nsource {source}\ntime {time}\nTSP {tsp}\nhosts {octets[31]}\n"


def signed(n):
    """The low 16 bits, signed."""
    return (n + 0x8000) % 0x10000 - 0x8000


def changes(*fields):
    return ", ".join(f"{name} {before} -> {after}" for name, before, after in fields if before != after) or "nothing"


def host_lines(host, delay, offset):
    """The boxes of an id whose entry is fresh: line (a) ends a route that is not shorter by 100 than 30,000; any other is stored."""
    yield f"host {host}, line a: nothing"
    if delay <= 29900:
        yield f"host {host}, line b: nothing"
        yield f"host {host}, line c: " + changes(("DELAY", 30000, delay), ("OFFSET", 0, offset), ("TTL", 0, 120), ("PID", 0, 1))


def boxes(octets):
    """The boxes of a packet that is not refused, at a reading of 0."""
    source = octets[12:16]
    numbers = [signed(int.from_bytes(octets[i : i + 2], "big")) for i in range(26, 32 + 4 * octets[31], 2)]
    link_tsp, tsp, table = numbers[0], numbers[1], numbers[3:]
    delay = signed(-tsp)
    offset = signed(link_tsp + (delay >> 1))
    yield "step 1: reading 0 ms"
    yield "step 2: KEEP-ALIVE 0 -> 4"
    yield "step 3: " + changes(("TSP", 0, link_tsp), ("DELAY", 0, delay), ("OFFSET", 0, offset))
    neighbor = ".".join(map(str, source))
    heard = delay if source == NOBODY else 30000
    yield "step 4: " + changes(("NEIGHBOR-ADDRESS", "0.0.0.0", neighbor), ("DELAY", delay, heard))
    if source == NOBODY and tsp == 0:
        return
    if not table and source[:3] != US[:3]:
        yield "step 5: nothing"
        return
    least = max(heard, 100)
    yield "step 5: " + changes(("DELAY", heard, least))
    if not table:
        yield from host_lines(source[3] - 1, least, offset)
    for host in range(octets[31]):
        yield from host_lines(host, least + table[2 * host] % 0x10000, signed(offset + table[2 * host + 1]))


def walk(answer, octets):
    """What hello_walk prints: the boxes, unless the packet is refused, and the answer."""
    lines = [] if 3 <= answer <= 9 else boxes(octets)
    return "".join(f"{x}\n" for x in [*lines, answer])


def write(folder):
    packets = [(a.name.replace(" ", "_"), a.answer, a.packet) for a in PACKETS]
    for name, answer, octets in packets + OTHERS:
        written = {"": octets, ".hello_packet": b"%d\n" % answer, ".hello_inspect": inspection(answer, octets).encode(), ".hello_walk": walk(answer, octets).encode()}
        for ending, contents in written.items():
            with open(os.path.join(folder, name + ending), "wb") as f:
                f.write(contents)
        print(name)


if sys.argv[1] == "stdin":
    sys.stdout.buffer.write(b"".join(map(record, PACKETS + SUMS)))
elif sys.argv[1] == "stdout":
    print("\n".join(map(line, PACKETS + SUMS)))
else:
    write(sys.argv[1])
