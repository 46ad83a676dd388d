"""A HELLO host of RFC 891: safe calls of the proved library, by ctypes.

A Room owns the entries of its hosts, 16 at most, and the net table of their class. A Host of it has
settings, a clock, links and a walk, and the calls as methods.

    room = hello.Room(hosts=1, nhosts=4)
    host = room.host(0, hello.Settings("192.0.2.1", address_offset=1, nhosts=4))
    host.initialize()  # Answer.DONE
    host.tick()  # Answer.DONE
    host.send(1)  # Sent(answer=Answer.DONE, message=b"E...")

All hosts of a room use its net table, which the tutor changes:

    room.net_table.add((10, 0, 0), 2)  # Added(answer=Answer.DONE, row=1)
    room.net_table.change(1, 3)  # Answer.DONE
    room.net_table.remove(1)  # Answer.DONE
    room.net_table.initialize(8)  # Answer.DONE: another NHOSTS, and no rows

The clock is a line clock unless a call gets a counter. A host with a crystal clock passes the counter, as
it is then, to each call that reads, and its count to tick, adjust and set:

    host.read(counter=hello.Counter(count=1234))
    host.tick(count=0)

Several hosts can live at one; the settings mark their ids, and a self-report covers them all:

    hello.Settings("192.0.2.1", address_offset=1, nhosts=8, marks={0, 3, 4})

A packet that arrives is taken in one piece by receive, or in two by inspect and act, or one box at
a time:

    host.open_walk(1, packet)  # Stepped(answer=Answer.DONE, place=Place(step=1, ..))
    host.step()  # Stepped(answer=Answer.DONE, place=Place(step=2, ..)), and so on

An exercise in one file is set up and run on a Bench, which has hosts of its own; hello.bench_file makes such
files:

    bench = hello.Bench(octets, hello.NetTable(nhosts=2))
    bench.set_up()  # Answer.DONE
    bench.run(allowance=5)  # Ran(answer=Answer.DONE, count=5)
    bench.answers, bench.host(0).clock, bench.host(0).links, bench.host(0).table, bench.slots

Every call returns an Answer, whatever the state is; `answer.words` says what it means, and `answer.check()`
raises Refused unless the call was done. The functions of hello.text (messages as text), hello.capture
(recovery of captures) and hello.ntp (NTP headers) return a value or raise Refused, which has the number
and the words.

A Python number that does not fit its field raises OverflowError, a wrong type TypeError and a wrong count
of parts ValueError: nothing is cut off. An address is text, an ipaddress.IPv4Address or four octets. States
compare by value, and can be copied and pickled.

The plain calls below the methods, for programs that keep clocks, links and entries in another way, are
in hello.library. hello.loader says where the shared library is looked for.
"""

from . import bench_file, capture, library, ntp, text
from .answer import Answer, Refused
from .bench import Bench, BenchHost
from .library import checksum, checksum_plain, date
from .net_table import NetTable
from .room import Host, Room
from .state import BenchHosts, ClassTable, Clock, HostTable, Links, Progress, Settings, Walk
from .values import (
    EVENTS, HOSTS, LINE_CLOCK, LINKS, LONGEST_MESSAGE, MARKS, NO_CLOCK_HOST, PLACES, ROWS, SLOTS,
    SLOT_LENGTH, UNITS_PER_MS, Added, Address, AddressLike, Counter, Entry, Inspected, Link,
    LinkSetting, Net, Place, Ran, Route, Row, Sent, Slot, Stepped, Time, address,
)

__all__ = [
    "Added", "Address", "AddressLike", "Answer", "Bench", "BenchHost", "BenchHosts", "ClassTable",
    "Clock", "Counter", "EVENTS", "Entry", "HOSTS", "Host", "HostTable", "Inspected", "LINE_CLOCK",
    "LINKS", "LONGEST_MESSAGE", "Link", "LinkSetting", "Links", "MARKS", "NO_CLOCK_HOST", "Net",
    "NetTable", "PLACES", "Place", "Progress", "ROWS", "Ran", "Refused", "Room", "Route", "Row",
    "SLOTS", "SLOT_LENGTH", "Sent", "Settings", "Slot", "Stepped", "Time", "UNITS_PER_MS", "Walk",
    "address", "bench_file", "capture", "checksum", "checksum_plain", "date", "library", "ntp",
    "packet", "text",
]


def packet(octets: bytes) -> Answer:
    """The Answer of a new host 192.0.2.1 to a packet on its one point-to-point link."""
    return Answer(library.packet(octets))
