"""Tests of bench files: octets, text, and what is said of wrong ones."""

import pathlib
import random
import subprocess
import sys
import tempfile
import unittest

from hello import bench_file
from hello.bench_file import Cable, Event, Fault, File, Seat, Wrong
from hello.bench_file.file import KINDS, LONGEST_TICK, MOST_EVENTS, last_day

TOOL = pathlib.Path(__file__).resolve().parents[3] / "tools" / "bench"
PAIR = "seat 192.0.2.1\nseat 192.0.2.2\ncable 0.1 1.1\n"


def read(text):
    return bench_file.read_text(text)[0]


def any_seat(choose, nhosts):
    offset = choose.randrange(256)
    own = choose.randrange(min(nhosts, 256 - offset))
    address = [choose.randint(1, 223), choose.randrange(256), choose.randrange(256), choose.randrange(256)]
    address[2 if address[0] < 128 else 3] = own + offset
    year, month = choose.randint(1972, 2003), choose.randint(1, 12)
    further = [id for id in range(nhosts) if id != own and choose.random() < 0.2]
    links = []
    for _ in range(choose.randint(1, 8)):
        neighbor = tuple(choose.randrange(256) for _ in range(4))
        links.append(neighbor if choose.random() < 0.3 else None)
    return Seat(
        address=tuple(address),
        nhosts=nhosts,
        offset=offset,
        clock_host=choose.choice([255, choose.randrange(nhosts)]),
        hold=choose.randint(1, 255),
        date=(year, month, choose.randint(1, last_day(year, month))),
        time=choose.choice([0, 43_200_000, choose.randrange(86_400_000), 86_399_999]),
        tick=choose.choice([1, 65_536, 30 * 65_536, choose.randint(1, LONGEST_TICK), LONGEST_TICK]),
        links=tuple(links),
        also=frozenset(further),
    )


def any_event(choose, seats, cables):
    kinds = list(KINDS) if cables else ["tick", "adjust", "set", "second", "self-report", "arrival"]
    name = choose.choice(kinds if seats else ["arrival"])
    kind = KINDS[name]
    numbers = {
        "seat": lambda: choose.randrange(seats),
        "cable": lambda: choose.randrange(cables),
        "end": lambda: choose.randrange(2),
        "tray": lambda: choose.randrange(32),
        "amount": lambda: choose.choice([-(2**31), -500, -1, 0, 1, 2**31 - 1]),
        "count": lambda: choose.choice([0, 30, 65_535]),
        "again": lambda: choose.choice([None, None, 0, 3, 65_535]),
    }
    return Event(name, **{part: numbers[part]() for part in (*kind.parts, *kind.counts)})


def any_file(choose):
    nhosts = choose.choice([1, 2, 16, 255, choose.randint(1, 255)])
    seats = tuple(any_seat(choose, nhosts) for _ in range(choose.randint(0, 16)))
    ends = [(number, link) for number, seat in enumerate(seats) for link in range(1, len(seat.links) + 1)]
    cables = tuple(
        Cable((choose.choice(ends), choose.choice(ends)))
        for _ in range(choose.randint(0, 32) if ends else 0)
    )
    events = []
    while len(events) < choose.choice([0, 5, 40]):
        events += [any_event(choose, len(seats), len(cables))] * choose.choice([1, 1, 1, 3])
    return File(seats, cables, tuple(events))


class Octets(unittest.TestCase):
    def test_there_and_back(self):
        choose = random.Random(7)
        for _ in range(100):
            file = any_file(choose)
            octets = bench_file.to_octets(file)
            self.assertEqual(bench_file.from_octets(octets), file)
            text = bench_file.to_text(file)
            self.assertEqual(read(text), file)
            self.assertEqual(bench_file.to_text(read(text)), text)
            self.assertEqual(bench_file.octets_of_listing(bench_file.listing(octets)), octets)

    def test_largest(self):
        seats = tuple(any_seat(random.Random(k), 255) for k in range(16))
        cables = 32 * (Cable(((0, 1), (15, 1))),)
        file = File(seats, cables, MOST_EVENTS * (Event("send", cable=31, end=1, tray=31),))
        octets = bench_file.to_octets(file)
        self.assertEqual(len(octets), 20 + 16 * 321 + 32 * 4 + 2_048 * 14)
        self.assertEqual(bench_file.from_octets(octets), file)
        self.assertIn("send cable 31 end 1 tray 31 times 2048\n", bench_file.to_text(file))

    def test_none(self):
        octets = bench_file.to_octets(File((), (), ()))
        self.assertEqual(octets.hex(), 12 * "00" + 2 * "00000014")
        self.assertEqual(bench_file.to_text(bench_file.from_octets(octets)), "")
        self.assertEqual(bench_file.to_octets(read("")), octets)

    def refused(self, octets, words):
        with self.assertRaisesRegex(Fault, words):
            bench_file.from_octets(bytes(octets))

    def test_header(self):
        good = bench_file.to_octets(read(PAIR + "tick 0\n"))
        self.refused(good[:19], "the header alone has 20")
        self.refused(good[:-1], "by its header it has 680")
        self.refused(good + b"\0", "by its header it has 680")
        for place, words in ((3, "number of seats"), (7, "number of cables"), (10, "number of events")):
            self.refused(good[:place] + b"\xff" + good[place + 1 :], words)
        self.refused(good[:15] + b"\0" + good[16:], "cables are said to start at octet 512")
        self.refused(good[:19] + b"\0" + good[20:], "events are said to start at octet 512")

    def test_records(self):
        good = bench_file.to_octets(read(PAIR + "self-report 0\nsend cable 0 end 0 tray 0\n"))
        for place, octet, words in (
            (20, 0, "seat 0, at octet 20: the address 0.0.2.1 begins with no octet"),
            (20, 224, "begins with no octet"),
            (24, 2, "gives the id -1"),
            (25, 2, "the clock host 2 is not there"),
            (27, 0, "NHOSTS 0 is out of range"),
            (27, 3, "differ in NHOSTS"),
            (28, 1, "HOLD-INTERVAL 266 is out of range"),
            (30, 0x70, "no day from"),
            (32, 0xFF, "starting time"),
            (36, 1, "CLOCK-TICK"),
            (44, 0, "the number of links"),
            (44, 9, "the number of links"),
            (45, 2, "the switch of link 1 is 2"),
            (85, 0, "the own id 0 is not marked"),
            (85, 2, "the mark of id 0 is 2"),
            (87, 1, "host 2 lives here, and is not there"),
            (340, 1, "host 255 lives here, and is not there"),
            (662, 2, "cable 0, at octet 662: seat 2 is not there"),
            (663, 0, "seat 0's link 0 is not there"),
            (665, 2, "seat 1's link 2 is not there"),
            (666, 0, "event 0, at octet 666: there is no kind 0"),
            (666, 8, "there is no kind 8: kinds are 1 to 7"),
            (667, 2, "seat 2 is not there"),
            (671, 2, "the mark for counter overflow is 2"),
            (682, 1, "cable 1 is not there: there is cable 0 alone"),
            (683, 2, "end 2 is not there"),
            (684, 32, "tray 32 is not there: there are trays 0 to 31"),
        ):
            self.refused(good[:place] + bytes([octet]) + good[place + 1 :], words)

    def test_what_no_rule_looks_at(self):
        file = read(PAIR + "second 0\n")
        octets = bytearray(bench_file.to_octets(file))
        for place in (30, 46, 50, 668, 669, 670, 671, 672, 679):
            octets[place] |= 0x80
        self.assertEqual(bench_file.from_octets(bytes(octets)), file)


class Text(unittest.TestCase):
    def wrong(self, text, line, words):
        with self.assertRaises(Wrong) as caught:
            bench_file.read_text(text)
        faults = caught.exception.faults
        self.assertTrue(any(at == line and words in fault for at, fault in faults), faults)
        self.assertEqual({at for at, _ in faults}, {line}, faults)

    def test_defaults(self):
        seat = read("seat 192.0.2.1\n").seats[0]
        self.assertEqual(seat.nhosts, 1)
        self.assertEqual(seat.links, (None,))
        self.assertEqual((seat.offset, seat.clock_host, seat.hold), (1, 255, 10))
        self.assertEqual((seat.date, seat.time, seat.tick), ((1983, 12, 1), 43_200_000, LONGEST_TICK))
        file = read(PAIR.replace("0.1 1.1", "0.3 1.2"))
        self.assertEqual([len(seat.links) for seat in file.seats], [3, 2])

    def test_settings(self):
        seat = read(
            "nhosts 9\nseat 10.0.4.1 offset 2 clock-host 8 hold 255 date 2000-02-29 time 23:59:59.999"
            " clock-tick 1092267/65536 links 3 broadcast 2=10.0.9.1,3=192.0.2.7 also 5,2,7 # a comment\n"
        ).seats[0]
        self.assertEqual(seat.own_id(), 2)
        self.assertEqual(seat.also, {5, 7})
        self.assertEqual(seat.links, (None, (10, 0, 9, 1), (192, 0, 2, 7)))
        self.assertEqual((seat.tick, seat.time), (1_092_267, 86_399_999))

    def test_wait(self):
        file = read(PAIR + "tick 0\nwait 65535\nadjust 0\nwait 2\nsecond 0\nsend cable 0 end 0 tray 0\n")
        ticks = [Event("tick", seat=seat, count=1) for seat in (0, 1)]
        self.assertEqual(file.events[0], Event("tick", seat=0))
        self.assertEqual(file.events[1], Event("adjust", seat=0, count=65_535))
        self.assertEqual(file.events[2:4], tuple(ticks))
        self.assertEqual(file.events[4:], (Event("second", seat=0), Event("send", None, 0, 0, 0, count=1)))

    def test_times_and_blocks(self):
        file = read(PAIR + "repeat 2\n  second all times 2\n  wait 5\nend\nset 1 -500 count 7\n")
        seconds = [Event("second", seat=seat) for seat in (0, 1, 0, 1, 0, 1, 0, 1)]
        self.assertEqual(file.events, (*seconds, Event("set", seat=1, amount=-500, count=7)))
        self.assertEqual(len(read(PAIR + "repeat 2048\ntick 1\nend").events), 2_048)

    def test_promises(self):
        _, promises = bench_file.read_text(
            PAIR + "arrival tray 3\npromise answer 3\npromise seat 0 host 1 down ttl 0\n"
            "repeat 2\ntick 0\npromise seat 1 delays 100,-\nend\n"
        )
        tables = {(0, 1): bench_file.Entry(30_000, 0, 0, 0), (1, 0): bench_file.Entry(101, 0, 0, 0)}
        self.assertEqual([promise.after for promise in promises], [1, 1, 2, 3])
        returned = [promise.broken(tables, [3, 0, 0]) for promise in promises]
        self.assertEqual(returned[:2], [None, None])
        self.assertEqual(returned[2], "after 2 events, seat 1, host 0: DELAY is 101, not 100")
        self.assertEqual(promises[0].broken(tables, [0]), "event 0 was answered 0, not 3")

    def test_wrong_lines(self):
        for line, words in (
            ("sned cable 0 end 0 tray 0", "Did you mean 'send'?"),
            ("tick", "the seat's number is missing: as tick 0, or tick all"),
            ("tick one", "'one' is not the seat's number"),
            ("tick 2", "seat 2 is not there: there are seats 0 to 1"),
            ("tick 0 count", "the count is missing"),
            ("tick 0 count -1", "the count -1 is out of range: it is 0 to 65,535"),
            ("tick 0 count 65536", "the count 65,536 is out of range"),
            ("tick 0 count 1 count 2", "'count' stands there twice"),
            ("tick 0 again 2", "'again' is not known: a line goes on with count, times"),
            ("tick 0 times 0", "how many times 0 is out of range"),
            ("tick 0 times 2049", "how many times 2,049 is out of range"),
            ("second 0 count 3", "'count' is not known"),
            ("set 0", "the milliseconds to set by is missing"),
            ("set 0 2147483648", "the set's amount 2,147,483,648 is out of range"),
            ("set 0 1e3", "'1e3' is not the milliseconds to set by: a whole number"),
            ("send 0 end 0 tray 0", "'0' stands where 'cable' belongs: as send cable 0 end 0 tray 0"),
            ("send cable 1 end 0 tray 0", "cable 1 is not there: there is cable 0 alone"),
            ("send cable 0 end 2 tray 0", "end 2 is not there: there are ends 0 to 1"),
            ("send cable 0 end 0 tray 32", "tray 32 is not there: there are trays 0 to 31"),
            ("arrival 3", "'3' stands where 'tray' belongs: as arrival tray 0"),
            ("arrival tray -1", "tray -1 is not there"),
            ("arrival tray 0 again 65536", "the count taken again 65,536 is out of range"),
            ("wait 0", "the milliseconds to wait 0 is out of range"),
            ("wait", "the milliseconds to wait is missing"),
            ("promise", "what is promised is missing"),
            ("promise seat 2 host 0 down", "seat 2 is not there"),
            ("promise seat 0 host 2 down", "the host 2 is out of range"),
            ("promise seat 0 host 1", "nothing is promised"),
            ("promise seat 0 host 1 dely 100", "Did you mean 'delay'?"),
            ("promise seat 0 delays 0,100,200", "3 delays are promised, and NHOSTS is 2"),
            ("promise answer 3", "no event stands before"),
            ("cable 0.1", "a cable's end is missing: a seat and its link, as 0.1"),
            ("cable 0.1 1", "'1' is not a cable's end"),
            ("cable 0.1 2.1", "seat 2 is not there"),
            ("cable 0.9 1.1", "seat 0's link 9 is not there: there are seat 0's links 1 to 8"),
            ("cable 0.1 1.1 2.1", "'2.1' is too much"),
            ("end", "'end' without a 'repeat' before it"),
            ("repeat 3\ntick 0", "this 'repeat' has no 'end'"),
            ("nhosts 3", "'nhosts' stands behind a seat"),
        ):
            self.wrong(f"{PAIR}{line}", 4, words)

    def test_wrong_seats(self):
        for line, words in (
            ("seat", "an address is missing: four octets with dots, as 192.0.2.1"),
            ("seat 192.0.2", "'192.0.2' is not an address"),
            ("seat 192.0.2.256", "is not an address"),
            ("seat 224.0.2.1", "begins with no octet from 1 to 223"),
            ("seat 192.0.2.2", "gives the id 1, its host octet less 1, and NHOSTS is 1: the one id is 0"),
            ("seat 192.0.2.0", "gives the id -1"),
            ("seat 192.0.2.1 offset 256", "ADDRESS-OFFSET 256 is out of range: it is 0 to 255"),
            ("seat 192.0.2.1 clock-host 1", "the clock host 1 is not there: the one id is 0"),
            ("seat 192.0.2.1 hold 0", "HOLD-INTERVAL 0 is out of range: it is 1 to 255"),
            ("seat 192.0.2.1 date 1983-2-1", "'1983-2-1' is not a date: year, month and day, as"),
            ("seat 192.0.2.1 date 1983-02-29", "the date 1983-02-29 is no day from 1972-01-01 to"),
            ("seat 192.0.2.1 date 2004-01-01", "is no day"),
            ("seat 192.0.2.1 time 24:00:00", "'24:00:00' is not a time of day: as 12:00:00"),
            ("seat 192.0.2.1 time 43200000", "is not a time of day"),
            ("seat 192.0.2.1 clock-tick 0", "CLOCK-TICK, in units, 0 is out of range"),
            ("seat 192.0.2.1 clock-tick 65537", "out of range"),
            ("seat 192.0.2.1 clock-tick 1/3", "'1/3' is not CLOCK-TICK: milliseconds, as 30, or"),
            ("seat 192.0.2.1 links 9", "the number of links 9 is out of range: it is 1 to 8"),
            ("seat 192.0.2.1 links 1 broadcast 2=192.0.2.9", "the broadcast link 2 is out of range"),
            ("seat 192.0.2.1 broadcast 2", "'2' is not a list of broadcast links: each with its address"),
            ("seat 192.0.2.1 also 1", "host 1 lives here, and is not there: the one id is 0"),
            ("seat 192.0.2.1 also 1,", "'1,' is not a list of ids"),
            ("seat 192.0.2.1 colour red", "'colour' is not known: a line goes on with offset, clock-host"),
        ):
            self.wrong(f"# one seat\n{line}\nsecond 0\n", 2, words)

    def test_each_wrong_line_is_reported(self):
        with self.assertRaises(Wrong) as caught:
            bench_file.read_text(
                "seat 192.0.2\nseat 192.0.2.2\ncable 0.1 1\ntick 0\nsend cable 0 end 3 tray 0\n"
            )
        self.assertEqual([line for line, _ in caught.exception.faults], [1, 3, 5])

    def test_order_and_limits(self):
        self.wrong(PAIR + "tick 0\ncable 0.1 1.1", 5, "all cables come before the events")
        self.wrong(PAIR + "seat 192.0.2.3", 4, "all seats come first")
        self.wrong("seat 192.0.2.1\n" * 17, 17, "a file has 16 at most")
        self.wrong(PAIR + "cable 0.1 1.1\n" * 32, 35, "a file has 32 at most")
        self.wrong(PAIR + "second all times 1025", 4, "that makes 2,050 events: a file has 2,048 at most")
        self.wrong(PAIR + "repeat 3\nsecond 0 times 1000\nend", 5, "that makes 3,000 events")
        self.wrong(PAIR + "second 0 times 2048\n" + 9 * "tick 0\n", 5, "that makes 2,049 events")
        self.wrong("nhosts 2\nnhosts 3\n", 2, "'nhosts' stands there twice")
        self.wrong("nhosts 256\n" + PAIR, 1, "NHOSTS 256 is out of range")
        self.wrong(PAIR + "repeat 2\nseat 192.0.2.9\nend", 5, "only events are repeated")
        self.wrong(PAIR + "repeat 2\nrepeat 3\nend", 5, "end that one first")
        slow = PAIR.replace("192.0.2.2", "192.0.2.2 clock-tick 30")
        self.wrong(slow + "wait 30", 4, "'wait' is for crystals, whose clock-tick is 65536: that of seat 1")


SAID = "title A pair\ntask Send.\nquestion What?\nexplanation So.\n"
ENDED = "stage One\nself-report all\npromise seat 0 host 0 delay 0\n"


class Exercises(unittest.TestCase):
    """The lines that make a text an exercise."""

    def wrong(self, text, line, words):
        with self.assertRaises(Wrong) as caught:
            bench_file.read_exercise(text)
        faults = caught.exception.faults
        self.assertTrue(any(at == line and words in fault for at, fault in faults), faults)

    def test_words(self):
        read = bench_file.read_exercise(
            SAID + "title.de Ein Paar\ntask Then take.\nhint Look.\nhint.de Sieh.\nlaw It ends.\n"
            + PAIR.replace("192.0.2.1", "192.0.2.1 name Ada") + ENDED + "stage.de Eins\noutcome Done\noutcome.de Fertig\n"
        )
        self.assertEqual((read.said("title"), read.said("title", "de")), ("A pair", "Ein Paar"))
        self.assertEqual((read.said("task"), read.said("task", "de")), ("Send. Then take.", "Send. Then take."))
        self.assertEqual(read.hints, ({"en": "Look.", "de": "Sieh."},))
        self.assertEqual((read.said("law"), read.names), ("It ends.", ("Ada", "seat-1")))
        self.assertEqual(read.stages[0].words, {"en": "One", "de": "Eins"})
        self.assertEqual(read.stages[0].outcome, {"en": "Done", "de": "Fertig"})
        # A bench takes the same text, and asks for nothing of this.
        self.assertEqual(read.file, bench_file.read_text(SAID + PAIR + ENDED)[0])

    def test_calls_and_ways(self):
        read = bench_file.read_exercise(
            SAID + PAIR + "stage One\nsend cable 0 end 0 tray 0\nsend cable 0 end 1 tray 1\nwait 30\narrival tray 0\n"
            "wait 5\narrival tray 0 answer 10\nsecond all times 3\npromise answer 16\npromise seat 1 host 0 down\n"
            "predict seat 1 host 0 delay ttl\n"
        )
        calls = read.stages[0].calls
        self.assertEqual([call.kind for call in calls], ["send", "send", "arrival", "arrival", "second", "second"])
        self.assertEqual([call.ways for call in calls[:2]], [[30, 35], []])
        self.assertEqual([(call.seat, call.link) for call in calls[2:4]], 2 * [(1, 1)])
        self.assertEqual([call.answer for call in calls], [0, 0, 0, 10, 0, 16])
        self.assertEqual([call.times for call in calls], [1, 1, 1, 1, 3, 3])
        self.assertEqual(read.answers, (0, 0, 0, 10, 0, 0, 0, 0, 0, 16))
        self.assertEqual(read.stages[0].predictions[0][1:], (1, 0, ("delay", "ttl")))

    def test_blocks_and_all(self):
        line = "seat 192.0.2.1\nseat 192.0.2.2\nseat 192.0.2.3\ncable 0.1 1.1\ncable 1.2 2.1\n"
        text = "block pair\nsend all except 0\narrival all\nend\nblock both\ndo pair times 2\nsend all\narrival trays 0,2-3\nend\n"
        file = read(line + text + "repeat 2\ndo both\nend\n")
        sent = [(event.cable, event.end, event.tray) for event in file.events if event.kind == "send"]
        pair = [(1, 0, 2), (1, 1, 3)]
        self.assertEqual(sent, 2 * (2 * pair + [(0, 0, 0), (0, 1, 1), *pair]))
        arrived = [event.tray for event in file.events if event.kind == "arrival"]
        self.assertEqual(arrived, 2 * [2, 3, 2, 3, 0, 2, 3])

    def test_long(self):
        long = bench_file.read_exercise(SAID + PAIR + ENDED + "second all times 2048\npromise seat 0 host 0 down\n")
        self.assertEqual([len(piece.events) for piece in long.pieces()], [2_048, 2_048, 2])
        text = PAIR + "repeat 2\nsecond all times 2048\nend\n"
        file, _, named = bench_file.read_long_text(text)
        self.assertEqual((len(file.events), named), (8_192, None))
        self.wrong(SAID + PAIR + "stage One\nrepeat 200\nsecond all times 2048\nend\n", 10, "has 400,000 at most")

    def test_least(self):
        _, promises = bench_file.read_text(PAIR + "tick 0\npromise host 1 least down\npromise host 0 least 100\n")
        entry = bench_file.Entry(200, 0, 0, 0)
        self.assertEqual([promise.seats for promise in promises], [(0,), (1,)])
        returned = [promise.broken({(0, 1): entry, (1, 0): entry._replace(delay=100)}, ()) for promise in promises]
        self.assertEqual(returned, ["after 1 events, host 1: the least DELAY is 200, not 30,000", None])

    def test_unlike(self):
        self.assertEqual(bench_file.unlike((0, 0, 10), (0, 16, 10)), [(1, 16, 0)])
        self.assertEqual(bench_file.unlike((0, 0, 10), (10, 10), 1), [(1, 10, 0)])
        self.assertEqual(bench_file.unlike(None, (1, 2)), [])

    def test_wrong_lines(self):
        for line, words in (
            ("titel A pair", "Did you mean 'title'?"),
            ("title", "'title' says nothing"),
            ("title Once more", "the title stands there twice"),
            ("hint.de Sieh.", "comes after the English one"),
            ("stage.de Eins", "'stage' comes before the first stage"),
            ("outcome So", "'outcome' comes before the first stage"),
            ("predict seat 0 host 1 delay", "'predict' comes before the first stage"),
            ("seat 192.0.2.3 name A-name-of-17-letters", "a seat behind a cable"),
            ("do round", "there is no block 'round'"),
            ("block a\nend\nblock a\nend", None),
            ("arrival all", "'arrival all' comes after 'send all'"),
            ("arrival trays 3-1", "'3-1' is not a list of trays"),
            ("send all except 1", "cable 1 is not there"),
            ("send all except 0", "there is no cable to send on"),
            ("open-walk tray 3", "tray 3 is empty"),
            ("step 2", "seat 2 is not there"),
            ("end-walk", "the seat's number is missing"),
            ("promise host 0 most 3", "'most' stands where 'least' belongs"),
        ):
            text = f"{SAID}{PAIR}{line}\n{ENDED}"
            if words:
                self.wrong(text, 8, words)
            else:
                self.wrong(text, 10, "there are two blocks of the name 'a'")
        self.wrong(PAIR + ENDED, 1, "an exercise has a line 'title'")
        self.wrong(SAID + PAIR + "self-report 0\n" + ENDED, 9, "events come before the first stage")
        self.wrong(SAID + PAIR + "stage One\nstage Two\n" + ENDED, 9, "this stage has no call")
        self.wrong(SAID + PAIR + "stage One\nself-report 0\n", 8, "the last stage promises nothing")
        self.wrong(SAID + PAIR.replace("\nseat 192.0.2.2", " name A\nseat 192.0.2.2 name A") + ENDED, 6, "one name")
        self.wrong(SAID + PAIR + ENDED + "repeat 2\nstage Two\nend\n", 12, "only events are repeated")
        self.wrong(SAID + PAIR + ENDED + "block a\ndo a\nend\ndo a\n", 12, "is carried out within itself")
        lines = "block a\nwait 1\nend\nblock b\ndo a times 2048\nend\nrepeat 2048\ndo b\nend\n"
        self.wrong(SAID + PAIR + ENDED + lines, 12, "more than 50,000 lines")

    def test_any_text(self):
        """Whatever is written, it is read, or each wrong line is reported."""
        choose = random.Random(38)
        folder = TOOL.parent.parent / "apps" / "exercises"
        texts = [path.read_text("utf-8").splitlines() for path in sorted(folder.glob("*.txt")) if "ghost" not in path.name]
        words = sorted({word for lines in texts for line in lines for word in line.split()})
        read, wrong = 0, 0
        for _ in range(300):
            lines = list(choose.choice(texts))
            for _ in range(choose.randint(1, 4)):
                at = choose.randrange(len(lines))
                line = lines[at].split() or ["wait"]
                place = choose.randrange(len(line))
                change = choose.randrange(5)
                if change == 0:
                    del lines[at]
                elif change == 1:
                    lines.insert(choose.randrange(len(lines)), lines[at])
                else:
                    line[place : place + choose.randint(0, 1)] = [choose.choice(words)]
                    lines[at] = " ".join(line)
            for reader in (bench_file.read_exercise, bench_file.read_long_text, bench_file.read_text):
                try:
                    reader("\n".join(lines))
                    read += 1
                except Wrong as returned:
                    self.assertTrue(all(1 <= line <= len(lines) for line, _ in returned.faults), returned)
                    wrong += 1
        self.assertGreater(min(read, wrong), 100)

    def test_a_walk_is_for_the_room(self):
        text = SAID + PAIR + "stage One\nsend cable 0 end 0 tray 0\nopen-walk tray 0\nstep 1\nend-walk 1\n"
        text += "promise seat 1 host 0 down\n"
        self.assertEqual(bench_file.read_exercise(text).only_room, 10)
        with self.assertRaisesRegex(Wrong, "line 10: a bench file has no event for a walk"):
            bench_file.read_text(text)


class Tool(unittest.TestCase):
    def tool(self, *paths):
        return subprocess.run([sys.executable, TOOL, *paths], capture_output=True, text=True)

    def test_tool(self):
        with tempfile.TemporaryDirectory() as name:
            folder = pathlib.Path(name)
            text, octets, again = folder / "a.txt", folder / "a.bench", folder / "b.txt"
            text.write_text(PAIR + "second 0 times 3\n")
            made = self.tool(text, octets)
            self.assertEqual(made.stdout, f"{octets}: 2 seats, 1 cable, 3 events, NHOSTS 2, 708 octets\n")
            self.assertEqual(self.tool(octets, again).returncode, 0)
            self.assertEqual(bench_file.to_octets(read(again.read_text())), octets.read_bytes())
            self.assertIn("seats: 2\n", self.tool(octets).stdout)
            text.write_text("seat 192.0.2.1\ntick 1\ntock 1\n")
            refused = self.tool(text, folder / "c.bench")
            self.assertEqual(refused.returncode, 1)
            returned = [line.split(": ")[0] for line in refused.stderr.splitlines()]
            self.assertEqual(returned, [f"{text}:2", f"{text}:3"])
            self.assertFalse((folder / "c.bench").exists())
            octets.write_bytes(b"short")
            self.assertIn("the header alone has 20", self.tool(octets, again).stderr)
            self.assertIn("No such file", self.tool(folder / "none.txt", octets).stderr)
            self.assertEqual(self.tool(text, again).returncode, 2)

    def test_long_text(self):
        with tempfile.TemporaryDirectory() as name:
            folder = pathlib.Path(name)
            text = folder / "a.txt"
            text.write_text(PAIR + "second all times 2000\n")
            self.assertEqual(self.tool(text, folder / "a.bench").returncode, 0)
            made = [path.read_bytes() for path in (folder / "a-001.bench", folder / "a-002.bench")]
            self.assertEqual([len(bench_file.from_octets(octets).events) for octets in made], [2_048, 1_952])
            self.assertFalse((folder / "a.bench").exists())


if __name__ == "__main__":
    unittest.main()
