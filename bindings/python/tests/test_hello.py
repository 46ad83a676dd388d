"""Tests of the package's own checks: nothing is cut off, nothing unfit is passed."""

import unittest

import hello
from hello import Answer, library


def settings(**changes):
    """Good settings of host 192.0.2.1 among four, with changes."""
    return hello.Settings(**{"address": (192, 0, 2, 1), "address_offset": 1, "nhosts": 4, **changes})


def fresh(**changes):
    """A host of a room of its own, freshly set."""
    given = settings(**changes)
    host = hello.Room(1, given.nhosts).host(0, given)
    if host.initialize() != Answer.DONE:
        raise AssertionError("a fresh host was refused")
    return host


class Fields(unittest.TestCase):
    """Numbers that do not fit their field."""

    def test_settings(self):
        for field, bits in (
            ("address_offset", 8),
            ("nhosts", 64),
            ("clock_host", 8),
            ("hold_interval", 16),
            ("date", 16),
        ):
            for value in (-1, 1 << bits):
                with self.assertRaises(OverflowError, msg=field):
                    settings(**{field: value})
        for field in ("clock_tick", "time"):
            for value in (-(1 << 63) - 1, 1 << 63):
                with self.assertRaises(OverflowError, msg=field):
                    settings(**{field: value})

    def test_counts(self):
        for borrowed, field in ((settings(), "link_count"), (hello.ClassTable(4), "count")):
            for value in (-1, 1 << 64):
                with self.assertRaises(OverflowError, msg=field):
                    setattr(borrowed, field, value)
        for hosts in (-1, 17):
            with self.assertRaises(OverflowError):
                hello.Room(hosts, 4)
        for nhosts in (-1, 1 << 64):
            with self.assertRaises(OverflowError):
                hello.Room(1, nhosts)

    def test_parts(self):
        with self.assertRaises(OverflowError):
            settings(address=(256, 0, 2, 1))
        with self.assertRaises(OverflowError):
            hello.ClassTable(4, [((1, 2, 300), 0)])
        for address in ((192, 0, 2), (192, 0, 2, 1, 0)):
            with self.assertRaises(ValueError):
                settings(address=address)
        with self.assertRaises(ValueError):
            settings(links=9 * [hello.LinkSetting()])
        with self.assertRaises(ValueError):
            hello.ClassTable(4, 33 * [hello.Row()])

    def test_lent(self):
        for values in ({"clock": 1 << 63}, {"delta": 1 << 63}, {"hold": -1}, {"date": 1 << 16}):
            with self.assertRaises(OverflowError, msg=values):
                hello.Clock(**values)
        for link in (hello.Link(keep_alive=256), hello.Link(tsp=1 << 15)):
            with self.assertRaises(OverflowError, msg=link):
                hello.Links([link])
        run = hello.HostTable(1)
        for entry in (
            hello.Entry(delay=1 << 63),
            hello.Entry(offset=-(1 << 15) - 1),
            hello.Entry(ttl=1 << 16),
            hello.Entry(pid=-1),
            hello.Entry(here=256),
            hello.Entry(time=-(1 << 63) - 1),
        ):
            with self.assertRaises(OverflowError, msg=entry):
                run[0] = entry
        self.assertEqual(run[0], hello.Entry())

    def test_places(self):
        run = hello.HostTable(2)
        run[-1] = hello.Entry(delay=7)
        self.assertEqual(run[1].delay, 7)
        for index in (2, -3):
            with self.assertRaises(IndexError):
                run[index]
        with self.assertRaises(IndexError):
            hello.Links()[8]

    def test_arguments(self):
        host = fresh()
        with self.assertRaises(OverflowError):
            host.set(1 << 31)
        with self.assertRaises(OverflowError):
            host.send(1 << 64)
        for call in (host.inspect, host.act, host.receive):
            with self.assertRaises(OverflowError):
                call(1 << 64, b"")
        with self.assertRaises(OverflowError):
            host.lookup((1, 2, 3, 256))
        for call in (host.tick, host.adjust):
            with self.assertRaises(OverflowError):
                call(count=1 << 16)
        for counter in ((1 << 16, False, 0), (0, True, -1)):
            with self.assertRaises(OverflowError, msg=counter):
                host.read(counter=counter)
        with self.assertRaises(ValueError):
            host.read(counter=(0, False))
        host.number = -1
        with self.assertRaises(OverflowError):
            host.tick()


class Types(unittest.TestCase):
    """Values of another type."""

    def test_numbers(self):
        for value in (1.0, "1", None):
            with self.assertRaises(TypeError):
                settings(nhosts=value)
        for value in (1, 2, None):
            with self.assertRaises(TypeError):
                settings(links=[(value, (0, 0, 0, 0))])
            with self.assertRaises(TypeError):
                fresh().read(counter=(0, value, 0))

    def test_lent(self):
        for place in ("settings", "clock", "links"):
            for value in (None, hello.HostTable(1)):
                host = fresh()
                setattr(host, place, value)
                with self.assertRaises(TypeError, msg=place):
                    host.tick()
        host = fresh()
        host.room.entries = host.clock
        with self.assertRaises(TypeError):
            host.tick()

    def test_octets(self):
        host = fresh()
        for buffer in (bytes(64), 64, None, "buffer", memoryview(bytearray(128))[::2]):
            with self.assertRaises(TypeError):
                host.send_into(1, buffer)
        for packet in ("packet", 20, None, [1, 2]):
            for call in (host.inspect, host.act, host.receive):
                with self.assertRaises(TypeError):
                    call(1, packet)


class Answers(unittest.TestCase):
    """What fits its field is the library's to judge."""

    def test_empty(self):
        host = fresh()
        self.assertIs(hello.packet(b""), Answer.IP_FORM)
        self.assertEqual(hello.checksum(b""), 0xFFFF)
        self.assertEqual(hello.checksum_plain(b""), 0xFFFF)
        self.assertEqual(host.send_into(1, bytearray()), (Answer.SHORT_BUFFER, 0))
        refused = hello.Inspected(Answer.IP_FORM, hello.Address(), 0, 0, 0)
        self.assertEqual(host.inspect(1, b""), refused)
        self.assertIs(host.act(1, b""), Answer.IP_FORM)
        self.assertIs(host.receive(1, b""), Answer.IP_FORM)
        self.assertIs(hello.Room(0, 4).host(0, settings()).initialize(), Answer.OUT_OF_RANGE)

    def test_out_of_range(self):
        host = fresh()
        host.settings.nhosts = 300
        self.assertIs(host.tick(), Answer.SETTING)
        host = fresh()
        host.number = 16
        self.assertIs(host.tick(), Answer.OUT_OF_RANGE)
        host = fresh()
        host.room.entries[0] = hello.Entry(delay=-1)
        self.assertIs(host.tick(), Answer.OUT_OF_RANGE)
        self.assertEqual(host.read(), hello.Time(Answer.OUT_OF_RANGE, 0, 0))
        self.assertEqual(host.send(1), hello.Sent(Answer.OUT_OF_RANGE, b""))

    def test_values_are_kept(self):
        links = [hello.LinkSetting(True, hello.Address(192, 0, 2, 2))]
        host = fresh(links=links, time=1234)
        kept = host.settings
        self.assertEqual(kept.address, hello.Address(192, 0, 2, 1))
        self.assertEqual((kept.links[:1], kept.link_count), (tuple(links), 1))
        self.assertEqual(host.clock.clock, 1234 * hello.UNITS_PER_MS)
        self.assertEqual(host.links[0], hello.Link(hello.Address(192, 0, 2, 2)))
        fresh_entry = hello.Entry(delay=30_000)
        self.assertEqual(host.table, [fresh_entry._replace(here=1), *3 * [fresh_entry]])
        self.assertEqual(host.room.entries[4], hello.Entry())

    def test_octets_behind_a_message_stay(self):
        host = fresh()
        buffer = bytearray(40 * b"\xaa")
        self.assertEqual(host.send_into(1, buffer), (Answer.DONE, 32))
        self.assertEqual(buffer[32:], 8 * b"\xaa")

    def test_packets_are_looked_at_and_acted_on(self):
        neighbor = hello.Room(1, 4).host(0, settings(address=(192, 0, 2, 2), time=5))
        self.assertIs(neighbor.initialize(), Answer.DONE)
        neighbor.links[0] = hello.Link(hello.Address(192, 0, 2, 1), keep_alive=1, tsp=-7)
        message = neighbor.send(1).message
        host = fresh()
        seen = hello.Inspected(Answer.DONE, hello.Address(192, 0, 2, 2), 5, 65_534, 4)
        self.assertEqual(host.inspect(1, message), seen)
        self.assertEqual(host.links[0], hello.Link())
        host.tick()
        self.assertIs(host.act(1, message), Answer.DONE)
        self.assertEqual(host.links[0], hello.Link(hello.Address(192, 0, 2, 2), 4, 4))
        other = fresh()
        other.tick()
        self.assertIs(other.receive(1, message), Answer.DONE)
        self.assertEqual((other.links[0], other.table), (host.links[0], host.table))

    def test_longest_message(self):
        host = fresh(nhosts=255, links=[hello.LinkSetting(True, hello.Address(192, 0, 2, 2))])
        self.assertEqual(len(host.send(1).message), 1052)

    def test_plain_calls(self):
        host = fresh()
        table = hello.ClassTable(4)
        borrowed = (host.settings, table, 0, host.clock, host.links, host.walk, host.room.entries)
        self.assertEqual(library.tick(*borrowed), 0)
        self.assertEqual(library.read(*borrowed), (0, 1, host.clock.date))
        self.assertEqual(library.tick(*borrowed[:6], hello.HostTable(0)), 12)
        self.assertEqual(library.net_add(table, (10, 0, 0), 1), (0, 1))
        self.assertEqual(library.net_change(table, 1, 4), 1)
        self.assertEqual(library.net_remove(table, 2), 22)
        self.assertEqual(library.net_afresh(table, 0), 1)


class NetTables(unittest.TestCase):
    """The net table of the class, which its hosts use and the tutor changes."""

    A, B = hello.Net(10, 0, 0), hello.Net(128, 1, 2)

    def test_rows(self):
        table = hello.Room(1, 4).net_table
        self.assertEqual((table.nhosts, table.rows), (4, ()))
        self.assertEqual(table.add(self.A, 3), hello.Added(Answer.DONE, 1))
        self.assertEqual(table.add(self.B, 0), hello.Added(Answer.DONE, 2))
        self.assertEqual(table.add(self.A, 1), hello.Added(Answer.DONE, 3))
        rows = (hello.Row(self.A, 3), hello.Row(self.B, 0), hello.Row(self.A, 1))
        self.assertEqual(table.rows, rows)
        self.assertIs(table.change(2, 2), Answer.DONE)
        self.assertEqual(table.rows[1], hello.Row(self.B, 2))
        # Those after a removed row move up.
        self.assertIs(table.remove(1), Answer.DONE)
        self.assertEqual(table.rows, (hello.Row(self.B, 2), rows[2]))
        self.assertEqual(table.slots[2:], 30 * (hello.Row(),))
        self.assertIs(table.initialize(9), Answer.DONE)
        self.assertEqual((table.nhosts, table.rows), (9, ()))

    def test_refused(self):
        table = hello.Room(1, 4).net_table
        for id in (4, 255, 256, 1 << 32):
            self.assertEqual(table.add(self.A, id), hello.Added(Answer.SETTING, 0))
        for row in (0, 1, 1 << 63):
            self.assertIs(table.remove(row), Answer.NO_ROW)
            self.assertIs(table.change(row, 9), Answer.NO_ROW)
        for row in range(1, 33):
            self.assertEqual(table.add(self.B, 1), hello.Added(Answer.DONE, row))
        self.assertEqual(table.add(self.B, 9), hello.Added(Answer.TABLE_FULL, 0))
        self.assertIs(table.change(32, 4), Answer.SETTING)
        for nhosts in (0, 256):
            self.assertIs(table.initialize(nhosts), Answer.SETTING)
        self.assertEqual((table.nhosts, table.rows), (4, 32 * (hello.Row(self.B, 1),)))

    def test_bad_tables(self):
        host = fresh()
        table = host.room.net_table
        bad = hello.Row(self.A, 4)
        for nhosts, rows, count in ((0, (), 0), (256, (), 0), (4, (bad,), 1), (4, (), 33), (4, (hello.Row(), bad), 2)):
            table.nhosts, table.slots, table.count = nhosts, rows, count
            self.assertIs(host.tick(), Answer.OUT_OF_RANGE)
            self.assertIs(host.initialize(), Answer.OUT_OF_RANGE)
            self.assertEqual(table.add(self.A, 0), hello.Added(Answer.OUT_OF_RANGE, 0))
            self.assertIs(table.remove(1), Answer.OUT_OF_RANGE)
            self.assertIs(table.change(1, 0), Answer.OUT_OF_RANGE)
        # Behind the rows that stand nothing is looked at.
        table.slots, table.count = (bad,), 0
        self.assertIs(host.tick(), Answer.DONE)
        self.assertEqual(table.add(self.B, 0), hello.Added(Answer.DONE, 1))
        self.assertEqual(table.slots, (hello.Row(self.B, 0), *31 * (hello.Row(),)))

    def test_hosts_use_it(self):
        room = hello.Room(2, 4)
        hosts = [room.host(k, settings(address=(192, 0, 2, 1 + k))) for k in range(2)]
        for host in hosts:
            self.assertIs(host.initialize(), Answer.DONE)
            self.assertIs(host.self_report(), Answer.DONE)
        own, other = hosts
        there = hello.Address(10, 1, 2, 3)
        self.assertIs(own.lookup(there).answer, Answer.NO_HOST)
        self.assertEqual(room.net_table.add(self.A, 0), hello.Added(Answer.DONE, 1))
        self.assertEqual(own.lookup(there), hello.Route(Answer.DONE, 0, 0))
        self.assertIs(other.lookup(there).answer, Answer.HOST_DOWN)
        self.assertIs(room.net_table.change(1, 1), Answer.DONE)
        self.assertIs(own.lookup(there).answer, Answer.HOST_DOWN)
        self.assertEqual(other.lookup(there), hello.Route(Answer.DONE, 1, 0))
        self.assertIs(room.net_table.remove(1), Answer.DONE)
        self.assertIs(other.lookup(there).answer, Answer.NO_HOST)

    def test_another_nhosts(self):
        host = fresh()
        self.assertIs(host.room.net_table.initialize(5), Answer.DONE)
        self.assertIs(host.tick(), Answer.SETTING)
        self.assertIs(host.initialize(), Answer.SETTING)
        host.settings.nhosts = 5
        self.assertIs(host.initialize(), Answer.DONE)
        self.assertIs(host.tick(), Answer.DONE)

    def test_types(self):
        host = fresh()
        with self.assertRaises(TypeError):
            library.net_remove(host.settings, 1)
        with self.assertRaises(TypeError):
            library.tick(host.settings, host.settings, 0, host.clock, host.links, host.walk, host.room.entries)
        for wrong in (-1, 1 << 64):
            with self.assertRaises(OverflowError):
                host.room.net_table.remove(wrong)
            with self.assertRaises(OverflowError):
                host.room.net_table.add(self.A, wrong)
        with self.assertRaises(ValueError):
            host.room.net_table.add((10, 0), 1)


class ManyTicks(unittest.TestCase):
    """Many ticks in a row are that many calls of tick."""

    def test_same_clock(self):
        many, one = fresh(time=86_399_990), fresh(time=86_399_990)
        self.assertEqual(many.ticks(25), Answer.DONE)
        for _ in range(25):
            self.assertEqual(one.tick(), Answer.DONE)
        self.assertEqual(many.read(), one.read())
        self.assertEqual(many.read().time, 15)
        self.assertEqual(many.clock.hold, one.clock.hold)

    def test_refused(self):
        host = fresh()
        host.settings.nhosts = 0
        self.assertEqual(host.ticks(3), Answer.SETTING)
        self.assertEqual(host.clock.clock, 0)
        for times in (0, -1):
            with self.assertRaises(OverflowError):
                host.ticks(times)
        with self.assertRaises(TypeError):
            host.ticks(1.5)


class CrystalClock(unittest.TestCase):
    """A reading is CLOCK plus the count of a counter of 1,000 Hz, which overflows each TICK ms."""

    DAY = 86_400_000
    TICK = 65_536

    def crystal(self, time):
        """A host with a crystal clock, that many ms after midnight of 2 January 1972."""
        return fresh(
            clock_tick=self.TICK * hello.UNITS_PER_MS, time=time, date=hello.date(1972, 1, 2)
        )

    def state(self, host):
        """CLOCK in ms, and the day of January."""
        return host.clock.clock / hello.UNITS_PER_MS, host.clock.date >> 5 & 31

    def test_count(self):
        host = self.crystal(1000)
        self.assertEqual(host.read().time, 1000)
        self.assertEqual(host.read(hello.Counter(234)).time, 1234)
        message = host.send(1, counter=hello.Counter(234)).message
        self.assertEqual(message[24:28], (1234).to_bytes(4, "big"))
        self.assertEqual(self.state(host), (1000, 2))

    def test_mark(self):
        host = self.crystal(1000)
        marked = hello.Counter(65_535, overflow=True, again=7)
        self.assertEqual(host.read(counter=marked).time, 1000 + self.TICK + 7)
        self.assertEqual(self.state(host), (1000 + self.TICK, 2))
        self.assertIs(host.self_report(counter=marked), Answer.DONE)
        self.assertEqual(host.table[0].time, 1000 + 2 * self.TICK + 7)

    def test_midnight(self):
        host = self.crystal(self.DAY - 10)
        self.assertEqual(host.read(hello.Counter(10)).time, self.DAY)
        self.assertEqual(host.read(hello.Counter(11)).time, 1)
        self.assertEqual((self.state(host), host.clock.hold), ((-10, 3), 1))
        self.assertIs(host.adjust(count=10), Answer.DONE)
        self.assertEqual(self.state(host), (-10, 3))
        self.assertEqual(host.read(hello.Counter(9)).time, self.DAY - 1)
        self.assertEqual(self.state(host), (self.DAY - 10, 2))
        self.assertIs(host.set(-self.DAY, count=9), Answer.DONE)
        self.assertEqual(self.state(host), (self.DAY - 10, 1))
        self.assertIs(host.tick(count=0), Answer.DONE)
        self.assertEqual(self.state(host), (self.TICK - 10, 2))

    def test_ranges(self):
        host = self.crystal(0)
        host.clock.clock = -65_535 * hello.UNITS_PER_MS
        self.assertIs(host.second(), Answer.DONE)
        host.clock.clock -= 1
        self.assertIs(host.second(), Answer.OUT_OF_RANGE)
        host = self.crystal(0)
        host.settings.clock_tick += 1
        self.assertIs(host.tick(), Answer.SETTING)

    def test_refusals_keep_the_reading(self):
        marked = hello.Counter(0, overflow=True, again=5)
        neighbor = hello.Address(192, 0, 2, 2)
        message = fresh(address=neighbor).send(1).message
        for call in ("act", "receive"):
            host = self.crystal(1000)
            host.links[0] = hello.Link(neighbor)
            answer = getattr(host, call)(1, message, counter=marked)
            self.assertIs(answer, Answer.DELAY_NOT_VALID)
            self.assertEqual(self.state(host), (1000 + self.TICK, 2))
            self.assertIs(getattr(host, call)(1, b"", counter=marked), Answer.IP_FORM)
            self.assertEqual(self.state(host), (1000 + self.TICK, 2))


class Marks(unittest.TestCase):
    """Several hosts at one."""

    FRESH = hello.Entry(delay=30_000)

    def marks(self, host):
        return [entry.here for entry in host.table]

    def test_settings(self):
        self.assertEqual(settings().marks, {0})
        self.assertEqual(settings(address=(10, 0, 7, 1)).marks, {6})
        self.assertEqual(settings(address_offset=2).marks, frozenset())
        self.assertEqual(settings(marks={0, 3}).marks, {0, 3})
        every = settings(marks=range(256))
        self.assertEqual(every.marks, set(range(256)))
        every.marks = [63, 64, 255]
        self.assertEqual(every.marks, {63, 64, 255})
        for id in (-1, 256):
            with self.assertRaises(OverflowError):
                settings(marks={id})
            with self.assertRaises(OverflowError):
                every.marks = [1, id]
        self.assertEqual(every.marks, {63, 64, 255})
        for value in ({"0"}, {1.0}, 3):
            with self.assertRaises(TypeError):
                settings(marks=value)

    def test_refused_with_1(self):
        for marks in ((), {1}, {0, 4}, {0, 63}, {0, 64}, {0, 255}):
            host = hello.Room(1, 4).host(0, settings(marks=marks))
            self.assertIs(host.initialize(), Answer.SETTING, msg=marks)
        host = fresh(nhosts=255, marks=range(255))
        self.assertEqual(self.marks(host), 255 * [1])
        host.settings.marks = range(256)
        self.assertIs(host.tick(), Answer.SETTING)

    def test_refused_with_12(self):
        host = fresh(marks={0, 2})
        for id, here in ((0, 0), (1, 1), (2, 0), (2, 2), (3, 255)):
            kept = host.room.entries[id]
            host.room.entries[id] = kept._replace(here=here)
            self.assertIs(host.second(), Answer.OUT_OF_RANGE)
            self.assertIs(host.self_report(), Answer.OUT_OF_RANGE)
            host.room.entries[id] = kept
            self.assertIs(host.second(), Answer.DONE)
        host.room.entries[4] = hello.Entry(here=1)
        self.assertIs(host.second(), Answer.DONE)
        host.settings.marks = {0, 1, 2}
        self.assertIs(host.second(), Answer.OUT_OF_RANGE)
        self.assertIs(host.initialize(), Answer.DONE)
        self.assertEqual(self.marks(host), [1, 1, 1, 0])
        self.assertEqual(host.room.entries[4], hello.Entry(here=1))

    def test_reported(self):
        host = fresh(marks={0, 2, 3}, time=5)
        host.room.entries[3] = self.FRESH._replace(ttl=9, here=1)
        self.assertIs(host.self_report(hello.Counter(2)), Answer.DONE)
        reported = hello.Entry(ttl=120, here=1, time=7)
        stays = self.FRESH._replace(ttl=9, here=1)
        self.assertEqual(host.table, [reported, self.FRESH, reported, stays])

    def test_stay(self):
        neighbor = fresh(address=(192, 0, 2, 2), marks={1, 3})
        self.assertIs(neighbor.self_report(), Answer.DONE)
        neighbor.links[0] = hello.Link((192, 0, 2, 1), keep_alive=1, tsp=-300)
        message = neighbor.send(1).message
        host = fresh(marks={0, 3})
        host.links[0] = hello.Link((192, 0, 2, 2))
        self.assertIs(host.receive(1, message), Answer.DONE)
        # Host 3 lives at both by their marks, and the link may update its entry.
        self.assertEqual([host.table[id].delay for id in (1, 3)], [300, 300])
        self.assertIs(host.open_walk(1, message).answer, Answer.DONE)
        while host.step().place is not None:
            self.assertEqual(self.marks(host), [1, 0, 0, 1])
        for call in (host.second, host.self_report, host.tick, host.adjust):
            self.assertIs(call(), Answer.DONE)
        self.assertIs(host.send(1).answer, Answer.DONE)
        self.assertEqual(self.marks(host), [1, 0, 0, 1])


class Walking(unittest.TestCase):
    """An arrival, one box at a time."""

    NEIGHBOR = hello.Address(192, 0, 2, 2)

    def host(self):
        """A host that knows its neighbor, which sets its clock."""
        host = fresh(clock_host=1, time=40_000)
        host.links[0] = hello.Link(self.NEIGHBOR)
        return host

    def message(self, heard=True):
        """A message of the neighbor with its table, and with a TSP where it heard the host."""
        host = fresh(address=self.NEIGHBOR, time=40_001)
        self.assertIs(host.self_report(), Answer.DONE)
        host.links[0] = hello.Link((192, 0, 2, 1), int(heard), -300)
        return host.send(1).message

    def state(self, host):
        clock = host.clock
        return (clock.clock, clock.delta, clock.hold, clock.date), list(host.links), host.table

    def walked(self, host, packet):
        """The places of a walk, by name, and the last answer."""
        stepped, names = host.open_walk(1, packet), []
        while stepped.place is not None:
            names.append(str(stepped.place))
            stepped = host.step()
        return names, stepped.answer

    def test_ends_as_the_arrival(self):
        walked, acted = self.host(), self.host()
        names, answer = self.walked(walked, self.message())
        steps = [f"step {step}" for step in range(1, 6)]
        lines = ["host 0, line a", *(f"host 1, line {line}" for line in "abcd")]
        self.assertEqual(names, steps + lines + ["host 2, line a", "host 3, line a"])
        self.assertIs(answer, Answer.DONE)
        self.assertIs(acted.act(1, self.message()), Answer.DONE)
        self.assertEqual(self.state(walked), self.state(acted))
        self.assertEqual(walked.step(), (Answer.NO_WALK, None))

    def test_ten_ends_it(self):
        walked, acted = self.host(), self.host()
        packet = self.message(heard=False)
        names, answer = self.walked(walked, packet)
        self.assertEqual((names[-1], answer), ("step 4", Answer.DELAY_NOT_VALID))
        self.assertIs(acted.receive(1, packet), Answer.DELAY_NOT_VALID)
        self.assertEqual(self.state(walked), self.state(acted))
        self.assertEqual(walked.walk.opened, 0)

    def test_other_calls(self):
        host, packet = self.host(), self.message()
        self.assertEqual(host.open_walk(1, packet), (Answer.DONE, hello.Place(1)))
        before = self.state(host)
        for answer in (
            host.tick(),
            host.adjust(),
            host.set(5),
            host.read().answer,
            host.second(),
            host.self_report(),
            host.send(1).answer,
            host.inspect(1, packet).answer,
            host.act(1, packet),
            host.receive(1, packet),
            host.open_walk(1, packet).answer,
            host.lookup(self.NEIGHBOR).answer,
        ):
            self.assertIs(answer, Answer.IN_WALK)
        self.assertEqual(self.state(host), before)
        self.assertEqual(host.walk.copy[: len(packet)], packet)
        self.assertIs(host.initialize(), Answer.DONE)
        self.assertIs(host.tick(), Answer.DONE)
        self.assertIs(host.step().answer, Answer.NO_WALK)

    def test_what_is_held(self):
        host = self.host()
        self.assertIs(host.open_walk(1, self.message()).answer, Answer.DONE)
        copy = host.walk.copy
        host.walk.copy = bytes(len(copy))
        self.assertIs(host.step().answer, Answer.OUT_OF_RANGE)
        host.walk.copy = copy
        host.walk.step = 6
        self.assertIs(host.second(), Answer.OUT_OF_RANGE)
        host.walk.step = 1
        self.assertEqual(str(host.step().place), "step 2")
        with self.assertRaises(OverflowError):
            host.walk.id = 256
        with self.assertRaises(ValueError):
            host.walk.copy = b""
        host.walk = hello.Walk(room=hello.LONGEST_MESSAGE - 1)
        self.assertIs(host.open_walk(1, self.message()).answer, Answer.OUT_OF_RANGE)
        host.walk = hello.Walk(room=0)
        self.assertIs(host.tick(), Answer.DONE)


if __name__ == "__main__":
    unittest.main()
