"""Tests of the store without a server: what is written, what a room that is made again is, and what a
store says that cannot be used."""

import contextlib
import random
import sqlite3
import tempfile
import unittest
from pathlib import Path

from classroom.room import Refused
from classroom.room.replay import replay
from classroom.server import checkpoint, record
from classroom.server.record import Record, rebuilt, same
from classroom.server.store import Store, StoreError

SEATS = 3


class Chance:
    """A class whose teacher and students ask for things by chance."""

    def __init__(self, kept, seed):
        self.kept = kept
        self._chance = random.Random(seed)

    def ask(self):
        """One message, or time goes on; a message may be refused."""
        pick = self._chance.choice
        if self._chance.random() < 0.3:
            self.kept.pass_time(self._chance.uniform(0.5, 900))
            return
        by = pick(("/teacher", "/seat/0", "/seat/1", "/seat/2"))
        with contextlib.suppress(Refused):
            self.kept.take(by, self._teachers() if by == "/teacher" else self._students(int(by[-1])))

    def _teachers(self):
        pick, n = self._chance.choice, self._chance.randrange
        return pick(
            (
                {"do": "run"},
                {"do": "pause"},
                {"do": "speed", "factor": pick((0.5, 2, 100))},
                {"do": "one_second"},
                {"do": "one_message"},
                {"do": "waits", "on": n(2) == 1},
                {"do": "by_hand", "seat": n(SEATS), "on": n(2) == 1},
                {"do": "show", "what": "tables"},
                {"do": "net_add", "net": "198.51.100", "id": n(4)},
                {"do": "net_remove", "row": n(3)},
                {"do": "exercise", "number": 1 + n(10)},
                {"do": "next"},
                {"do": "bench_ready", "file": "small"},
                {"do": "bench_set_up", "net": "own"},
                {"do": "bench_run", "events": 3},
                {"do": "bench_room"},
            )
        )

    def _students(self, seat):
        pick, n = self._chance.choice, self._chance.randrange
        waiting = list(self.kept.room.seats[seat].waiting) if seat < len(self.kept.room.seats) else []
        calls = [
            {"call": "read"},
            {"call": "self_report"},
            {"call": "second"},
            {"call": "set", "ms": n(400) - 200},
            {"call": "send", "link": 1},
            {"call": "step"},
        ]
        calls += [{"call": call, "message": pick(waiting)} for call in ("receive", "open_walk", "drop") if waiting]
        return pick([{"do": "by_hand", "on": True}, *({"do": "call", **call} for call in calls)])


class Stored(unittest.TestCase):
    """A store in a folder of its own."""

    def setUp(self):
        folder = tempfile.TemporaryDirectory()
        self.addCleanup(folder.cleanup)
        self.path = str(Path(folder.name) / "a.class")
        self._open = []
        self.addCleanup(lambda: [store.close() for store in self._open])

    def store(self):
        self._open.append(Store(self.path))
        return self._open[-1]

    def closed(self):
        for store in self._open:
            store.close()

    def worked(self, asks=120, seed=1):
        """A store with a class that has worked."""
        store = self.store()
        kept = Record(store, SEATS)
        chance = Chance(kept, seed)
        for _ in range(asks):
            chance.ask()
            kept.write()
        return store, kept


class Rebuilding(Stored):
    """A room that is made again from the store is the room that was."""

    def test_from_the_inputs_alone(self):
        for seed in range(6):
            with self.subTest(seed=seed):
                self.path += str(seed)
                store, kept = self.worked(seed=seed)
                self.assertTrue(same(rebuilt(store, checkpoints=False), kept.room))
                self.assertTrue(same(rebuilt(store), kept.room))

    def test_from_checkpoints(self):
        between = record.INPUTS_BETWEEN
        record.INPUTS_BETWEEN = 7
        try:
            store, kept = self.worked(200)
        finally:
            record.INPUTS_BETWEEN = between
        count = sqlite3.connect(self.path).execute("SELECT count(*) FROM checkpoints").fetchone()[0]
        self.assertGreater(count, 10)
        for most in range(1, store.last_input() + 1, 11):
            self.assertTrue(same(rebuilt(store, most), rebuilt(store, most, checkpoints=False)), most)
        self.assertTrue(same(rebuilt(store), kept.room))

    def test_goes_on(self):
        store, kept = self.worked(60)
        chance = random.Random(5)
        for _ in range(3):
            store.close()
            store = self.store()
            again = Record(store, SEATS)
            self.assertTrue(same(again.room, kept.room))
            kept, more = again, Chance(again, chance.randrange(100))
            for _ in range(40):
                more.ask()
                again.write()
        self.assertTrue(same(rebuilt(store, checkpoints=False), kept.room))

    def test_what_is_not_written_never_was(self):
        store, kept = self.worked(50)
        before = rebuilt(store)
        kept.take("/teacher", {"do": "one_second"})
        self.assertTrue(same(rebuilt(store), before))
        kept.write()
        self.assertTrue(same(rebuilt(store), kept.room))

    def test_list_of_calls(self):
        store, kept = self.worked(80)
        lines = list(kept.room.lines())
        report = replay(lines)
        self.assertTrue(report.equal, report)
        store.close()
        self.assertEqual(list(Record(self.store(), SEATS).room.lines()), lines)

    def test_another_program(self):
        store, kept = self.worked(40)
        kept.keep()
        sqlite3.connect(self.path).executescript("UPDATE checkpoints SET program = 'another'")
        self.assertIsNone(store.checkpoint(checkpoint.program()))
        self.assertTrue(same(rebuilt(store), kept.room))

    def test_a_checkpoint_that_is_none(self):
        store, kept = self.worked(40)
        kept.keep()
        sqlite3.connect(self.path).executescript("UPDATE checkpoints SET state = x'00ff'")
        self.assertTrue(same(rebuilt(store), kept.room))

    def test_octets_of_other_things(self):
        import os
        import pickle
        import zlib

        for thing in (os.system, Path, print, eval, checkpoint.dump):
            with self.assertRaises(checkpoint.NotKept):
                checkpoint.load(zlib.compress(pickle.dumps(thing)))

    def test_checkpoints_are_few(self):
        store, kept = self.worked(10)
        for number in range(1, 200):
            store.keep(number, 1, number, "x", b"")
        count = sqlite3.connect(self.path).execute("SELECT count(*) FROM checkpoints").fetchone()[0]
        self.assertLess(count, 60)


class Failing(Stored):
    """A store that cannot be used says so in a sentence."""

    def sentence(self, part):
        with self.assertRaises(StoreError) as raised:
            Record(self.store(), SEATS)
        said = str(raised.exception)
        self.assertIn(part, said)
        self.assertIn(self.path, said)
        self.assertNotIn("Traceback", said)
        self.assertTrue(said.endswith("."), said)

    def test_full_disk(self):
        store, kept = self.worked(30)
        pages = store._db.execute("PRAGMA page_count").fetchone()[0]
        store._db.execute(f"PRAGMA max_page_count = {pages}")
        before = rebuilt(store)
        chance = Chance(kept, 3)
        with self.assertRaises(StoreError) as raised:
            for _ in range(300):
                before = rebuilt(store)
                for _ in range(20):
                    chance.ask()
                kept.write()
        self.assertIn("cannot be written: database or disk is full", str(raised.exception))
        self.assertTrue(same(rebuilt(store), before))
        with self.assertRaises(StoreError):
            kept.write()
        store._db.execute("PRAGMA max_page_count = 1000000")
        kept.write()
        self.assertTrue(same(rebuilt(store), kept.room))

    def test_two_servers(self):
        store, _ = self.worked(5)
        self.sentence("is being served already, by process")
        store.close()
        Record(self.store(), SEATS)

    def test_no_store(self):
        Path(self.path).write_text("this is a letter\n" * 100)
        self.sentence("is damaged, or is no store of a class")

    def test_another_database(self):
        with contextlib.closing(sqlite3.connect(self.path)) as other:
            other.execute("CREATE TABLE x (y)")
        self.sentence("no such table: class")

    def test_later_form(self):
        store, _ = self.worked(5)
        store.tell(form=3)
        self.closed()
        self.sentence("has form 3; this program reads form 2")

    def test_changed_input(self):
        for change in (
            "UPDATE inputs SET reply = '{}' WHERE number = 3",
            "UPDATE inputs SET asked = replace(asked, 'read', 'tick') WHERE asked LIKE '%read%'",
            "DELETE FROM inputs WHERE number = 2",
            "DELETE FROM calls WHERE room = 1 AND line = 3",
            "UPDATE rooms SET title = 'another' WHERE number = 1",
        ):
            with self.subTest(change=change):
                self.path += "x"
                self.worked(60)
                self.closed()
                with contextlib.closing(sqlite3.connect(self.path)) as db:
                    self.assertGreater(db.execute(change).rowcount, 0)
                    db.commit()
                self.sentence("is not as it was written")

    def test_changed_call(self):
        self.worked(60)
        self.closed()
        with contextlib.closing(sqlite3.connect(self.path)) as db:
            db.execute("DELETE FROM checkpoints")
            changed = "UPDATE calls SET text = replace(text, '\"answer\":0', '\"answer\":7') WHERE line = 9"
            self.assertGreater(db.execute(changed).rowcount, 0)
            db.commit()
        self.sentence("is not as it was written")

    def test_a_room_that_does_other_things(self):
        """A store that is in order, of a program whose rooms answer otherwise."""
        store, kept = self.worked(5)
        kept.take("/teacher", {"do": "net_add", "net": "198.51.100", "id": 1})
        kept._calls[-1] = (*kept._calls[-1][:2], kept._calls[-1][2].replace('"id":1', '"id":2'))
        kept.write()
        self.closed()
        self.sentence("cannot be followed: input")

    def test_changed_class(self):
        self.worked(5)[0].tell(seats=2)
        self.closed()
        with contextlib.closing(sqlite3.connect(self.path)) as db:
            db.execute("UPDATE class SET value = '3' WHERE key = 'seats'")
            db.commit()
        self.sentence("what is noted of the class is not as it was written")

    def test_damaged_anywhere(self):
        """Octets changed by chance: the class is as it was, or the store is refused in words."""
        store, kept = self.worked(40)
        store.close()
        octets, chance, refusals = Path(self.path).read_bytes(), random.Random(7), 0
        for _ in range(40):
            spoiled, at = bytearray(octets), chance.randrange(len(octets))
            spoiled[at : at + 64] = chance.randbytes(64)
            Path(self.path).write_bytes(spoiled[: len(octets) - chance.choice((0, 0, 5000))])
            for more in ("-wal", "-shm"):
                Path(self.path + more).unlink(missing_ok=True)
            try:
                store = Store(self.path)
                again = Record(store, SEATS)
                store.close()
                self.assertTrue(same(again.room, kept.room), at)
            except StoreError as why:
                refusals += 1
                self.assertTrue(str(why).endswith("."), why)
                with contextlib.suppress(Exception):
                    store.close()
        self.assertGreater(refusals, 10)

    def test_folder_that_is_none(self):
        with self.assertRaises(StoreError) as raised:
            Store("/nowhere/at/all.class")
        self.assertIn("cannot be opened: No such file or directory", str(raised.exception))


if __name__ == "__main__":
    unittest.main()
