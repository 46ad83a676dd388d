"""The store of a class: one SQLite file with all that has to outlast the process.

    class        the form of the file, when the class began, its seats, port, keys, codes, certificate
    inputs       the journal: each input with its reply, and a sum over all up to it
    calls        the list of calls of each room, line by line
    rooms        each room with its set-up, the input that began it, and the room it goes on from
    checkpoints  the room as it was after an input, so that a resume does not make all inputs again

An input and its calls are written in one transaction, before the reply is sent.
"""

import contextlib
import fcntl
import hashlib
import json
import os
import sqlite3
from typing import NamedTuple, Optional

FORM = 2
MOST_CHECKPOINTS = 48
"""This many of a room's checkpoints are kept; of more, every other one goes."""
_TABLES = (
    "CREATE TABLE class (key TEXT PRIMARY KEY, value TEXT NOT NULL)",
    "CREATE TABLE inputs (number INTEGER PRIMARY KEY, room INTEGER NOT NULL, line INTEGER NOT NULL,"
    " by TEXT NOT NULL, asked TEXT NOT NULL, reply TEXT NOT NULL, sum BLOB NOT NULL)",
    "CREATE TABLE calls (room INTEGER, line INTEGER, text TEXT NOT NULL, PRIMARY KEY (room, line))"
    " WITHOUT ROWID",
    "CREATE TABLE rooms (number INTEGER PRIMARY KEY, title TEXT NOT NULL, set_up TEXT NOT NULL,"
    " input INTEGER NOT NULL, parent INTEGER, line INTEGER)",
    "CREATE TABLE checkpoints (input INTEGER PRIMARY KEY, room INTEGER NOT NULL,"
    " line INTEGER NOT NULL, program TEXT NOT NULL, state BLOB NOT NULL)",
)


class StoreError(Exception):
    """Why a store cannot be used, in one sentence."""


class Input(NamedTuple):
    """An input: its number, the room after it and the last line of its list, by whom, what was asked
    for, and the reply. Number 0 is the beginning of the class, with its first set-up."""

    number: int
    room: int
    line: int
    by: str
    asked: object
    reply: object


class RoomRow(NamedTuple):
    """A room: the input that began it, 0 for the first; the room and the line that it goes on from."""

    number: int
    title: str
    set_up: dict
    input: int
    parent: Optional[int] = None
    line: Optional[int] = None


def _text(value):
    return json.dumps(value, separators=(",", ":"))


def _sum(before, row, calls, rooms):
    """The sum over an input, its calls, the rooms that it began, and all before it: a change of any of
    them changes it."""
    made = hashlib.blake2b(before, digest_size=16)
    for part in ([row], calls, rooms):
        made.update(_text(part).encode())
    return made.digest()


class _Sums:
    """The sums of inputs in order; each has the calls up to its line and the rooms of its number."""

    def __init__(self, before, calls, rooms):
        self._last = before
        self._calls = iter(calls)
        self._rooms = list(rooms)
        self._next = next(self._calls, None)

    def of(self, row):
        """The sum of the next input: [number, room, line, by, asked, reply]."""
        number, room, line = row[:3]
        calls, rooms = [], [list(each) for each in self._rooms if each[3] == number]
        while self._next is not None and tuple(self._next[:2]) <= (room, line):
            calls.append(list(self._next))
            self._next = next(self._calls, None)
        self._last = _sum(self._last, list(row), calls, rooms)
        return self._last

    @property
    def rest(self):
        """Whether there are calls of no input."""
        return self._next is not None


def lock(path):
    """Keeps any other server from the file for as long as the process lives."""
    number = os.open(f"{path}-lock", os.O_RDWR | os.O_CREAT | os.O_CLOEXEC, 0o600)
    try:
        fcntl.flock(number, fcntl.LOCK_EX | fcntl.LOCK_NB)
    except OSError:
        by = os.read(number, 20).decode("ascii", "replace").strip() or "unknown"
        os.close(number)
        raise StoreError(f"The class in {path} is being served already, by process {by}.") from None
    os.ftruncate(number, 0)
    os.write(number, f"{os.getpid()}\n".encode())
    return number


class Store:
    """The store in a file. Every failure is a StoreError."""

    def __init__(self, path, alone=True):
        """Opens the file, and makes it if there is none; `alone`: no other server has it."""
        self.path = path
        self._lock = None
        self._db = None
        self._sum = b""
        with self._in_words("cannot be opened"):
            self._lock = lock(path) if alone else None
            self._db = sqlite3.connect(path, isolation_level=None, timeout=10, check_same_thread=False)
            self._db.execute("PRAGMA synchronous = NORMAL")
            if alone:
                self._db.execute("PRAGMA journal_mode = WAL")
                os.chmod(path, 0o600)
                self._make_tables()
            self._look_through()

    def close(self):
        """Closes the file."""
        if self._db is not None:
            with contextlib.suppress(sqlite3.Error):
                self._db.close()
            self._db = None
        if self._lock is not None:
            os.close(self._lock)
            self._lock = None

    @contextlib.contextmanager
    def _in_words(self, what):
        try:
            yield
        except StoreError:
            self.close()
            raise
        except ValueError:
            self.close()
            raise self._damaged("a note in it cannot be read") from None
        except sqlite3.DatabaseError as why:
            self.close()
            if isinstance(why, sqlite3.OperationalError) and "malformed" not in str(why):
                raise StoreError(f"The store {self.path} {what}: {why}.") from None
            raise self._damaged(str(why)) from None
        except OSError as why:
            self.close()
            raise StoreError(f"The store {self.path} {what}: {why.strerror}.") from None

    def _damaged(self, why):
        return StoreError(
            f"The store {self.path} is damaged, or is no store of a class ({why}). It stays as it is: "
            "take a copy of it from elsewhere, or begin another class with --new."
        )

    def _make_tables(self):
        """The tables of a new file."""
        with self._transaction():
            if self._db.execute("SELECT count(*) FROM sqlite_master").fetchone()[0] == 0:
                for table in _TABLES:
                    self._db.execute(table)
                self._note(form=FORM)

    def _look_through(self):
        """That the file is in one piece and every input is the one that was written."""
        form = self.noted("form")
        if form != FORM:
            raise StoreError(f"The store {self.path} has form {form}; this program reads form {FORM}.")
        if (found := self._db.execute("PRAGMA quick_check(1)").fetchone()[0]) != "ok":
            raise self._damaged(" ".join(found.split()))
        if self.noted("sum") != self._sum_of_class():
            raise self._damaged("what is noted of the class is not as it was written")
        calls = self._db.execute("SELECT room, line, text FROM calls ORDER BY room, line")
        sums, wanted = _Sums(b"", calls, self._db.execute("SELECT * FROM rooms")), 0
        rows = self._db.execute("SELECT number, room, line, by, asked, reply, sum FROM inputs ORDER BY number")
        for *parts, stored in rows:
            self._sum = sums.of(parts)
            if parts[0] != wanted or self._sum != stored:
                raise self._damaged(f"input {wanted:,} is not as it was written")
            wanted += 1
        if sums.rest:
            raise self._damaged("calls are noted that were never made")

    def _sum_of_class(self):
        rows = self._db.execute("SELECT key, value FROM class WHERE key != 'sum' ORDER BY key")
        return hashlib.blake2b(_text(list(map(list, rows))).encode(), digest_size=16).hexdigest()

    @contextlib.contextmanager
    def _transaction(self):
        self._db.execute("BEGIN IMMEDIATE")
        try:
            yield
            self._db.execute("COMMIT")
        except BaseException:
            if self._db.in_transaction:
                with contextlib.suppress(sqlite3.Error):
                    self._db.execute("ROLLBACK")
            raise

    def noted(self, key, default=None):
        """What is noted of the class under a key."""
        row = self._db.execute("SELECT value FROM class WHERE key = ?", (key,)).fetchone()
        return default if row is None else json.loads(row[0])

    def tell(self, **values):
        """Notes things of the class."""
        with self._written():
            self._note(**values)

    def _note(self, **values):
        for key, value in values.items():
            self._db.execute("INSERT OR REPLACE INTO class VALUES (?, ?)", (key, _text(value)))
        self._db.execute("INSERT OR REPLACE INTO class VALUES ('sum', ?)", (_text(self._sum_of_class()),))

    @contextlib.contextmanager
    def _written(self):
        try:
            with self._transaction():
                yield
        except sqlite3.Error as why:
            raise StoreError(f"The store {self.path} cannot be written: {why}.") from None

    def write(self, inputs, calls, rooms):
        """Writes inputs, the lines of calls [(room, line, text)..] and new rooms, all or nothing."""
        rows = [(*room[:2], _text(room.set_up), *room[3:]) for room in rooms]
        made, sums = [], _Sums(self._sum, calls, rows)
        for each in inputs:
            parts = (*each[:4], _text(each.asked), _text(each.reply))
            made.append((*parts, sums.of(parts)))
        with self._written():
            self._db.executemany("INSERT INTO inputs VALUES (?, ?, ?, ?, ?, ?, ?)", made)
            self._db.executemany("INSERT INTO calls VALUES (?, ?, ?)", calls)
            self._db.executemany("INSERT INTO rooms VALUES (?, ?, ?, ?, ?, ?)", rows)
        self._sum = made[-1][-1]

    def begun(self):
        """Whether the class has begun."""
        return self._db.execute("SELECT count(*) FROM inputs").fetchone()[0] > 0

    def inputs(self, after=0, most=2**62):
        """The inputs after one of that number, up to another, in order."""
        query = "SELECT number, room, line, by, asked, reply FROM inputs WHERE number > ? AND number <= ?"
        for row in self._db.execute(query + " ORDER BY number", (after, most)):
            yield Input(*row[:4], *map(json.loads, row[4:]))

    def last_input(self):
        """The number of the last input, 0 without one."""
        return self._db.execute("SELECT coalesce(max(number), 0) FROM inputs").fetchone()[0]

    def input_of_line(self, room, line):
        """The number of the first input of a room after which its list has that line, or None."""
        query = "SELECT min(number) FROM inputs WHERE room = ? AND line >= ?"
        return self._db.execute(query, (room, line)).fetchone()[0]

    def calls(self, room, after=-1, most=2**62):
        """The lines of a room's list of calls after one, up to another, as texts."""
        query = "SELECT text FROM calls WHERE room = ? AND line > ? AND line <= ? ORDER BY line"
        return (text for (text,) in self._db.execute(query, (room, after, most)))

    def lines_of(self, room):
        """How many calls the list of a room has."""
        query = "SELECT coalesce(max(line), 0) FROM calls WHERE room = ?"
        return self._db.execute(query, (room,)).fetchone()[0]

    def rooms(self):
        """All rooms, in order."""
        rows = self._db.execute("SELECT number, title, set_up, input, parent, line FROM rooms ORDER BY number")
        return [RoomRow(*row[:2], json.loads(row[2]), *row[3:]) for row in rows]

    def keep(self, input, room, line, program, state):
        """Keeps the room as it was after an input."""
        with self._written():
            row = (input, room, line, program, state)
            self._db.execute("INSERT OR REPLACE INTO checkpoints VALUES (?, ?, ?, ?, ?)", row)
            query = "SELECT input FROM checkpoints WHERE room = ? ORDER BY input"
            kept = [number for (number,) in self._db.execute(query, (room,))]
            if len(kept) > MOST_CHECKPOINTS:
                gone = [(number,) for number in kept[1:-1:2]]
                self._db.executemany("DELETE FROM checkpoints WHERE input = ?", gone)

    def checkpoint(self, program, most=2**62):
        """The last checkpoint of this program up to an input: (input, room, line, state), or None."""
        query = "SELECT input, room, line, state FROM checkpoints WHERE program = ? AND input <= ?"
        return self._db.execute(query + " ORDER BY input DESC LIMIT 1", (program, most)).fetchone()
