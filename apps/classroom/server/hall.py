"""The room and the pages that look at it: who may say what, and who is shown what."""

import asyncio
import json
import time

from ..room import Refused
from .guard import LOG
from .pace import Pace
from .push import AFTER_OTHERS, PART_FOR_VIEWS
from .record import rebuilt
from .store import Store, StoreError

# Messages of a place: some at once, then that many a second; more of them wait.
AT_ONCE, A_SECOND = 100, 50
MOST_PAGES = 4
PART_OF_FILE = 32 * 1024
# What time changed is written after that many seconds at most; a message's change before its reply.
BETWEEN_WRITES = 0.25
# The store is tried again after that many seconds.
TRY_AGAIN = 1


def _title(stored):
    """The title of a stored room as a text; an older store has words."""
    try:
        return json.loads(stored)
    except ValueError:
        return ["words", {"words": stored}]


class Hall:
    """A room with its record, the pages at their places, the pace of each place; the seats' addresses,
    which the teacher's page shows. `trouble` is the text of why the store cannot be written, or None."""

    def __init__(self, record, addresses):
        self._record = record
        self._addresses = addresses
        self._pages = {}
        self._paces = {}
        self._present = {}
        self._written = 0.0
        self.trouble = None
        self.undo_allowed = record.store.noted("undo", False)
        self.over = False

    @property
    def room(self):
        """The room, to be looked at."""
        return self._record.room

    _room = room

    def earlier(self):
        """The rooms of the class, each with the number of its calls."""
        store = self._record.store
        return [
            {"number": row.number, "title": _title(row.title), "lines": store.lines_of(row.number)}
            | {"parent": row.parent, "line": row.line}
            for row in store.rooms()
        ]

    async def go_on_from(self, number, line):
        """The room goes on from a line of a room's list: from the end of the step of the class that made
        this call. The room as it is now stays in the list of rooms."""
        await self.stored()
        input = self._record.store.input_of_line(number, line)
        if input is None:
            raise Refused("refused.no_such_call")
        room = await asyncio.to_thread(made_again, self._record.store.path, input)
        await self.stored()
        self._record.branch(room, number, line, input, ["room.from", {"number": number, "line": line}])
        await self._branched()
        return {"room": self.room.number}

    async def undo(self, place):
        """The last call of the class is as if it had never been made, if it was one of this place."""
        if not self.undo_allowed:
            raise Refused("refused.no_undo")
        await self.stored()
        last, by = self._record.last()
        if by != place:
            raise Refused("refused.since")
        number, line = self.room.number, self.room.log.count
        room = await asyncio.to_thread(made_again, self._record.store.path, last - 1)
        if self._record.last() != (last, by) or room.number != number:
            raise Refused("refused.since")
        self._record.branch(room, number, line, last - 1, ["room.without", {"number": number, "line": line}])
        await self._branched()
        return {"room": self.room.number}

    async def _branched(self):
        await self.stored()
        self._record.keep()
        self.changed()

    def allow_undo(self, on):
        """Students may step back, or not."""
        self._record.store.tell(undo=on)
        self.undo_allowed = on
        self.changed()
        return {"undo": on}

    def names(self):
        """The names of the hosts, by seat."""
        return [seat.name for seat in self.room.seats]

    async def stored(self):
        """Waits until all that was changed is in the store."""
        while not self.write():
            await asyncio.sleep(TRY_AGAIN)

    def write(self):
        """Writes all that was changed; whether that could be done. While it cannot, the class waits:
        time stands, no message is taken, no reply is sent, and no view is shown."""
        try:
            self._record.write()
        except StoreError as why:
            if self.trouble is None:
                LOG.error("%s The class waits until it can be, and then goes on by itself.", why)
                self.trouble = ["notice.store", {"why": str(why)}]
                self.changed()
            return False
        self._written = time.monotonic()
        if self.trouble is not None:
            LOG.warning("the store can be written again")
            self.trouble = None
            self.changed()
        return True

    def end(self):
        """Writes the last changes and the room as it is."""
        self._record.write()
        self._record.keep()

    def enter(self, page, socket):
        """A page has come."""
        self._pages[page] = socket
        self._moved(page, 1)

    def leave(self, page):
        """A page has gone."""
        del self._pages[page]
        self._moved(page, -1)

    def _moved(self, page, by):
        """A page came or went: the board says whether a student is there, and since when."""
        if page.place == "/teacher":
            return
        pages, since = self._present.get(_seat(page.place), (0, None))
        if (pages > 0) != (pages + by > 0):
            since = time.time()
        self._present[_seat(page.place)] = (pages + by, since)
        self.changed()

    def _presence(self):
        """By seat whether a page is open there, and since when it is so or not so."""
        return {seat: (pages > 0, since) for seat, (pages, since) in self._present.items()}

    def marks(self):
        """The marks of the lesson as CSV."""
        return self._room.marks(self._presence())

    def sockets(self):
        """The sockets of all pages."""
        return list(self._pages.values())

    def has_room_for(self, place):
        """Whether one page more may be open at the place."""
        return sum(page.place == place for page in self._pages) < MOST_PAGES

    def pace(self, place):
        """The pace of a place's messages, all its pages together."""
        return self._paces.setdefault(place, Pace(AT_ONCE, A_SECOND))

    def take(self, place, message):
        """The room's reply to a message of the place; Refused where it has none."""
        try:
            return self._record.take(place, message)
        finally:
            self.changed()

    def changed(self):
        """What the pages show has changed."""
        for page in self._pages:
            page.changed()

    def view(self, page):
        """What a page is shown now, after what it has been shown: a message of Versions."""
        return page.versions.message({**self._view(page), "undo": self.undo_allowed})

    def _view(self, page):
        first = page.seen is None
        if page.place != "/teacher":
            page.seen = True
            return self._room.seat_view(_seat(page.place), first)
        view = self._room.teacher_view(page.seen, self._presence())
        page.seen = view.pop("mark")
        return {**view, "addresses": self._addresses} if first else view

    def between_views(self):
        """The seconds from one view to the next of a page that changed nothing itself."""
        return max(1 / AFTER_OTHERS, sum(page.cost for page in self._pages) / PART_FOR_VIEWS)

    def pass_time(self, ms):
        """This many real milliseconds have passed."""
        late = time.monotonic() - self._written
        if self.trouble is not None:
            if late > TRY_AGAIN:
                self._written = time.monotonic()
                self.write()
            return
        if self._room.running and self._record.pass_time(ms * self._room.speed):
            self.changed()
        if late > BETWEEN_WRITES:
            self.write()

    def bench_file(self):
        """The bench file that is loaded, or None."""
        return self._room.bench.loaded

    def file(self):
        """The list of calls as a file, in parts of some lines each."""
        part, length = [], 0
        for line in self._room.lines():
            part.append(line)
            length += len(line)
            if length > PART_OF_FILE:
                yield "".join(f"{each}\n" for each in part)
                part, length = [], 0
        yield "".join(f"{each}\n" for each in part)


def made_again(path, input):
    """The room after an input, by a connection of its own: for a thread."""
    store = Store(path, alone=False)
    try:
        return rebuilt(store, input)
    finally:
        store.close()


def _seat(place):
    return int(place.removeprefix("/seat/"))
