"""The bench as it stands: the file that is loaded, its hosts, and what the last call came to."""

import hello
from hello import bench_file

from ..answers import in_words
from ..checks import Refused
from ..fields import clock_words, day, dotted
from ..setup import DAY
from ..state import changes, ms, state_of
from . import words
from .promised import Promised

AT_ONCE = 64
"""This many events are carried out at once; a page asks again for more, so that nobody has to wait."""
AT_ONCE_OF_LONG = 1_024
"""This many of a text that is several files."""


class Stand:
    """The teacher's bench. `number` counts the files that were loaded, each piece of a long text among
    them, `version` all that changed."""

    def __init__(self):
        self.number = 0
        self.version = 0
        self.loaded = None
        self.net = "own"
        self._words = []
        self._bench = None
        self._set_up = None
        self._states = []
        self._promised = Promised(())
        self._last = None
        self._at = 0
        self._octets = b""

    def load(self, loaded):
        """Another file takes the place of the one before. Hosts stay as they are, and are run by it
        where its seats and cables are the same; no event of it is done."""
        self.loaded = loaded
        self._promised = Promised(())
        self._take_piece(0)
        self._changed(None)

    @property
    def _file_now(self):
        """The piece that is run, or None where the file is at fault."""
        return self.loaded.pieces[self._at] if self.loaded.pieces else None

    @property
    def _first(self):
        """How many events come before this piece."""
        return sum(len(piece.events) for piece in self.loaded.pieces[: self._at])

    def _take_piece(self, number):
        """A piece of the file is the one that is run; no event of it is done."""
        self.number += 1
        self._at = number
        file = self._file_now
        self._octets = bench_file.to_octets(file) if number else self.loaded.octets
        self._words = words.in_words(file) if file else []
        self._promised.base = self._first
        if self._bench is not None:
            self._bench.done = 0

    def set_up(self, class_table, net):
        """Sets all hosts afresh, with a net table of the bench's own, without rows, or with the
        class's: the reply. Where it is refused, the bench stays as it was."""
        loaded = self._file()
        table = class_table if net == "class" else hello.NetTable(loaded.nhosts)
        bench = hello.Bench(loaded.octets, table)
        answer = int(bench.set_up())
        if answer == 0:
            self.net, self._bench, self._set_up = net, bench, loaded.file
            self._states = self._now()
            if self._at:
                self._take_piece(0)
            self._promised = Promised(loaded.promises, loaded.answers)
            self._promised.look(bench)
        self._changed({"call": "bench_set_up", **in_words(answer), "changes": [], "returned": self._returned(answer, table)})
        return self._last

    def back(self):
        """No event is done any more, and the hosts stay as they are."""
        self._ready()
        self._promised = Promised(())
        if self._at:
            self._take_piece(0)
        self._bench.done = 0
        self._changed(None)

    def run(self, class_table, allowance):
        """Carries out the next events of a piece, at most that many and at most AT_ONCE: the reply."""
        bench = self._ready()
        if bench.done == len(self._file_now.events) and self._at + 1 < len(self.loaded.pieces):
            self._take_piece(self._at + 1)
        bench.file = self._octets
        if self.net == "class":
            bench.net_table = class_table
        first, slots, before = bench.done, bench.slots, self._states
        most = AT_ONCE if len(self.loaded.pieces) == 1 else AT_ONCE_OF_LONG
        ran = self._carry_out(min(allowance, most))
        if ran.count:
            self._states = self._now()
        if ran.count == 1:
            last = self._event(first, slots, _changes(before, self._states))
        else:
            last = {"call": "bench_run", **in_words(int(ran.answer)), "changes": []}
            returned = {"first": self._first + first, "count": ran.count}
            last["returned"] = {**returned, **self._returned(int(ran.answer), bench.net_table)}
        self._changed(last)
        done = {"done": self._first + bench.done, "of": self.loaded.events}
        return {**in_words(int(ran.answer)), "count": ran.count, **done}

    def _carry_out(self, allowance):
        """Runs the bench, and looks wherever its text promises something: a Ran."""
        bench, first = self._bench, self._bench.done
        while True:
            before = bench.done
            ran = bench.run(self._promised.piece(before, allowance - (before - first)))
            if bench.done > before:
                self._promised.look(bench, before)
            ended = bench.done in (before, first + allowance, len(self._file_now.events))
            if ended:
                return ran._replace(count=bench.done - first)

    def _changed(self, last):
        self.version += 1
        self._last = last

    def _file(self):
        if self.loaded is None:
            raise Refused("refused.no_bench_file")
        return self.loaded

    @property
    def ready(self):
        """Whether the hosts are those of the file that is loaded."""
        file, by = self.loaded and self.loaded.file, self._set_up
        return None not in (file, by) and (file.seats, file.cables) == (by.seats, by.cables)

    def _ready(self):
        self._file()
        if not self.ready:
            raise Refused("refused.bench_not_set_up")
        return self._bench

    def _returned(self, answer, table):
        """What is at fault if set-up or run has this answer, as far as that is known."""
        if answer not in (hello.Answer.HEADER, hello.Answer.ABSENT):
            return {}
        if self.loaded.fault:
            return {"fault": self.loaded.fault}
        file, given = self.loaded.nhosts, table.nhosts
        return {} if file == given else {"fault": ["bench.other_nhosts", {"file": file, "table": given}]}

    def _event(self, number, slots, moved):
        """What an event came to; `slots` are those before it."""
        event, answer = self._file_now.events[number], int(self._bench.answers[number])
        slot = slots[event.tray] if event.kind == "arrival" else None
        returned = {"went": words.arrived(self.loaded.file, slot)} if slot and slot.packet else {}
        number += self._first
        return {"call": "bench_event", "event": number, **in_words(answer), "changes": moved, "returned": returned}

    def _now(self):
        """The states of the hosts of the file that the bench was set up with."""
        records = enumerate(self._set_up.seats)
        return [state_of(self._bench.host(number), len(seat.links)) for number, seat in records]

    def shown(self, known):
        """What the teacher's page shows; the events in words only where `known`, the number and the
        version that it has, is of another file. None where no file is loaded."""
        loaded = self.loaded
        if loaded is None:
            return None
        view = {
            "number": self.number,
            "name": loaded.name,
            "octets": len(loaded.octets),
            "fault": loaded.fault,
            "seats_of_file": len(loaded.file.seats) if loaded.file else None,
            "cables_of_file": len(loaded.file.cables) if loaded.file else None,
            "of": loaded.events if loaded.file else None,
            "pieces": len(loaded.pieces),
            "first": self._first,
            "nhosts": loaded.nhosts,
            "net": self.net,
            "ready": self.ready,
            "last": self._last,
        }
        if known is None or known[0] != self.number:
            kinds = (event.kind for event in self._file_now.events) if loaded.file else ()
            view["events"] = [list(event) for event in zip(kinds, self._words)]
            view["hosts"] = words.host_names(loaded.file) if loaded.file else []
        if self.ready:
            answers = [int(answer) for answer in self._bench.answers]
            view.update(done=self._first + self._bench.done, answers=answers, promised=self._promised.shown())
            view.update(seats=self._seats(), trays=self._trays())
        return view

    def _seats(self):
        seats = zip(self.loaded.file.seats, self._states)
        return [_seat(number, seat, state) for number, (seat, state) in enumerate(seats)]

    def _trays(self):
        """The trays that hold a packet."""
        return [
            {"tray": tray, "octets": len(slot.packet), "way": words.arrived(self.loaded.file, slot)}
            for tray, slot in enumerate(self._bench.slots)
            if slot.packet
        ]


def _changes(before, after):
    """What changed, with the seat at which it did."""
    pairs = enumerate(zip(before, after))
    return [
        {"seat": number, **change} for number, (old, new) in pairs for change in changes(old, new)
    ]


def _seat(number, seat, state):
    units, delta, hold, date = state.clock
    time = units // hello.UNITS_PER_MS
    return {
        "number": number,
        "address": dotted(seat.address),
        "id": seat.own_id(),
        "clock": {
            "time": ms(units),
            "words": clock_words(time % DAY),
            "date": date,
            "day": day(date),
            "delta": ms(delta),
            "hold": hold,
        },
        "links": [
            {"link": link, "neighbor": dotted(neighbor), "keep_alive": keep_alive, "tsp": tsp}
            for link, (neighbor, keep_alive, tsp) in enumerate(state.links, 1)
        ],
        "table": [list(entry) for entry in state.table],
    }
