"""The list of calls: the last ones at hand, all of them in a file of JSON lines."""

import json
from collections import deque

from .answers import ANSWERS
from .paper import FilePaper

RECENT = 500
MOST = 256 * 1024 * 1024
"""The octets of the longest list."""
OF_A_SEAT = MOST // 64
"""This many of them the calls from one seat's page fill: those from all sixteen fill a quarter, and
the arrivals of what they send about another."""


class Log:
    """The calls of a room since its set-up, on a paper. Ticks in a row of a seat become one line.
    `changes` counts all that was noted, ticks too."""

    def __init__(self, set_up, paper=None):
        self.count = 0
        self.changes = 0
        self.recent = deque(maxlen=RECENT)
        self.paper = paper or FilePaper()
        self.octets = 0
        self._ticks = {}
        self._write({"room": set_up})

    def __getstate__(self):
        return {**self.__dict__, "paper": None}

    @property
    def full(self):
        """Whether the list is as long as it may become."""
        return self.octets >= MOST

    def ticks(self, time, seat, given, answer, times):
        """Ticks of a seat; they are written before its next other call."""
        self.changes += 1
        line = self._ticks.get(seat)
        if line and (line["with"], line["answer"]) == (given, answer):
            line.update(time=time, times=line["times"] + times)
            return
        self._flush(seat)
        self._ticks[seat] = self._line(time, seat, "tick", given, answer, {}, times)

    def add(self, time, seat, call, given, answer, returned, times):
        """A call with its input, answer and values, of a seat, or of the tutor, whose seat is
        None: the ticks of all seats are written before that."""
        self.changes += 1
        for ticked in list(self._ticks) if seat is None else [seat]:
            self._flush(ticked)
        self._append(self._line(time, seat, call, given, answer, returned, times))

    def _line(self, time, seat, call, given, answer, returned, times):
        return {
            "line": 0,
            "time": time,
            "seat": seat,
            "call": call,
            "with": given,
            "times": times,
            "answer": answer,
            "returned": returned,
        }

    def _flush(self, seat):
        ticks = self._ticks.pop(seat, None)
        if ticks:
            self._append(ticks)

    def _append(self, line):
        self.count += 1
        line["line"] = self.count
        self._write(line)
        shown = {key: value for key, value in line.items() if key != "returned"}
        self.recent.append({**shown, "name": ANSWERS[line["answer"]]["name"]})

    def flush(self):
        """Writes the ticks of all seats."""
        for seat in list(self._ticks):
            self._flush(seat)

    def _write(self, line):
        octets = _octets(line)
        self.paper.write(octets)
        self.octets += len(octets)

    def since(self, line):
        """The calls after that line, the last RECENT of them at most."""
        return [call for call in self.recent if call["line"] > line]

    def lines(self, net_table, seats):
        """The file as it is now, line by line, with the net table and the states of the seats as its
        end. Ticks that are still to be written are its last calls; here they stay to be written."""
        ticks = self.unwritten()
        end = {"calls": self.count + len(ticks), "net_table": net_table, "seats": seats}
        return self._lines(self.paper.lines(), [*ticks, {"end": end}])

    def unwritten(self):
        """The lines of the ticks that are still to be written."""
        return [{**line, "line": self.count + more} for more, line in enumerate(self._ticks.values(), 1)]

    def _lines(self, written, more):
        yield from written
        yield from (_octets(line).decode()[:-1] for line in more)


def _octets(line):
    return json.dumps(line, separators=(",", ":")).encode() + b"\n"
