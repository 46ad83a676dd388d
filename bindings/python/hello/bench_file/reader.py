"""A bench file, or an exercise, from its text."""

from __future__ import annotations

import re
from typing import Any, NamedTuple, Optional

from . import words
from .faults import Fault, Wrong, in_range, there
from .file import CLOCK_SETTING_OFF, KINDS, LONGEST_TICK, MOST_CABLES, MOST_EVENTS, MOST_LINKS
from .file import MOST_HOSTS, MOST_SEATS, Cable, Event, File, Seat
from .exercise import ENGLISH, OF_STAGE, WORDS, Call, Exercise, Predict, Stage, Wait
from .promises import DOWN, Answered, Entry, Held, Least, Promise
from .words import Words

OVERFLOW = 65_536
"""The milliseconds in which a crystal's counter overflows."""
MOST_TIMES = 2_048
MOST_OF_TEXT = 400_000
"""The events of the longest exercise, which is run as several bench files."""
MOST_LINES = 50_000
"""This many lines are carried out, those of blocks as often as they are repeated."""
LONGEST_NAME = 16
SEAT_DEFAULTS: dict[str, Any] = {
    "offset": 1,
    "clock_host": CLOCK_SETTING_OFF,
    "hold": 10,
    "date": (1983, 12, 1),
    "time": 12 * 60 * 60 * 1_000,
    "tick": LONGEST_TICK,
}
"""Of NHOSTS it is the number of seats, of links the highest that a cable or `broadcast` names."""

ADDRESS = "four octets with dots, as 192.0.2.1"
LINK = "a seat and its link, as 0.1"
SEND = "send cable 0 end 0 tray 0"
ENTRY = "as promise seat 0 host 1 delay 100, or promise seat 0 delays 0,100"
PREDICT = "as predict seat 0 host 1 delay"
SEAT_OPTIONS = {
    "offset": lambda line: line.number("ADDRESS-OFFSET"),
    "clock-host": lambda line: line.number("the clock host's id"),
    "hold": lambda line: line.number("HOLD-INTERVAL"),
    "date": lambda line: line.value("a date", words.date, "year, month and day, as 1983-12-01"),
    "time": lambda line: line.value("a time of day", words.time, "as 12:00:00 or 12:00:00.250"),
    "clock-tick": lambda line: line.value(
        "CLOCK-TICK", words.tick, "milliseconds, as 30, or 65,536ths of one, as 1092267/65536"
    ),
    "links": lambda line: line.number("the number of links"),
    "broadcast": lambda line: line.value(
        "a list of broadcast links", words.broadcast, "each with its address, as 2=192.0.2.9"
    ),
    "also": lambda line: line.value("a list of ids", words.members, "with commas, as 4,5"),
    "name": lambda line: line.next("the host's name", "one word, as name Ada"),
}
SEAT_PARTS = {"clock-host": "clock_host", "clock-tick": "tick"}
"""The parts of a Seat that have other names in a line."""
EVENT_OPTIONS = {
    "count": lambda line: line.number("the count"),
    "again": lambda line: line.number("the count taken again"),
    "times": lambda line: line.number("how many times"),
    "answer": lambda line: line.number("the answer"),
}
PROSE = re.compile(f"({'|'.join((*WORDS, 'hint', *OF_STAGE))})(?:\\.([a-z]{{2}}))?")
"""The lines that people read, with the language if it is not English: title.de."""
BETWEEN = "only events are repeated"


class Draft(NamedTuple):
    """A seat's line, of which the defaults are still to come."""

    line: int
    address: tuple
    given: dict


class Reader:
    """The lines read so far. A line that is wrong leaves a record that later lines may name. `most` is how
    many events there may be; `walks` allows the lines that no bench file can say."""

    def __init__(self, most=MOST_EVENTS, walks=False):
        self.most = most
        self.walks = walks
        self.only_room = None
        self.said = {}
        self.hints = []
        self.stages = []
        self.calls = []
        self.named = {}
        self.cable_lines = []
        self.sent = {}
        self.all_sent = None
        self.blocks = {}
        self.within = []
        self.carried_out = 0
        self.line = 0
        self.faults = []
        self.nhosts = None
        self.drafts = []
        self.cables = []
        self.events = []
        self.promises = []
        self.now = 0
        self.block = None
        self.lines = {
            "nhosts": self._nhosts,
            "seat": self._seat,
            "cable": self._cable,
            **{kind: self._event for kind in KINDS},
            "open-walk": self._open_walk,
            "step": self._step,
            "end-walk": self._end_walk,
            "wait": self._wait,
            "promise": self._promise,
            "predict": self._predict,
            "do": self._do,
        }

    def read(self, text):
        """All lines."""
        for self.line, line in enumerate(text.split("\n"), 1):
            line = Words(line.partition("#")[0])
            if line:
                self._try(self._begin, line)
        if self.block:
            self.line, name = self.block[0], self.block[3]
            self._wrong(f"this '{'repeat' if name is None else 'block'}' has no 'end'")

    def _try(self, read, *given):
        try:
            read(*given)
        except Fault as fault:
            self._wrong(str(fault))

    def _wrong(self, fault):
        self.faults.append((self.line, fault))

    def _begin(self, line):
        """Reads a line, or keeps it for its block's end."""
        name = line.words[0]
        if name in ("repeat", "block"):
            self._open_block(line)
        elif name == "end":
            self._end(line)
        elif self.block:
            self.block[2].append((self.line, line.words))
        else:
            self._read(line)

    def _read(self, line):
        name = line.words.pop(0)
        self.carried_out += 1
        if self.carried_out > MOST_LINES:
            if self.carried_out == MOST_LINES + 1:
                raise Fault(f"with its blocks the text has more than {MOST_LINES:,} lines")
            return
        prose = PROSE.fullmatch(name)
        if prose:
            self._prose(prose[1], prose[2], line)
            return
        if name not in self.lines:
            known = [*self.lines, "repeat", "block", "end", *WORDS, "hint", *OF_STAGE]
            raise Fault(words.unknown(name, known, "begins with"))
        self.lines[name](name, line)

    # What people read.

    def _prose(self, name, language, line):
        language = language or ENGLISH
        text = " ".join(line.words)
        if not text:
            raise Fault(f"'{name}' says nothing")
        if name in WORDS:
            said = self.said.setdefault(name, {})
            if name == "title" and language in said:
                raise Fault("the title stands there twice")
            said[language] = f"{said[language]} {text}" if language in said else text
        elif name == "hint":
            self._hint(language, text)
        else:
            self._of_stage(name, language, text)

    def _hint(self, language, text):
        if language == ENGLISH:
            self.hints.append({ENGLISH: text})
        elif not self.hints or language in self.hints[-1]:
            raise Fault("a hint in another language comes after the English one")
        else:
            self.hints[-1][language] = text

    def _of_stage(self, name, language, text):
        if name == "stage" and language == ENGLISH:
            self._end_of_stage()
            self.stages.append(Stage(self.line, len(self.events)))
        if not self.stages:
            raise Fault(f"'{name}' comes before the first stage")
        stage = self.stages[-1]
        said = stage.words if name == "stage" else stage.outcome
        said[language] = f"{said[language]} {text}" if language in said else text

    def _end_of_stage(self):
        """Finds fault with a stage in which nothing is done."""
        if self.stages and not self.stages[-1].calls:
            self.faults.append((self.stages[-1].line, "this stage has no call"))

    # Blocks.

    def _open_block(self, line):
        kind = line.words.pop(0)
        if self.block:
            raise Fault(f"'{kind}' within the block of line {self.block[0]}: end that one first")
        name = None
        self.block = (self.line, 0, [], "" if kind == "block" else None)
        if kind == "block":
            name = line.next("the block's name", "as block round")
            times = 0
            if name in self.blocks:
                raise Fault(f"there are two blocks of the name '{name}'")
        else:
            times = in_range("how many times", line.number("how many times"), 1, MOST_TIMES)
        line.end()
        self.block = (self.line, times, [], name)

    def _end(self, line):
        line.words.pop(0)
        if not self.block:
            raise Fault("'end' without a 'repeat' before it")
        line.end()
        _, times, kept, name = self.block
        self.block = None
        if name is not None:
            self.blocks[name] = kept
        else:
            self._carry_out(kept, times)

    def _do(self, _, line):
        """The lines of a block."""
        name = line.next("the block's name", "as do round, or do round times 3")
        if name not in self.blocks:
            raise Fault(words.unknown(name, self.blocks, "names") if self.blocks else f"there is no block '{name}'")
        given = line.options({"times": EVENT_OPTIONS["times"]})
        times = in_range("how many times", given.get("times", 1), 1, MOST_TIMES)
        if name in self.within:
            raise Fault(f"the block '{name}' is carried out within itself")
        self.within.append(name)
        self._carry_out(self.blocks[name], times)
        self.within.pop()

    def _carry_out(self, kept, times):
        here, known = self.line, len(self.faults)
        for _ in range(times):
            for self.line, kept_words in kept:
                self._try(self._within, kept_words)
            if len(self.faults) > known:
                break
        self.line = here

    def _within(self, kept_words):
        if kept_words[0] in ("nhosts", "seat", "cable") or PROSE.fullmatch(kept_words[0]):
            raise Fault(f"'{kept_words[0]}' in a block: {BETWEEN}")
        line = Words("")
        line.words = list(kept_words)
        self._read(line)

    # The records.

    def _nhosts(self, _, line):
        if self.nhosts is not None:
            raise Fault("'nhosts' stands there twice: all seats have the one of the class")
        if self.drafts:
            raise Fault("'nhosts' stands behind a seat: it comes before all seats")
        self.nhosts = MOST_HOSTS
        self.nhosts = in_range("NHOSTS", line.number("NHOSTS"), 1, MOST_HOSTS)
        line.end()

    def _seat(self, _, line):
        if self.cables or self.events:
            raise Fault("a seat behind a cable or an event: all seats come first")
        if len(self.drafts) == MOST_SEATS:
            raise Fault(f"one seat too many: a file has {MOST_SEATS} at most")
        self.drafts.append(Draft(self.line, (192, 0, 2, 1), {}))
        address = line.value("an address", words.address, ADDRESS)
        given = line.options(SEAT_OPTIONS)
        if len(given.get("name", "")) > LONGEST_NAME:
            raise Fault(f"the name has more than {LONGEST_NAME} letters")
        if "links" in given:
            in_range("the number of links", given["links"], 1, MOST_LINKS)
        for link in given.get("broadcast", {}):
            in_range("the broadcast link", link, 1, given.get("links", MOST_LINKS))
        self.drafts[-1] = Draft(self.line, address, given)

    def _cable(self, _, line):
        if self.events:
            raise Fault("a cable behind an event: all cables come before the events")
        if len(self.cables) == MOST_CABLES:
            raise Fault(f"one cable too many: a file has {MOST_CABLES} at most")
        self.cables.append(Cable(()))
        self.cable_lines.append(self.line)
        ends = tuple(line.value("a cable's end", words.link, LINK) for _ in range(2))
        line.end()
        cable = Cable(ends)
        cable.test([draft.given.get("links", MOST_LINKS) for draft in self.drafts])
        self.cables[-1] = cable

    def _event(self, name, line):
        kind = KINDS[name]
        if name == "send" and line.words[:1] == ["all"]:
            self._send_all(line)
            return
        if name == "arrival" and line.words[:1] in (["all"], ["trays"]):
            self._arrivals(line)
            return
        seats = None
        parts = {}
        if "seat" in kind.parts:
            seats = self._seats(name, line)
        if "amount" in kind.parts:
            parts["amount"] = line.number("the milliseconds to set by")
        for part in ("cable", "end", "tray"):
            if part in kind.parts:
                line.keyword(part, f"as {SEND}" if name == "send" else "as arrival tray 0")
                parts[part] = line.number(f"the {part}'s number")
        self._events(name, [{"seat": seat, **parts} for seat in (seats or [None])], line)

    def _events(self, name, each, line):
        """Events of a kind, with the parts of each, and what else stands in the line."""
        kind = KINDS[name]
        given = line.options({name: EVENT_OPTIONS[name] for name in (*kind.counts, "times", "answer")})
        times = in_range("how many times", given.pop("times", 1), 1, MOST_TIMES)
        answer = given.pop("answer", None)
        counted = {"count": self.now % OVERFLOW} if "count" in kind.counts else {}
        made = [Event(name, **parts, **{**counted, **given}) for parts in each]
        for event in made:
            event.test(len(self.drafts), len(self.cables))
        first = len(self.events)
        self._add(made * times)
        for event in made:
            self._call(event, times, answer or 0)
        if answer is not None and not self._full():
            for number in range(first, len(self.events)):
                self.named[number] = answer
                self.promises.append(Answered(self.line, number + 1, answer))

    def _call(self, event, times, answer):
        """The call that an event is; none at a cable whose line is wrong."""
        if event.kind == "send" and not self.cables[event.cable].ends:
            return
        seat, link = event.seat, None
        if event.kind == "send":
            seat, link = self.cables[event.cable].ends[event.end]
        elif event.kind == "arrival" and event.tray in self.sent:
            seat, link = self.sent[event.tray][2]
        call = Call(self.line, event.kind, seat, link, event.amount, event.tray, times, answer)
        if event.kind == "send":
            self.sent[event.tray] = (call, self.now, self.cables[event.cable].ends[1 - event.end])
        elif event.kind == "arrival":
            self._arrives(event.tray)
        self._add_call(call)

    def _arrives(self, tray):
        if tray in self.sent:
            send, at, _ = self.sent[tray]
            send.ways.append(self.now - at)

    def _add_call(self, call):
        self.calls.append(call)
        if self.stages:
            self.stages[-1].steps.append(call)

    def _send_all(self, line):
        """Every seat sends on all its cables but those left out: cable c from end e into tray 2 c + e."""
        line.words.pop(0)
        out = []
        if line.words[:1] == ["except"]:
            line.words.pop(0)
            out = line.value("a list of cables", words.members, "with commas, as 14,15")
            for cable in out:
                there("cable", cable, len(self.cables))
        sent = [cable for cable in range(len(self.cables)) if cable not in out]
        if not sent:
            raise Fault("there is no cable to send on")
        each = [{"cable": cable, "end": end, "tray": 2 * cable + end} for cable in sent for end in (0, 1)]
        self.all_sent = [parts["tray"] for parts in each]
        self._events("send", each, line)

    def _arrivals(self, line):
        """The packets of several trays arrive: those of the last `send all`, or those that are named."""
        if line.words.pop(0) == "all":
            if self.all_sent is None:
                raise Fault("'arrival all' comes after 'send all'")
            trays = self.all_sent
        else:
            trays = line.value("a list of trays", words.ranges, "as 0-7 or 0,3,8-15")
        self._events("arrival", [{"tray": tray} for tray in trays], line)

    # What a bench file cannot say.

    def _of_room(self):
        if not self.walks:
            raise Fault("a bench file has no event for a walk: this exercise is for the room")
        self.only_room = self.only_room or self.line

    def _open_walk(self, _, line):
        """The seat at which a packet arrives opens a walk with it."""
        self._of_room()
        line.keyword("tray", "as open-walk tray 0")
        tray = line.number("the tray's number")
        given = line.options({"answer": EVENT_OPTIONS["answer"]})
        if tray not in self.sent:
            raise Fault(f"tray {tray} is empty: nothing was sent into it")
        seat, link = self.sent[tray][2]
        self._arrives(tray)
        self._add_call(Call(self.line, "open-walk", seat, link, tray=tray, answer=given.get("answer", 0)))

    def _step(self, _, line):
        """A seat carries out the next box of its walk."""
        self._of_room()
        seat = there("seat", line.number("the seat's number"), len(self.drafts))
        given = line.options({name: EVENT_OPTIONS[name] for name in ("times", "answer")})
        times = in_range("how many times", given.get("times", 1), 1, MOST_TIMES)
        self._add_call(Call(self.line, "step", seat, times=times, answer=given.get("answer", 0)))

    def _end_walk(self, _, line):
        """A seat carries out all boxes that its walk still has; the answer is the last one's."""
        self._of_room()
        seat = there("seat", line.number("the seat's number"), len(self.drafts))
        given = line.options({"answer": EVENT_OPTIONS["answer"]})
        self._add_call(Call(self.line, "end-walk", seat, answer=given.get("answer", 0)))

    def _seats(self, name, line):
        """The seats that an event is for."""
        word = line.next("the seat's number", f"as {name} 0, or {name} all")
        if word == "all":
            return list(range(len(self.drafts)))
        seat = words.number(word)
        if seat is None:
            raise Fault(f"'{word}' is not the seat's number: as {name} 0, or {name} all")
        return [there("seat", seat, len(self.drafts))]

    def _add(self, events):
        """Adds events; that there are too many is reported once, where the first one is too much, and none
        is added behind it."""
        if self._full():
            return
        self.events.extend(events)
        if self._full():
            what = "a file" if self.most == MOST_EVENTS else "an exercise"
            raise Fault(f"that makes {len(self.events):,} events: {what} has {self.most:,} at most")

    def _full(self):
        return len(self.events) > self.most

    def _wait(self, _, line):
        """Time goes on for the crystals: from here on they show another count, and tick for each
        overflow."""
        ms = in_range("the milliseconds to wait", line.number("the milliseconds to wait"), 1, 86_400_000)
        line.end()
        for number, draft in enumerate(self.drafts):
            tick = draft.given.get("clock-tick", LONGEST_TICK)
            if tick != LONGEST_TICK:
                raise Fault(
                    f"'wait' is for crystals, whose clock-tick is {OVERFLOW}: that of seat {number}, in"
                    f" line {draft.line}, is another; give it ticks instead"
                )
        if self.stages:
            self.stages[-1].steps.append(Wait(ms))
        before = self.now
        self.now += ms
        count = self.now % OVERFLOW
        for _ in range(0 if self._full() else self.now // OVERFLOW - before // OVERFLOW):
            self._add([Event("tick", seat=seat, count=count) for seat in range(len(self.drafts))])

    # What is promised.

    def _promise(self, _, line):
        what = line.next("what is promised", "as promise answer 10, or promise seat 0 host 1 delay 100")
        if what == "answer":
            answer = line.number("an answer")
            line.end()
            if not self.events:
                raise Fault("no event stands before the answer that is promised")
            self.promises.append(Answered(self.line, len(self.events), answer))
            self.named[len(self.events) - 1] = answer
            if self.calls:
                self.calls[-1].answer = answer
        elif what == "seat":
            self._promise_of_seat(line)
        elif what == "host":
            self._promise_least(line)
        else:
            raise Fault(words.unknown(what, ("answer", "seat", "host"), "of a promise goes on with"))

    def _promised(self, promise):
        self.promises.append(promise)
        if self.stages:
            self.stages[-1].steps.append(promise)

    def _promise_least(self, line):
        host = in_range("the host", line.number("the host's id"), 0, self._given_nhosts() - 1)
        line.keyword("least", "as promise host 3 least 200")
        delay = line.value("a DELAY", words.delay, "a number, or down")
        line.end()
        seats = tuple(
            number
            for number, draft in enumerate(self.drafts)
            if self._seat_of(number, draft).own_id() != host and host not in draft.given.get("also", ())
        )
        self._promised(Least(self.line, len(self.events), host, delay, seats))

    def _promise_of_seat(self, line):
        seat = there("seat", line.number("the seat's number"), len(self.drafts))
        what = line.next("'host' or 'delays'", ENTRY)
        if what == "delays":
            self._promise_delays(seat, line)
        elif what == "host":
            self._promise_entry(seat, line)
        else:
            raise Fault(words.unknown(what, ("host", "delays"), "of a promise goes on with"))

    def _promise_entry(self, seat, line):
        host = in_range("the host", line.number("the host's id"), 0, self._given_nhosts() - 1)
        numbers = {
            name: lambda line, name=name: line.number(name.upper())
            for name in ("delay", "offset", "ttl", "pid")
        }
        given = line.options({**numbers, "down": lambda line: DOWN})
        if not given:
            raise Fault(f"nothing is promised: {ENTRY}")
        if "down" in given:
            given["delay"] = given.pop("down")
        self._promised(Held(self.line, len(self.events), seat, host, **given))

    def _promise_delays(self, seat, line):
        delays = line.value("a list of delays", words.delays, "one of each host, as 0,100,down,-")
        line.end()
        if len(delays) != self._given_nhosts():
            raise Fault(f"{len(delays)} delays are promised, and NHOSTS is {self._given_nhosts()}")
        for host, delay in enumerate(delays):
            if delay is not None:
                self._promised(Held(self.line, len(self.events), seat, host, delay))

    def _predict(self, _, line):
        """What students are asked to predict, before the stage is carried out."""
        line.keyword("seat", PREDICT)
        seat = there("seat", line.number("the seat's number"), len(self.drafts))
        line.keyword("host", PREDICT)
        host = in_range("the host", line.number("the host's id"), 0, self._given_nhosts() - 1)
        fields = []
        while line.words:
            fields.append(line.words.pop(0))
            if fields[-1] not in Entry._fields:
                raise Fault(words.unknown(fields[-1], Entry._fields, "goes on with"))
        if not fields:
            raise Fault(f"nothing is asked for: {PREDICT}")
        if not self.stages:
            raise Fault("'predict' comes before the first stage")
        self.stages[-1].predictions.append(Predict(self.line, seat, host, tuple(fields)))

    # All of it.

    def _given_nhosts(self):
        return self.nhosts or max(1, len(self.drafts))

    def file(self):
        """The file; a seat whose settings are refused is reported by its line."""
        seats = []
        for number, draft in enumerate(self.drafts):
            seat = self._seat_of(number, draft)
            self.line = draft.line
            if not any(line == draft.line for line, _ in self.faults):
                self._try(seat.test)
            seats.append(seat)
        return File(tuple(seats), tuple(self.cables), tuple(self.events))

    def _seat_of(self, number, draft):
        given = {SEAT_PARTS.get(name, name): value for name, value in draft.given.items()}
        given.pop("name", None)
        broadcast = given.pop("broadcast", {})
        ends = [end for cable in self.cables for end in cable.ends]
        named = [link for seat, link in ends if seat == number]
        links = given.pop("links", max([1, *named, *broadcast]))
        parts: dict[str, Any] = {**SEAT_DEFAULTS, **given, "also": frozenset(given.get("also", ()))}
        seat = Seat(
            address=draft.address,
            nhosts=self._given_nhosts(),
            **parts,
            links=tuple(broadcast.get(link) for link in range(1, links + 1)),
        )
        return seat._replace(also=seat.also - {seat.own_id()})


    def answers(self):
        """Of each event the answer that the exercise names, 0 if it names none; None without stages."""
        if not self.stages:
            return None
        return tuple(self.named.get(event, 0) for event in range(len(self.events)))

    def exercise(self):
        """The exercise; what a class needs and the text lacks is at fault in line 1."""
        self._end_of_stage()
        file = self.file()
        for name in ("title", "task", "question", "explanation"):
            if ENGLISH not in self.said.get(name, {}):
                self.faults.append((1, f"an exercise has a line '{name}', and this one has none"))
        if not self.stages:
            self.faults.append((1, "an exercise has stages, each with a line 'stage', and this one has none"))
        elif self.stages[0].after or self.calls and self.calls[0] not in self.stages[0].steps:
            self.faults.append((self.stages[0].line, "events come before the first stage"))
        for stage in self.stages[-1:]:
            if not any(isinstance(step, (Held, Least)) for step in stage.steps):
                self.faults.append((stage.line, "the last stage promises nothing of a table"))
        names = tuple(draft.given.get("name", f"seat-{number}") for number, draft in enumerate(self.drafts))
        if len(set(names)) < len(names):
            self.faults.append((self.drafts[-1].line, "two seats have one name"))
        return Exercise(
            file,
            tuple(self.promises),
            self.said,
            tuple(self.hints),
            names,
            tuple(self.stages),
            self.answers(),
            tuple(draft.line for draft in self.drafts),
            tuple(self.cable_lines),
            self.only_room,
        )


def read_text(text: str) -> tuple[File, list[Promise]]:
    """The file of a text, and what it promises; raises Wrong with each line that is wrong."""
    reader = Reader()
    reader.read(text)
    file = reader.file()
    if reader.faults:
        raise Wrong(sorted(set(reader.faults)))
    return file, reader.promises


def read_long_text(text: str) -> tuple[File, list[Promise], Optional[tuple[int, ...]]]:
    """The same of a text with as many events as an exercise may have, and the answers that it names, or
    None: `pieces` cuts it into bench files."""
    reader = Reader(MOST_OF_TEXT)
    reader.read(text)
    file = reader.file()
    if reader.faults:
        raise Wrong(sorted(set(reader.faults)))
    return file, reader.promises, reader.answers()


def read_exercise(text: str) -> Exercise:
    """The exercise of a text: as many events as it likes up to MOST_OF_TEXT, and walks; raises Wrong."""
    reader = Reader(MOST_OF_TEXT, walks=True)
    reader.read(text)
    exercise = reader.exercise()
    if reader.faults:
        raise Wrong(sorted(set(reader.faults)))
    return exercise
