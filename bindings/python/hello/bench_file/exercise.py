"""An exercise in parts: its words, its stages with their calls and promises, and its bench files."""

from __future__ import annotations

from typing import NamedTuple, Optional, Sequence, Union

from .file import MOST_EVENTS, File
from .promises import Held, Least, Promise

ENGLISH = "en"
WORDS = ("title", "task", "question", "law", "explanation")
"""The lines that say one thing each; several of a name in one language are read as one text."""
OF_STAGE = ("stage", "outcome")


class Call:
    """A call that an exercise asks of a seat, `times` times, with the answer that it names.

    line    the line of the text
    kind    a kind of event; or open-walk, step or end-walk, which no bench file has
    link    of a send, an arrival and an open-walk
    amount  of a set
    tray    of a send, an arrival and an open-walk
    ways    of a send: how many ms after it each arrival of its message comes; none if it is lost
    """

    __slots__ = ("line", "kind", "seat", "link", "amount", "tray", "times", "answer", "ways")

    def __init__(
        self,
        line: int,
        kind: str,
        seat: Optional[int],
        link: Optional[int] = None,
        amount: Optional[int] = None,
        tray: Optional[int] = None,
        times: int = 1,
        answer: int = 0,
    ) -> None:
        self.line = line
        self.kind = kind
        self.seat = seat
        self.link = link
        self.amount = amount
        self.tray = tray
        self.times = times
        self.answer = answer
        self.ways: list[int] = []


class Wait(NamedTuple):
    """Milliseconds that go by."""

    ms: int


class Predict(NamedTuple):
    """That students predict these fields of a seat's entry, as they are at the end of the stage."""

    line: int
    seat: int
    host: int
    fields: tuple[str, ...]


Step = Union[Call, Wait, Held, Least]


class Stage:
    """A stage: what is done, what comes of it (shown afterwards), and its steps in their order: calls,
    waits and promises. `words` and `outcome` are texts by their languages."""

    def __init__(self, line: int, after: int) -> None:
        self.line = line
        self.after = after
        self.words: dict[str, str] = {}
        self.outcome: dict[str, str] = {}
        self.steps: list[Step] = []
        self.predictions: list[Predict] = []

    @property
    def calls(self) -> list[Call]:
        """Its calls."""
        return [step for step in self.steps if isinstance(step, Call)]


class Exercise(NamedTuple):
    """An exercise as its text says it.

    file     its seats, its cables and all its events, which may be too many for one bench file
    promises what is promised, each with how many events come before it
    words    by the names of WORDS, texts by their languages
    hints    each a text by its languages
    names    of the seats
    answers  of each event the answer that the exercise names, 0 if it names none; None without stages
    seat_lines, cable_lines  of each seat and each cable the line of the text
    only_room  the first line that no bench file can say, or None
    """

    file: File
    promises: tuple[Promise, ...]
    words: dict[str, dict[str, str]]
    hints: tuple[dict[str, str], ...]
    names: tuple[str, ...]
    stages: tuple[Stage, ...]
    answers: Optional[tuple[int, ...]]
    seat_lines: tuple[int, ...]
    cable_lines: tuple[int, ...]
    only_room: Optional[int]

    def said(self, name: str, language: str = ENGLISH) -> Optional[str]:
        """The text of that name in a language, in English if it has none; None without."""
        return in_language(self.words.get(name, {}), language)

    def pieces(self) -> list[File]:
        """The exercise as bench files, to be run one after the other on the same hosts."""
        return pieces(self.file)


def pieces(file: File) -> list[File]:
    """A file with any number of events as bench files with no more than one may have."""
    starts = range(0, max(len(file.events), 1), MOST_EVENTS)
    return [file._replace(events=file.events[at : at + MOST_EVENTS]) for at in starts]


def unlike(
    named: Optional[Sequence[int]], answers: Sequence[int], start: int = 0
) -> list[tuple[int, int, int]]:
    """The events, from `start` on, whose answers are not the ones that the exercise names: number,
    answer, named answer. `named` is None if it names none."""
    pairs = enumerate(zip(answers, named[start:] if named else ()), start)
    return [(event, answer, name) for event, (answer, name) in pairs if answer != name]


def in_language(texts: dict[str, str], language: str) -> Optional[str]:
    """One of the texts by their languages: this one, or the English one; None without."""
    return texts.get(language, texts.get(ENGLISH))
