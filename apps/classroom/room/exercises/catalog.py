"""The exercises by their numbers: those of apps/exercises/, and those that the teacher has loaded."""

import re
from pathlib import Path
from typing import NamedTuple

from hello import bench_file

from .fitting import faults_of

FOLDER = Path(__file__).resolve().parents[4] / "apps" / "exercises"
FIRST_OWN = 101
"""The teacher's own exercises have numbers from here on."""
MOST_OWN = 20
LONGEST_TEXT = 150_000


class Listed(NamedTuple):
    """An exercise with its number, the name of its file, and its text."""

    number: int
    name: str
    exercise: bench_file.Exercise
    text: str


def read(number, name, text):
    """The exercise of a text; raises bench_file.Wrong with each line that is wrong."""
    exercise = bench_file.read_exercise(text)
    faults = faults_of(exercise)
    if faults:
        raise bench_file.Wrong(faults)
    # The room goes by the stages: the events of a long text are not kept.
    file = exercise.file._replace(events=())
    return Listed(number, name, exercise._replace(file=file, promises=(), answers=None), text)


def _read_all():
    paths = sorted(FOLDER.glob("*.txt"))
    numbers = {int(re.match("[0-9]+", path.stem)[0]): path for path in paths}
    return {number: read(number, path.stem, path.read_text("utf-8")) for number, path in numbers.items()}


EXERCISES = _read_all()
"""By their numbers those that are ready."""


class OWN(dict):
    """The teacher's own exercises by their numbers; with MOST_OWN of them the oldest goes."""

    def load(self, name, text):
        """Takes one more, in place of one of the same name: what is listed; raises bench_file.Wrong."""
        before = [number for number, each in self.items() if each.name == name]
        number = before[0] if before else max([FIRST_OWN - 1, *self]) + 1
        listed = read(number, name, text)
        if not before and len(self) >= MOST_OWN:
            del self[min(self)]
        self[number] = listed
        return listed


def sheet(number, language=bench_file.ENGLISH, own=None):
    """An exercise as a printed sheet shows it: its words, its seats and cables, its stages without what
    comes of them, and what students predict. None if there is no such exercise."""
    listed = {**EXERCISES, **(own or {})}.get(number)
    if listed is None:
        return None
    exercise, names = listed.exercise, listed.exercise.names
    seats = exercise.file.seats
    return {
        "number": number,
        **{name: exercise.said(name, language) for name in ("title", "task", "question", "law", "explanation")},
        "hints": [bench_file.in_language(hint, language) for hint in exercise.hints],
        "hosts": [
            {
                "seat": k,
                "name": names[k],
                "id": seat.own_id(),
                "address": ".".join(map(str, seat.address)),
                "difference": seat.time - seats[0].time,
                "links": len(seat.links),
            }
            for k, seat in enumerate(seats)
        ],
        "nhosts": seats[0].nhosts,
        "cables": [[list(end) for end in cable.ends] for cable in exercise.file.cables],
        "stages": [
            {
                "words": bench_file.in_language(stage.words, language),
                "outcome": bench_file.in_language(stage.outcome, language),
                "predict": [
                    {"seat": asked.seat, "host": asked.host, "fields": [f.upper() for f in asked.fields]}
                    for asked in stage.predictions
                ],
            }
            for stage in exercise.stages
        ],
    }
