"""Bench files that are loaded, from octets or text, and those that are ready."""

from pathlib import Path
from typing import NamedTuple, Optional

from hello import bench_file
from hello.bench_file import layout

from ..checks import Refused
from ..found_texts import text_of

LONGEST = 33_956
"""The octets of the longest file."""
LONGEST_TEXT = 150_000
"""The characters of the longest text that is read."""
MOST_FAULTS = 12
"""This many wrong lines of a text are reported."""
_ROOT = Path(__file__).resolve().parents[4]


def _ready():
    paths = [_ROOT / "docs" / "bench" / "small.txt", *sorted((_ROOT / "apps" / "exercises").glob("*.txt"))]
    texts = {path.stem: path.read_text("utf-8") for path in paths}
    return {name: text for name, text in texts.items() if _for_bench(text)}


def _for_bench(text):
    """Whether the bench can run a text; an exercise with walks is for the room alone."""
    try:
        bench_file.read_long_text(text)
    except bench_file.Wrong:
        return False
    return True


READY = _ready()
"""The texts of the files that are ready, by their names."""


class Loaded(NamedTuple):
    """A file: its name without the ending, its octets, its parts, or what is at fault with it, and what
    its text promises: numbers in tables, and the answers of the events, if it names any.

    A text with more events than a file may have is several files, `pieces`, run one after the other;
    `octets` and `file` are the first of them. `source` is the text that it was read from."""

    name: str
    octets: bytes
    file: Optional[bench_file.File]
    fault: Optional[list]
    promises: tuple = ()
    answers: Optional[tuple] = None
    pieces: tuple = ()
    source: Optional[str] = None

    @property
    def nhosts(self):
        """NHOSTS of the first seat's record; 1 where there is none."""
        record = self.octets[layout.HEADER_LENGTH : layout.HEADER_LENGTH + layout.SEAT_LENGTH]
        return layout.NHOSTS.of(record) if len(record) == layout.SEAT_LENGTH else 1

    @property
    def text(self):
        """The file as text; None where it is at fault."""
        return self.source or self.file and bench_file.to_text(self.file)

    @property
    def events(self):
        """The number of its events, of all pieces."""
        return sum(len(piece.events) for piece in self.pieces)


def read_octets(name, octets):
    """The file of these octets, which may be one that is refused."""
    if len(octets) > LONGEST:
        raise Refused("refused.bench_long", octets=len(octets), most=LONGEST)
    try:
        file = bench_file.from_octets(octets)
        return Loaded(name, octets, file, None, pieces=(file,))
    except bench_file.Fault as fault:
        return Loaded(name, octets, None, text_of(str(fault)))


def read_text(name, text):
    """The file of a text; Refused tells its wrong lines."""
    try:
        file, promises, answers = bench_file.read_long_text(text)
    except bench_file.Wrong as wrong:
        lines = [["text.line", {"line": line, "words": text_of(fault)}] for line, fault in wrong.faults[:MOST_FAULTS]]
        more = len(wrong.faults) - len(lines)
        raise Refused("refused.lines", lines=lines + ([["text.more", {"n": more}]] if more else [])) from None
    loaded = of_file(name, file, promises)
    return loaded._replace(answers=answers, source=text)


def read_ready(name):
    """One of the files that are ready."""
    return read_text(name, READY[name])


def of_file(name, file, promises=()):
    """The file of these parts, which are not at fault."""
    pieces = tuple(bench_file.pieces(file))
    octets = bench_file.to_octets(pieces[0])
    return Loaded(name, octets, pieces[0], None, tuple(promises), pieces=pieces)
