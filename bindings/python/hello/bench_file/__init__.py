"""Bench files: an exercise in one file, as octets and as text; docs/BENCH.md describes both.

    file, promises = bench_file.read_text(text)     # str to a File; raises Wrong
    octets = bench_file.to_octets(file)             # a File to bytes
    file = bench_file.from_octets(octets)           # bytes to a File; raises Fault
    text = bench_file.to_text(file)                 # a File to str
    exercise = bench_file.read_exercise(text)       # str to an Exercise, with its words and stages; raises Wrong
    exercise.pieces()                               # its bench files, to be run one after the other

Answers 18 and 19 refuse no file that these make, if the class's table has its NHOSTS. No library is needed.
"""

from .exercise import ENGLISH, Call, Exercise, Predict, Stage, Wait, in_language, pieces, unlike
from .faults import Fault, Wrong
from .file import Cable, Event, File, Seat
from .listing import listing, octets_of_listing
from .octets import from_octets, to_octets
from .promises import Answered, Compared, Entry, Held, Least
from .reader import read_exercise, read_long_text, read_text
from .writer import to_text

__all__ = [
    "ENGLISH", "Answered", "Cable", "Call", "Compared", "Entry", "Event", "Exercise", "Fault", "File", "Held", "Least",
    "Predict", "Seat", "Stage", "Wait", "Wrong", "from_octets", "in_language", "listing", "octets_of_listing", "pieces",
    "read_exercise", "read_long_text", "read_text", "to_octets", "to_text", "unlike",
]
