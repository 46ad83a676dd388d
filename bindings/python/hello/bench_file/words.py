"""The words of a line, one after the other, as values."""

import difflib
import re

from .. import values
from .faults import Fault
from .promises import DOWN

NUMBER = re.compile(r"-?[0-9]{1,20}")
TIME = re.compile(r"([0-9]{2}):([0-9]{2}):([0-9]{2})(?:\.([0-9]{3}))?")
DATE = re.compile(r"([0-9]{4})-([0-9]{2})-([0-9]{2})")
LINK = re.compile(r"([0-9]{1,3})\.([0-9]{1,3})")
FRACTION = re.compile(r"([0-9]{1,20})/65536")


class Words:
    """The words of a line that are still to be read."""

    def __init__(self, line):
        self.words = line.split()

    def __bool__(self):
        return bool(self.words)

    def next(self, what, example):
        """The next word, which is to be such a thing."""
        if not self.words:
            raise Fault(f"{what} is missing: {example}")
        return self.words.pop(0)

    def value(self, what, read, example):
        """The next word as a value; `read` gives None where it is none."""
        word = self.next(what, example)
        value = read(word)
        if value is None:
            raise Fault(f"'{word}' is not {what}: {example}")
        return value

    def number(self, what):
        """The next word as a whole number."""
        return self.value(what, number, "a whole number, as 3")

    def keyword(self, word, what):
        """The next word, which is to be this one."""
        found = self.next(f"'{word}'", what)
        if found != word:
            raise Fault(f"'{found}' stands where '{word}' belongs: {what}")

    def options(self, readers):
        """The words left, each a name with its value; no name twice."""
        given = {}
        while self.words:
            name = self.words.pop(0)
            if name not in readers:
                raise Fault(unknown(name, readers, "goes on with" if readers else "ends here"))
            if name in given:
                raise Fault(f"'{name}' stands there twice")
            given[name] = readers[name](self)
        return given

    def end(self):
        """Finds fault with a word that is left."""
        self.options({})


def unknown(word, names, how):
    """What to say of a word that is none of these names."""
    if not names:
        return f"'{word}' is too much: the line ends before it"
    near = difflib.get_close_matches(word, names, n=1)
    meant = f" Did you mean '{near[0]}'?" if near else ""
    return f"'{word}' is not known: a line {how} {', '.join(names)}.{meant}"


def number(word):
    """A whole number."""
    return int(word) if NUMBER.fullmatch(word) else None


def address(word):
    """Four octets with dots, as in values.address."""
    try:
        return tuple(values.address(word))
    except ValueError:
        return None


def time(word):
    """A time of day in ms."""
    found = TIME.fullmatch(word)
    if not found:
        return None
    hours, minutes, seconds, ms = (int(part or 0) for part in found.groups())
    if hours > 23 or minutes > 59 or seconds > 59:
        return None
    return ((hours * 60 + minutes) * 60 + seconds) * 1_000 + ms


def date(word):
    """Year, month and day."""
    found = DATE.fullmatch(word)
    return tuple(int(part) for part in found.groups()) if found else None


def tick(word):
    """Milliseconds, or 65,536ths of one, in units."""
    found = FRACTION.fullmatch(word)
    if found:
        return int(found[1])
    ms = number(word)
    return None if ms is None else ms * 65_536


def link(word):
    """A seat and its link."""
    found = LINK.fullmatch(word)
    return (int(found[1]), int(found[2])) if found else None


def members(word):
    """Numbers with commas."""
    numbers = [number(part) for part in word.split(",")]
    return None if None in numbers else numbers


def delays(word):
    """Delays with commas: numbers, `down`, and `-` for one of which nothing is said."""
    known = {"down": DOWN, "-": None}
    found = [known.get(part, number(part)) for part in word.split(",")]
    good = all(part in known or number(part) is not None for part in word.split(","))
    return found if good else None


def delay(word):
    """A delay: a number, or `down`."""
    return DOWN if word == "down" else number(word)


def ranges(word):
    """Numbers with commas, some of them from one to another: 0,3,8-15."""
    found: list[int] = []
    for part in word.split(","):
        first, dash, last = part.partition("-")
        first, last = number(first), number(last if dash else first)
        if first is None or last is None or not first <= last <= first + 255:
            return None
        found += range(first, last + 1)
    return found


def broadcast(word):
    """Links with the addresses that are set for them: 2=192.0.2.9,3=192.0.2.7."""
    found = {}
    for part in word.split(","):
        name, _, neighbor = part.partition("=")
        place, octets = number(name), address(neighbor)
        if place is None or octets is None or place in found:
            return None
        found[place] = octets
    return found
