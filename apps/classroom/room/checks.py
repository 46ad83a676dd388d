"""The form of what a page sends. Each part is checked; Refused says in words what is wrong."""

import math
import unicodedata

from hello import values

from .texts import has, written

CONTROLS = ("Cc", "Cf", "Zl", "Zp")
"""The Unicode categories of controls, of marks that turn the direction of a text, and of line ends."""
JOINERS = "\u200c\u200d"
"""Of those, letters are joined by these in some scripts."""


class Refused(Exception):
    """A message of another form, or one that the room cannot follow now. Nothing was changed. `text` is a
    text of the language files; as a string it is in English."""

    def __init__(self, key, /, **values):
        self.text = [key, values]
        super().__init__(written(self.text))


def _part(what):
    """What a part of a message is called: a text of the language files, where there is one."""
    key = f"part.{what.replace(' ', '_')}"
    return [key, {}] if has(key) else what


def whole(what, value, low, high):
    """A whole number from low to high."""
    if type(value) is not int or not low <= value <= high:
        raise Refused("refused.whole", what=_part(what), low=low, high=high)
    return value


def real(what, value, low, high):
    """A number from low to high."""
    if type(value) not in (int, float) or not math.isfinite(value) or not low <= value <= high:
        raise Refused("refused.real", what=_part(what), low=low, high=high)
    return value


def switch(what, value):
    """True or false."""
    if type(value) is not bool:
        raise Refused("refused.switch", what=_part(what))
    return value


def words(what, value, longest, lines=False):
    """A text of at most that many characters, normalised (NFC), without control characters; `lines`: it
    may have several, and tabs."""
    if type(value) is not str or len(value) > longest:
        raise Refused("refused.words", what=_part(what), longest=longest)
    if any("\ud800" <= character <= "\udfff" for character in value):
        raise Refused("refused.no_character", what=_part(what))
    if lines:
        value = value.replace("\r\n", "\n").replace("\r", "\n")
    value = unicodedata.normalize("NFC", value)
    kept = JOINERS + "\n\t" if lines else JOINERS
    if any(unicodedata.category(each) in CONTROLS and each not in kept for each in value):
        raise Refused("refused.control", what=_part(what))
    return value


def name(what, value, longest):
    """A name: such a text in which single spaces alone part the words."""
    return " ".join(words(what, value, longest).split())


def one_of(what, value, choices):
    """One of the words that may stand there."""
    if type(value) is not str or value not in choices:
        raise Refused("refused.one_of", what=_part(what), choices=", ".join(choices))
    return value


def members(what, value, least, most):
    """A list of that many members."""
    if type(value) is not list or not least <= len(value) <= most:
        count = f"{least}" if least == most else f"{least} to {most}"
        raise Refused("refused.list", what=_part(what), count=count)
    return value


def keys(what, value, needed, also=()):
    """An object with all of the needed keys, and none but those and the others."""
    if type(value) is not dict:
        raise Refused("refused.object", what=_part(what))
    for key in needed:
        if key not in value:
            raise Refused("refused.no_key", what=_part(what), key=key)
    for key in value:
        if key not in needed and key not in also:
            raise Refused("refused.unknown_key", what=_part(what))
    return value


def address(what, value):
    """An internet address in four decimal numbers with dots, as its octets."""
    text = words(what, value, 15)
    try:
        return tuple(values.address(text))
    except ValueError:
        raise Refused("refused.octets", what=_part(what), count=4) from None


def net(what, value):
    """The number of a net in three decimal numbers with dots, as its octets: those of an address without the last."""
    text = words(what, value, 11)
    try:
        return tuple(values.address(f"{text}.0"))[:3]
    except ValueError:
        raise Refused("refused.octets", what=_part(what), count=3) from None
