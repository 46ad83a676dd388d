"""Messages on paper: a HELLO (the message without the IP header) as text, and back.

    text = hello.text.to_text(message)      # bytes to str
    message = hello.text.from_text(text)    # str to bytes

A refusal raises Refused: HELLO_FORM for a message of wrong length, TEXT_FORM for text of another form,
FIELD_RANGE for a number that does not fit its field.
"""

from __future__ import annotations

import ctypes
from ctypes import POINTER, c_size_t, c_uint8

from .answer import Refused
from .loader import Function
from .structures import array_of, octets_of

LONGEST_HELLO = 1032
"""The octets of a HELLO of 255 hosts."""
LONGEST_TEXT = 3352
"""No text of a HELLO has more octets."""


class CWritten(ctypes.Structure):
    _fields_ = [("answer", c_uint8), ("length", c_size_t)]


_ARGUMENTS = (POINTER(c_uint8), c_size_t, POINTER(c_uint8), c_size_t)
_TO_TEXT = Function("hello_to_text", CWritten, *_ARGUMENTS)
_FROM_TEXT = Function("hello_from_text", CWritten, *_ARGUMENTS)


def _written(call: Function, octets: bytes, room: int) -> bytes:
    buffer = (c_uint8 * room)()
    written = call(array_of(octets), len(octets), buffer, room)
    if written.answer:
        raise Refused(written.answer)
    return bytes(buffer[: written.length])


def to_text(message: bytes) -> str:
    """The text of a message."""
    return _written(_TO_TEXT, octets_of(message, "message"), LONGEST_TEXT).decode("ascii")


def from_text(text: str) -> bytes:
    """The message of a text, with the checksum that a sender computes."""
    if not isinstance(text, str):
        raise TypeError("a text is a str")
    return _written(_FROM_TEXT, text.encode("utf-8"), LONGEST_HELLO)
