"""Recovery of damaged captures.

A capture has 32-bit numbers, high octet first: the number of packets and the place of each from
octet 0. The packets follow. Recovery ignores the places and looks for the packets themselves.

    recovered = hello.capture.recover(octets)
    recovered.capture, recovered.stretches, recovered.places_true

A refusal raises Refused: CAPTURE_LENGTH for more than 65,536 octets.
"""

from __future__ import annotations

import ctypes
from ctypes import POINTER, c_bool, c_size_t, c_uint8
from typing import NamedTuple, Optional, Sequence

from .answer import Refused
from .loader import Function
from .structures import array_of, octets_of

LONGEST_INPUT = 65_536
"""The longest input that is taken, in octets."""
LONGEST_CAPTURE = 73_732
"""The most octets that the recovered capture of an input can have."""
LONGEST_STRETCHES = 16_392
"""The most octets that the list of stretches of an input can have."""
_NUMBER = 4


class Stretch(NamedTuple):
    """Octets that were passed over."""

    start: int
    length: int


class Recovered(NamedTuple):
    """The capture of the packets that were found, the stretches passed over, and whether number and
    places in the input were right."""

    capture: bytes
    stretches: list[Stretch]
    places_true: bool


class CMended(ctypes.Structure):
    _fields_ = [
        ("answer", c_uint8),
        ("capture_length", c_size_t),
        ("stretches_length", c_size_t),
        ("places_true", c_bool),
    ]


_OCTETS = (POINTER(c_uint8), c_size_t)
_MEND = Function("hello_mend", CMended, *_OCTETS, *_OCTETS, *_OCTETS)


def _numbers(octets: bytes) -> list[int]:
    return [int.from_bytes(octets[i : i + _NUMBER], "big") for i in range(0, len(octets), _NUMBER)]


def recover(octets: bytes, capture_room: Optional[int] = None, stretches_room: Optional[int] = None) -> Recovered:
    """Finds the packets of a damaged capture again. With less room than it needs it is refused with SHORT_BUFFER."""
    source = octets_of(octets)
    capture = (c_uint8 * (LONGEST_CAPTURE if capture_room is None else capture_room))()
    stretches = (c_uint8 * (LONGEST_STRETCHES if stretches_room is None else stretches_room))()
    returned = _MEND(array_of(source), len(source), capture, len(capture), stretches, len(stretches))
    if returned.answer:
        raise Refused(returned.answer)
    listed = _numbers(bytes(stretches[: returned.stretches_length]))
    found = [Stretch(*pair) for pair in zip(listed[::2], listed[1::2])]
    return Recovered(bytes(capture[: returned.capture_length]), found, returned.places_true)


def packets(capture: bytes) -> list[bytes]:
    """The packets of a good capture, such as recover makes, each with the length of its IP header.

    ValueError if a place is wrong: recover the capture first.
    """
    octets = octets_of(capture, "capture")
    count = int.from_bytes(octets[:_NUMBER], "big")
    places = _numbers(octets[_NUMBER : _NUMBER * (count + 1)])
    if len(octets) < _NUMBER * (count + 1):
        raise ValueError("the capture ends in its places: recover it first")
    found = []
    for place in places:
        packet = octets[place : place + int.from_bytes(octets[place + 2 : place + 4], "big")]
        if len(packet) < 20 or packet[0] != 0x45 or len(packet) != int.from_bytes(packet[2:4], "big"):
            raise ValueError(f"there is no packet at octet {place}: recover the capture first")
        found.append(packet)
    return found


def of_packets(packets: Sequence[bytes]) -> bytes:
    """The capture of some packets."""
    places = []
    place = _NUMBER * (len(packets) + 1)
    for packet in packets:
        places.append(place)
        place += len(packet)
    return b"".join(n.to_bytes(_NUMBER, "big") for n in [len(packets), *places]) + b"".join(packets)
