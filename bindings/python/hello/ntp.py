"""NTP beside HELLO: the 48-octet header of RFC 5905, read and written, and what an association
makes of a packet.

    header = hello.ntp.read(octets)
    octets = hello.ntp.write(header)
    outcome = hello.ntp.receive(association, octets, destination)

A refusal raises Refused, with the answers NTP_LENGTH, NTP_VERSION, NTP_MODE and NTP_TIMESTAMP, tested in
that order; it changes nothing. A number that does not fit its field raises OverflowError.
"""

from __future__ import annotations

import ctypes
import dataclasses
from ctypes import POINTER, c_int8, c_int64, c_size_t, c_uint8, c_uint32, c_uint64
from typing import Any, NamedTuple, SupportsIndex

from .answer import Refused
from .loader import Function
from .structures import array_of, into, number, octets_of

OCTETS = 48
"""The octets of a header."""

# The actions, with the numbers of the RFC's appendix A.5.
ERR = -1
DSCRD = 0
PROC = 1
FXMIT = 3
MANY = 4
NEWPS = 5
NEWBC = 6


class Header(NamedTuple):
    """A header. A timestamp has seconds in its high 32 bits and a fraction of a second in its low."""

    leap: int = 0
    version: int = 4
    mode: int = 3
    stratum: int = 0
    poll: int = 0
    precision: int = 0
    root_delay: int = 0
    root_dispersion: int = 0
    reference_id: int = 0
    reference: int = 0
    origin: int = 0
    receive: int = 0
    transmit: int = 0


class Outcome(NamedTuple):
    """What a packet gives: the action, and offset and delay in units of 1/2^32 s."""

    action: int
    offset: int
    delay: int


class CNtpHeader(ctypes.Structure):
    _fields_ = [
        ("leap", c_uint8),
        ("version", c_uint8),
        ("mode", c_uint8),
        ("stratum", c_uint8),
        ("poll", c_int8),
        ("precision", c_int8),
        ("root_delay", c_uint32),
        ("root_dispersion", c_uint32),
        ("reference_id", c_uint32),
        ("reference", c_uint64),
        ("origin", c_uint64),
        ("receive", c_uint64),
        ("transmit", c_uint64),
    ]


class CNtpAssociation(ctypes.Structure):
    _fields_ = [("number", c_uint8), ("transmit", c_uint64), ("saved", c_uint64)]


class CNtpRead(ctypes.Structure):
    _fields_ = [("answer", c_uint8), ("header", CNtpHeader)]


class CNtpWritten(ctypes.Structure):
    _fields_ = [("answer", c_uint8), ("octets", c_uint8 * OCTETS)]


class CNtpOutcome(ctypes.Structure):
    _fields_ = [
        ("answer", c_uint8),
        ("action", c_int8),
        ("offset", c_int64),
        ("delay", c_int64),
        ("association", CNtpAssociation),
    ]


@dataclasses.dataclass
class Association:
    """An association.

    number    its row of the dispatch table: 0 none, 1 to 6
    transmit  the time that we last sent
    saved     the transmit time that was last taken in
    """

    number: int
    transmit: int = 0
    saved: int = 0


_OCTETS = (POINTER(c_uint8), c_size_t)
_READ = Function("hello_ntp_read", CNtpRead, *_OCTETS)
_WRITE = Function("hello_ntp_write", CNtpWritten, CNtpHeader)
_RECEIVE = Function("hello_ntp_receive", CNtpOutcome, CNtpAssociation, *_OCTETS, c_uint64)


def _done(returned: Any) -> Any:
    if returned.answer:
        raise Refused(returned.answer)
    return returned


def read(octets: bytes) -> Header:
    """The fields of a header; refused with NTP_LENGTH, NTP_VERSION or NTP_MODE."""
    octets = octets_of(octets)
    header = _done(_READ(array_of(octets), len(octets))).header
    return Header(*(getattr(header, field[0]) for field in CNtpHeader._fields_))


def write(header: Header) -> bytes:
    """The octets of a header; refused with NTP_VERSION or NTP_MODE."""
    return bytes(_done(_WRITE(into(CNtpHeader, "header", header))).octets)


def receive(association: Association, octets: bytes, destination: SupportsIndex) -> Outcome:
    """Takes in a packet that arrives at the time `destination`, T4.

    Only a packet that is processed changes the association: its transmit time is saved.
    """
    octets = octets_of(octets)
    given = into(CNtpAssociation, "association", (association.number, association.transmit, association.saved))
    arrived = number(c_uint64, "destination", destination)
    returned = _done(_RECEIVE(given, array_of(octets), len(octets), arrived))
    association.saved = returned.association.saved
    return Outcome(returned.action, returned.offset, returned.delay)
