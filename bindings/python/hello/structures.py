"""The types of the C interface, and the ways from Python values to them."""

from __future__ import annotations

import ctypes
import operator
from ctypes import c_int8, c_int16, c_int32, c_int64, c_size_t, c_uint8, c_uint16, c_uint64
from typing import Any, Iterable, SupportsIndex, overload

from .values import LINKS, MARKS, ROWS, address

_SIGNED = (c_int8, c_int16, c_int32, c_int64)


class CAddress(ctypes.Structure):
    _fields_ = [(octet, c_uint8) for octet in ("first", "second", "third", "fourth")]


class Switch(c_uint8):
    """An octet that is 0 or 1, from False or True."""


class CLinkSetting(ctypes.Structure):
    _fields_ = [("broadcast", Switch), ("neighbor", CAddress)]


class CLayout(ctypes.Structure):
    _fields_ = [("address_offset", c_uint8), ("nhosts", c_size_t)]


class CNet(ctypes.Structure):
    _fields_ = [(octet, c_uint8) for octet in ("first", "second", "third")]


class CRow(ctypes.Structure):
    _fields_ = [("net", CNet), ("id", c_uint8)]


class CNetTable(ctypes.Structure):
    _fields_ = [("count", c_size_t), ("rows", CRow * ROWS)]


class CClassTable(ctypes.Structure):
    _fields_ = [("nhosts", c_size_t), ("net", CNetTable)]


class CMarks(ctypes.Structure):
    _fields_ = [("words", c_uint64 * (MARKS // 64))]


class CSettings(ctypes.Structure):
    _fields_ = [
        ("address", CAddress),
        ("layout", CLayout),
        ("clock_host", c_uint8),
        ("hold_interval", c_uint16),
        ("clock_tick", c_int64),
        ("time", c_int64),
        ("date", c_uint16),
        ("link_count", c_size_t),
        ("links", CLinkSetting * LINKS),
        ("marks", CMarks),
    ]


class CClock(ctypes.Structure):
    _fields_ = [("clock", c_int64), ("delta", c_int64), ("hold", c_uint16), ("date", c_uint16)]


class CCounter(ctypes.Structure):
    _fields_ = [("count", c_uint16), ("overflow", Switch), ("again", c_uint16)]


class CLink(ctypes.Structure):
    _fields_ = [("neighbor", CAddress), ("keep_alive", c_uint8), ("tsp", c_int16)]


class CLinks(ctypes.Structure):
    _fields_ = [("all", CLink * LINKS)]


class CWalk(ctypes.Structure):
    _fields_ = [
        ("opened", c_uint8),
        ("link", c_uint8),
        ("step", c_uint8),
        ("line", c_uint8),
        ("id", c_uint8),
        ("length", c_uint16),
        ("count", c_uint16),
        ("reading", c_int64),
        ("delay", c_int16),
        ("offset", c_int16),
    ]


class CEntry(ctypes.Structure):
    _fields_ = [
        ("delay", c_int64),
        ("offset", c_int16),
        ("ttl", c_uint16),
        ("pid", c_uint8),
        ("here", c_uint8),
        ("time", c_int64),
    ]


class CBenchHost(ctypes.Structure):
    _fields_ = [("clock", CClock), ("links", CLinks), ("walk", CWalk)]


class CBenchProgress(ctypes.Structure):
    _fields_ = [("done", c_size_t)]


class CBenchRan(ctypes.Structure):
    _fields_ = [("answer", c_uint8), ("count", c_size_t)]


class CNetAdded(ctypes.Structure):
    _fields_ = [("answer", c_uint8), ("row", c_size_t)]


class CSent(ctypes.Structure):
    _fields_ = [("answer", c_uint8), ("length", c_size_t)]


class CRoute(ctypes.Structure):
    _fields_ = [("answer", c_uint8), ("id", c_size_t), ("pid", c_uint8)]


class CTime(ctypes.Structure):
    _fields_ = [("answer", c_uint8), ("time", c_int64), ("date", c_uint16)]


class CInspected(ctypes.Structure):
    _fields_ = [
        ("answer", c_uint8),
        ("source", CAddress),
        ("time", c_int64),
        ("tsp", c_uint16),
        ("nhosts", c_uint8),
    ]


class CStepped(ctypes.Structure):
    _fields_ = [("answer", c_uint8), ("step", c_uint8), ("line", c_uint8), ("id", c_size_t)]


def fitting(name: str, value: SupportsIndex, low: int, high: int) -> int:
    """The number, if it is one from low to high."""
    number = operator.index(value)
    if not low <= number <= high:
        raise OverflowError(f"{name} is {number}, and must be from {low} to {high}")
    return number


def number(kind: Any, name: str, value: SupportsIndex) -> int:
    """The number, if it fits the C type `kind`."""
    bits = 8 * ctypes.sizeof(kind)
    if kind in _SIGNED:
        return fitting(name, value, -(1 << bits - 1), (1 << bits - 1) - 1)
    return fitting(name, value, 0, (1 << bits) - 1)


def into(kind: Any, name: str, value: Any) -> Any:
    """The value as the C type `kind`: a number, a switch, an address, or a structure from a tuple of its parts."""
    if kind is Switch:
        if not isinstance(value, bool):
            raise TypeError(f"{name} must be True or False")
        return Switch(value)
    if not issubclass(kind, ctypes.Structure):
        return number(kind, name, value)
    parts = tuple(address(value) if kind is CAddress else value)
    if len(parts) != len(kind._fields_):
        raise ValueError(f"{name} has {len(parts)} parts, and must have {len(kind._fields_)}")
    return kind(
        *(into(field, f"{name}.{part}", v) for (part, field), v in zip(kind._fields_, parts))
    )


def into_slots(slots: Any, name: str, values: Iterable[Any]) -> None:
    """Writes the values to the first slots of a C array, and zeros to the rest."""
    new = [into(slots._type_, f"{name}[{i}]", value) for i, value in enumerate(values)]
    if len(new) > len(slots):
        raise ValueError(f"{name} has {len(new)} members, and at most {len(slots)} fit")
    for i in range(len(slots)):
        slots[i] = new[i] if i < len(new) else slots._type_()


def octets_of(given: Any, name: str = "octets") -> bytes:
    """A copy of a bytes-like object. TypeError for anything else, a number included."""
    try:
        view = memoryview(given)
    except TypeError:
        raise TypeError(f"{name} must be bytes or another buffer, not {type(given).__name__}") from None
    return view.tobytes()


def array_of(octets: bytes) -> Any:
    """Octets as a C array, which has an address even if it is empty."""
    return (c_uint8 * max(1, len(octets))).from_buffer_copy(octets or b"\0")


class Part:
    """A number at a path of a structure's fields, checked when it is written."""

    def __init__(self, *path: str) -> None:
        *self._owners, self._name = path

    def _owner(self, state: Any) -> Any:
        for field in self._owners:
            state = getattr(state, field)
        return state

    @overload
    def __get__(self, instance: None, owner: Any) -> Part: ...
    @overload
    def __get__(self, instance: Any, owner: Any) -> int: ...
    def __get__(self, instance: Any, owner: Any) -> Any:
        return self if instance is None else getattr(self._owner(instance._state), self._name)

    def __set__(self, instance: Any, value: SupportsIndex) -> None:
        structure = self._owner(instance._state)
        kind = dict(structure._fields_)[self._name]
        setattr(structure, self._name, number(kind, self._name, value))
