"""A room as octets, and back: so that a class of hours is resumed in a moment.

The octets are a pickle of classes of the room and of the library's binding, and of no others. They are
read by the very program that wrote them, and by no other: see `program`.
"""

import ctypes
import hashlib
import io
import pickle
import zlib
from functools import cache
from pathlib import Path

from ..room.exercises.catalog import EXERCISES, Listed
from ..room.paper import NoPaper

_ROOT = Path(__file__).resolve().parents[3]
_PARTS = ("apps/classroom/room", "apps/exercises", "bindings/python/hello")
"""What a room is made by: with another one a checkpoint is not read."""
_MODULES = ("classroom.room.", "hello.", "bench_file.", "hello_")
_OTHERS = {
    ("collections", "deque"),
    ("collections", "OrderedDict"),
    ("collections", "defaultdict"),
    ("random", "Random"),
    ("_ctypes", "_unpickle"),
    ("builtins", "set"),
    ("builtins", "frozenset"),
    ("builtins", "bytearray"),
    ("builtins", "range"),
    ("copyreg", "_reconstructor"),
    ("builtins", "object"),
}


class NotKept(Exception):
    """The room has a part that cannot be kept, or the octets are of no room."""


@cache
def program():
    """A sum over all files by which a room is made."""
    made = hashlib.blake2b(digest_size=16)
    for part in _PARTS:
        for path in sorted((_ROOT / part).rglob("*")):
            if path.is_file() and path.suffix != ".pyc":
                made.update(f"{path.relative_to(_ROOT)}\0".encode())
                made.update(hashlib.blake2b(path.read_bytes()).digest())
    return made.hexdigest()


def _array(kind, length, octets):
    return (kind * length).from_buffer_copy(octets)


class _Writer(pickle.Pickler):
    def persistent_id(self, what):
        # An exercise that is ready is kept by its number, one of the teacher's own in full.
        if isinstance(what, Listed) and EXERCISES.get(what.number) is what:
            return what.number
        return None

    def reducer_override(self, what):
        if isinstance(what, ctypes.Array):
            return _array, (what._type_, len(what), bytes(what))
        return NotImplemented


class _Reader(pickle.Unpickler):
    def persistent_load(self, number):
        return EXERCISES[number]

    def find_class(self, module, name):
        if "." in name:
            raise NotKept(f"{module}.{name} is no part of a room")
        found = super().find_class(module, name)
        if module == __name__ and name == "_array" or (module, name) in _OTHERS:
            return found
        if module == "ctypes" and name.startswith("c_"):
            return found
        if module.startswith(_MODULES) and getattr(found, "__module__", None) == module:
            return found
        raise NotKept(f"{module}.{name} is no part of a room")


def dump(room):
    """A room as octets."""
    octets = io.BytesIO()
    try:
        _Writer(octets, protocol=5).dump(room)
    except Exception as why:
        raise NotKept(f"{type(why).__name__}: {why}") from None
    return zlib.compress(octets.getvalue(), 1)


def load(octets):
    """The room of these octets. Its papers are still to be given."""
    try:
        return _Reader(io.BytesIO(zlib.decompress(octets))).load()
    except Exception as why:
        raise NotKept(f"{type(why).__name__}: {why}") from None


def copied(room):
    """A copy of a room, whose list of calls is not kept."""
    copy = load(dump(room))
    copy.paper, copy.log.paper = NoPaper, NoPaper()
    return copy
