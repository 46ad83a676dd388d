"""The room of a class: hosts, cables, messages, exercises, the list of calls, its replay.

    room = Room.fresh()
    room.teacher({"do": "one_second"})
    room.seat(2, {"do": "call", "call": "read"})
    room.teacher_view()

Every change of a seat or of the net table is a call of the proved library; docs/CLASS.md has the
messages and views.
"""

from .checks import Refused
from .room import Room

__all__ = ["Refused", "Room"]
