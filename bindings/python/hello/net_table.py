"""The net table of a class, with the tutor's calls as methods."""

from __future__ import annotations

from typing import Iterable, SupportsIndex

from . import library
from .answer import Answer
from .state import ClassTable
from .values import Added


class NetTable(ClassTable):
    """The net table of a class, which all its hosts use and only the tutor changes.

    Rows keep their order, and their numbers are 1, 2, 3 and so on. A change takes effect at the next
    call of a host that looks an address up, in the middle of a walk too. If NHOSTS is not that of a host's
    settings, each of its calls answers SETTING.
    """

    __slots__ = ()

    def initialize(self, nhosts: SupportsIndex) -> Answer:
        """Initializes the table, with the class's NHOSTS and without rows."""
        return Answer(library.net_afresh(self, nhosts))

    def add(self, net: Iterable[int], id: SupportsIndex) -> Added:
        """Adds a row at the end, a Net and the id of the host that leads there, as an Added."""
        answer, row = library.net_add(self, net, id)
        return Added(Answer(answer), row)

    def remove(self, row: SupportsIndex) -> Answer:
        """Removes the row of that number; those after it move up."""
        return Answer(library.net_remove(self, row))

    def change(self, row: SupportsIndex, id: SupportsIndex) -> Answer:
        """The row of that number leads to another host; its net stays."""
        return Answer(library.net_change(self, row, id))
