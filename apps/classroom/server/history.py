"""Back in time: a room as it was at any of its calls, made again from the store.

That is done by a process of its own, so that the class goes on meanwhile:

    python3 -m classroom.server.history FILE

reads {"room": number, "line": number} a line, and prints what the teacher's page shows of the room then.
"""

import asyncio
import contextlib
import json
import sys
from collections import OrderedDict

from ..room import journal
from . import checkpoint
from .record import Differs, rebuilt
from .store import Store, StoreError

KEPT = 24
"""This many rooms, each as it was after an input, are at hand for the next question."""
PATIENCE = 60


class _Passed(BaseException):
    """The call after the one that was asked for is about to be noted."""


class _Until:
    """A paper that ends the room's work before the line after `last`."""

    def __init__(self, line, last):
        self._line = line
        self._last = last

    def write(self, octets):
        """One line more."""
        self._line += 1
        if self._line > self._last:
            raise _Passed

    def lines(self):
        """No lines."""
        return iter(())


class Past:
    """The rooms of a store as they were."""

    def __init__(self, store):
        self._store = store
        self._kept = OrderedDict()

    def view(self, number, line):
        """What the teacher's page shows of a room after that line of its list; None without one."""
        input = self._store.input_of_line(number, line)
        if input is None:
            return None
        room = self._after(input - 1) if input > 0 else rebuilt(self._store, 0)
        (made,) = self._store.inputs(input - 1, input) if input > 0 else (None,)
        if made is not None and made.by != journal.BRANCH and made.room == room.number:
            room.log.paper = _Until(room.log.count, line)
            with contextlib.suppress(_Passed):
                journal.again(room, made.by, made.asked)
        else:
            room = self._after(input)
        view = room.teacher_view()
        call = next(self._store.calls(number, line - 1, line), None) if line > 0 else None
        parts = ("room", "seats", "cables", "on_their_way", "net_table")
        return {**{part: view[part] for part in parts}, "call": call and json.loads(call), "line": line}

    def _after(self, input):
        """The room after an input."""
        if input not in self._kept:
            self._kept[input] = checkpoint.dump(rebuilt(self._store, input))
            while len(self._kept) > KEPT:
                self._kept.popitem(last=False)
        self._kept.move_to_end(input)
        room = checkpoint.load(self._kept[input])
        room.log.paper = _Until(0, 2**62)
        room.paper = lambda: _Until(0, 2**62)
        return room


class History:
    """The process that looks back, for a server."""

    def __init__(self, path):
        self._path = path
        self._process = None
        self._turn = asyncio.Lock()

    async def ask(self, room, line):
        """What it says to a question: a text in JSON. StoreError if it says nothing."""
        async with self._turn:
            if self._process is None or self._process.returncode is not None:
                self._process = await asyncio.create_subprocess_exec(
                    *(sys.executable, "-m", "classroom.server.history", self._path),
                    stdin=asyncio.subprocess.PIPE,
                    stdout=asyncio.subprocess.PIPE,
                    limit=64 * 1024 * 1024,
                    start_new_session=True,
                )
            self._process.stdin.write(json.dumps({"room": room, "line": line}).encode() + b"\n")
            try:
                answer = await asyncio.wait_for(self._process.stdout.readline(), PATIENCE)
            except asyncio.TimeoutError:
                answer = b""
            if not answer:
                await self.close()
                raise StoreError("the room could not be made again in time")
            return answer.decode()

    async def close(self):
        """Ends the process."""
        if self._process is not None and self._process.returncode is None:
            self._process.kill()
            await self._process.wait()
        self._process = None


def main(path):
    """Answers questions until there are no more."""
    past = Past(Store(path, alone=False))
    for line in sys.stdin:
        asked = json.loads(line)
        try:
            returned = past.view(asked["room"], asked["line"])
        except (StoreError, Differs) as why:
            returned = {"fault": str(why)}
        print(json.dumps(returned, separators=(",", ":")), flush=True)


if __name__ == "__main__":
    main(sys.argv[1])
