"""What a page is shown, and when: after its own change at once, after others' soon.

A page has one view on its way at most. One that is slow to take it is given what has changed since,
in one, and none of the views between.
"""

import asyncio
import contextlib
import json
import time

from ..room.texts import english
from .guard import LOG
from .pace import Window
from .patch import Versions

MOST_A_SECOND = 20
# Of those, that many after what others or the room's time changed: the rest are for the page's own.
AFTER_OTHERS = 10
# A page that does not take a view in that many seconds is gone.
LONGEST_WAIT = 60
# A page is shown nothing more while that many octets for it wait to be sent; the system holds others.
MOST_UNSENT = 16 * 1024
SEND_BUFFER = 64 * 1024
LOOK_AGAIN = 0.02
# The part of the server's time that views after others' changes may take, all pages together.
PART_FOR_VIEWS = 0.25


class Page:
    """A page at a place, with its socket, what gives the page up, and how many octets are unsent."""

    def __init__(self, hall, place, socket, give_up, unsent=lambda: 0):
        self._hall = hall
        self._socket = socket
        self._unsent = unsent
        self.give_up = give_up
        self.place = place
        self.begin()
        self.cost = 0.0
        self._changed = asyncio.Event()
        self._own = asyncio.Event()
        self._window = Window(MOST_A_SECOND)

    def begin(self):
        """The next view is a full one."""
        self.seen = None
        self.versions = Versions()

    def changed(self, own=False):
        """Something that the page shows has changed, by a message of its own or not."""
        self._changed.set()
        if own:
            self._own.set()

    async def show(self):
        """Pushes views for as long as the page takes them; while the store cannot be written, that."""
        shown_at = 0.0
        while True:
            await self._changed.wait()
            if self._hall.trouble is not None:
                self._changed.clear()
                await self._socket.send_str(json.dumps({"notice": english(self._hall.trouble), "text": self._hall.trouble}))
                continue
            if not self._own.is_set():
                rest = shown_at + self._hall.between_views() - time.monotonic()
                if rest > 0:
                    with after(rest, self._own.set):
                        await self._own.wait()
            await self._window.take()
            with after(LONGEST_WAIT, self.give_up):
                while self._unsent() > MOST_UNSENT:
                    await asyncio.sleep(LOOK_AGAIN)
            shown_at = time.monotonic()
            self._changed.clear()
            self._own.clear()
            text = self._view()
            if text is not None:
                with after(LONGEST_WAIT, self.give_up):
                    await self._socket.send_str(text)

    def _view(self):
        """The view as text; None where it could not be made, or shows nothing new."""
        began = time.monotonic()
        try:
            view = self._hall.view(self)
            return None if view == {"patch": {}} else json.dumps(view, separators=(",", ":"))
        except Exception as slip:
            LOG.error("a view of %s: %s: %s", self.place, type(slip).__name__, slip)
            self.begin()
            return None
        finally:
            self.cost = 0.8 * self.cost + 0.2 * (time.monotonic() - began)


@contextlib.contextmanager
def after(seconds, do):
    """Does something after that many seconds, unless what stands within has ended before."""
    timer = asyncio.get_running_loop().call_later(seconds, do)
    try:
        yield
    finally:
        timer.cancel()
