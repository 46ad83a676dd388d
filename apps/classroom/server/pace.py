"""How often something may be done."""

import asyncio
import time
from collections import deque


class Pace:
    """Some at once, then that many a second: whoever comes sooner waits; no one is turned away."""

    def __init__(self, at_once, a_second):
        self._between = 1 / a_second
        self._ahead = at_once / a_second
        self._next = 0.0

    async def take(self, weight=1):
        """Waits until it is this one's turn; one that weighs more keeps the next waiting longer."""
        now = time.monotonic()
        self._next = max(self._next, now - self._ahead) + weight * self._between
        if self._next > now:
            await asyncio.sleep(self._next - now)


class Window:
    """No more than that many in any second, each as soon as that lets it."""

    def __init__(self, a_second):
        self._last = deque(maxlen=a_second)

    async def take(self):
        """Waits until one more fits, and counts it. For one caller at a time."""
        if len(self._last) == self._last.maxlen:
            wait = self._last[0] + 1 - time.monotonic()
            if wait > 0:
                await asyncio.sleep(wait)
        self._last.append(time.monotonic())
