"""Real time becomes the room's: that many room milliseconds to each real one."""

import asyncio
import time

from .guard import LOG

STEP = 0.02
# A step after a pause of the machine counts as no more than this.
LONGEST_STEP = 0.25


async def keep(hall):
    """Moves the room on for as long as it runs. Between two steps the pages are served, so that a
    room which cannot keep up goes slower than it was asked to."""
    before = time.monotonic()
    while True:
        await asyncio.sleep(STEP)
        now = time.monotonic()
        real, before = min(now - before, LONGEST_STEP), now
        try:
            hall.pass_time(real * 1000)
        except Exception as slip:
            LOG.error("the room's time: %s: %s", type(slip).__name__, slip)
            await asyncio.sleep(1)
