"""The teacher's bench: a whole exercise in one file, set up and run on hosts of its own, apart from the
seats of the room. Every event is a call of the proved library; docs/BENCH.md tells of files.

    stand = Stand()
    stand.load(read_octets("exercise.bench", octets))
    stand.set_up(room.net_table, "own")
    stand.run(room.net_table, 10)
"""

from .loaded import read_octets, read_ready, read_text
from .messages import BENCH
from .stand import Stand

__all__ = ["BENCH", "Stand", "read_octets", "read_ready", "read_text"]
