"""Where the lines of a list of calls are written: a temporary file, unless the room is given another place.

A paper has `write(octets)`, for one line at a time with its end, and `lines()`, all of them without it.
"""

import os
import tempfile

CHUNK = 64 * 1024


class FilePaper:
    """The lines in a temporary file. What was written when `lines` was called is read."""

    def __init__(self):
        self._file = tempfile.TemporaryFile()
        self._length = 0

    def __del__(self):
        self._file.close()

    def write(self, octets):
        """One line more."""
        self._file.write(octets)
        self._length += len(octets)

    def lines(self):
        """All lines, each as text."""
        return self._lines(self._length)

    def _lines(self, length):
        at, rest = 0, b""
        while at < length:
            self._file.seek(at)
            read = self._file.read(min(CHUNK, length - at))
            self._file.seek(0, os.SEEK_END)
            at += len(read)
            *lines, rest = (rest + read).split(b"\n")
            yield from (line.decode() for line in lines)


class NoPaper:
    """Keeps nothing: for a room that is made again from its journal only to be looked at."""

    def write(self, octets):
        """One line more, which is not kept."""

    def lines(self):
        """No lines."""
        return iter(())
