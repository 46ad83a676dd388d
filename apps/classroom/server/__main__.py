"""Serves the class, or runs a file of calls again."""

import sys

from . import arguments


def main():
    """The number with which the process ends."""
    asked = arguments.read(sys.argv[1:])
    if asked.replay:
        from ..room import replay

        return replay.main(asked.replay)
    from . import main as server

    return server.run(asked)


sys.exit(main())
