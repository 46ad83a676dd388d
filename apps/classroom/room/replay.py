"""Makes the calls of a file again, over a fresh class, and compares the answers and the end.

    python3 -m classroom.room.replay FILE
"""

import json
import sys
from typing import NamedTuple, Optional

from . import calls, net_table, setup
from .checks import Refused, whole
from .state import shown, state_of

MOST_TIMES = 10**9


class Report(NamedTuple):
    """What a replay found: how many calls were made, the first difference in words, if there is
    one, and whether answers and end are equal."""

    calls: int
    first_difference: Optional[str]

    @property
    def equal(self):
        return self.first_difference is None


def replay(lines):
    """The Report on the lines of a file."""
    made = 0
    try:
        lines = (json.loads(line) for line in lines)
        table, hosts = setup.class_of(setup.checked(next(lines)["room"]))
        for line in lines:
            if "end" in line:
                return Report(made, _end(line["end"], made, table, hosts))
            made += 1
            difference = _again(table, hosts, line)
            if difference:
                return Report(made, f"line {line['line']}: {difference}")
        return Report(made, "the file has no end")
    except RecursionError:
        return Report(made, f"after {made} calls the file has another form: a line is nested too deeply")
    except (Refused, ValueError, TypeError, LookupError, StopIteration, OverflowError, AttributeError) as wrong:
        return Report(made, f"after {made} calls the file has another form: {wrong}")


def _again(table, hosts, line):
    """How the call of a line differs when it is made again, or None."""
    times = whole("times", line["times"], 1, MOST_TIMES)
    if line["seat"] is None:
        answer, returned = calls.tutor(table, line["call"], line["with"])
    else:
        host = hosts[whole("seat", line["seat"], 0, len(hosts) - 1)]
        answer, returned = calls.make(host, line["call"], line["with"], times)
    if answer != line["answer"]:
        return f"{line['call']} answers {answer}, and not {line['answer']}"
    if returned != line["returned"]:
        return f"{line['call']} returns {returned}, and not {line['returned']}"
    return None


def _end(end, made, table, hosts):
    """How the end differs, or None."""
    if end["calls"] != made:
        return f"there are {made} calls, and not {end['calls']}"
    if net_table.shown(table) != end["net_table"]:
        return f"the net table's end is {net_table.shown(table)}, and not {end['net_table']}"
    for number, (host, seat) in enumerate(zip(hosts, end["seats"])):
        if shown(state_of(host)) != seat:
            return f"the end of seat {number} is {shown(state_of(host))}, and not {seat}"
    return None if len(end["seats"]) == len(hosts) else "the end has another number of seats"


def main(path):
    """Replays a file, and says what came out."""
    with open(path, encoding="utf-8") as file:
        report = replay(file)
    if report.equal:
        print(f"{report.calls:,} calls made again: all answers and the end are equal")
    else:
        print(report.first_difference)
    return 0 if report.equal else 1


if __name__ == "__main__":
    if len(sys.argv) != 2:
        sys.exit("usage: python3 -m classroom.room.replay FILE")
    sys.exit(main(sys.argv[1]))
