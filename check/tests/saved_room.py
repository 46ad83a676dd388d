"""Checks what ./run has printed of a bench file, as it saved a room or ran the file: run by the independent
program, the file ends with the links and the live entries of each report; where a report has the events, they
are those of the file, with the answers that the independent program gives.

usage: check/tests/saved_room.py FILE.bench REPORT..
"""

import pathlib
import re
import sys

sys.path.insert(0, str(pathlib.Path(__file__).resolve().parent.parent.parent / "bindings" / "python"))

from hello import bench_file  # noqa: E402
from bench_runs import returned  # noqa: E402

HOST = re.compile(r"Host (?:(\d+): \S+|\S+ \(id (\d+)\))")
LINK = re.compile(r" +(\d)  (\S+) +(\d)  +([+-]\d+)")
ENTRY = re.compile(r" +(\d+)  \S+ +(\d)  +(\d+)  +([+-]\d+)  .*")
EVENT = re.compile(r" +(\d+)  (\S.*?) +(\d+) \(.*\)")
EVENTS = "Events, each as a text has it, and its answer:"
COUNT = re.compile(r"^(?:Saved in .*, with (\d+) events: .*|The bench file .*, (\d+) events?\.)$", re.M)
DOWN = 30_000


def reported(lines):
    """The links and live entries of ./run's report."""
    links, entries, seat = set(), set(), None
    for line in lines:
        host, link, entry = HOST.fullmatch(line), LINK.fullmatch(line), ENTRY.fullmatch(line)
        if host:
            seat = int(host[1] or host[2])
        elif seat is not None and link:
            number, neighbor, keep_alive, tsp = link.groups()
            links.add((seat, int(number), neighbor, int(keep_alive), int(tsp)))
        elif seat is not None and entry:
            id, pid, delay, offset = map(int, entry.groups())
            entries.add((seat, id, pid, delay, offset))
    return links, entries


def printed_events(lines):
    """The words and the answers of the events in a report; none where it has no events."""
    if EVENTS not in lines:
        return None
    first = lines.index(EVENTS) + 1
    events = [EVENT.fullmatch(line) for line in lines[first : lines.index("", first)]]
    assert [int(event[1]) for event in events] == list(range(len(events)))
    return [event[2] for event in events], [int(event[3]) for event in events]


def words(path):
    """The events of a file, as its text has them."""
    file = bench_file.from_octets(path.read_bytes())
    lines = bench_file.to_text(file).splitlines()
    return lines[len(lines) - len(file.events) :]


def run(path):
    """Those of the file, run to its end."""
    set_up, [one], [shown] = returned(path, "all", "show")
    assert (set_up, one.answer) == (0, 0), "the file is refused"
    links = set()
    for line in shown.lines:
        words = line.split()
        if words[2] == "link":
            links.add((int(words[1]), int(words[3]), words[5], int(words[7]), int(words[9])))
    entries = {
        (seat, host, entry.pid, entry.delay, entry.offset)
        for (seat, host), entry in shown.tables.items()
        if entry.delay < DOWN
    }
    return one, links, entries


def check(report, path, one, links, entries):
    """What a report tells otherwise, in words."""
    text = report.read_text("utf-8")
    events = int("".join(COUNT.search(text).groups("")))
    if one.count != events:
        yield f"{one.count} events were carried out, and {events} were returned"
    if not links or (links, entries) != reported(text.splitlines()):
        yield f"the file ends with {sorted(links)} {sorted(entries)}"
    listed = printed_events(text.splitlines())
    if listed is not None and listed != (words(path), one.answers):
        yield "an event or its answer is printed otherwise"


def main():
    if len(sys.argv) < 3:
        sys.exit(__doc__)
    file, *reports = map(pathlib.Path, sys.argv[1:])
    one, links, entries = run(file)
    for report in reports:
        wrong = list(check(report, file, one, links, entries))
        if wrong:
            sys.exit("\n".join(f"{report}: {what}" for what in wrong))
    print(f"bench file: {one.count} events, {len(links)} links and {len(entries)} live entries are equal")


if __name__ == "__main__":
    main()
