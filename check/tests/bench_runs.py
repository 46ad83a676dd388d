"""Runs bench files through the independent program, and checks what their texts promise."""

import pathlib
import subprocess
import tempfile
from typing import NamedTuple

from hello import bench_file
from hello.bench_file import Entry

ROOT = pathlib.Path(__file__).resolve().parent.parent.parent
PROGRAM = ROOT / "target" / "cargo" / "release" / "run_bench"
EXERCISES = ROOT / "apps" / "exercises"


class Run(NamedTuple):
    """What a run returned."""

    answer: int
    count: int
    answers: list


class Shown(NamedTuple):
    """What the seats hold: their lines, and the entries by (seat, host)."""

    lines: list
    tables: dict


def returned(*words):
    """What the program returned for these words: the answer to the set-up, the runs, and what it showed."""
    output = subprocess.run(
        [str(PROGRAM), *map(str, words)], check=True, capture_output=True, text=True
    ).stdout
    set_up, runs, shown = None, [], []
    in_show = False
    for line in output.splitlines():
        name, *rest = line.split()
        if name == "seat":
            if not in_show:
                shown.append(Shown([], {}))
            shown[-1].lines.append(line)
            if rest[1] == "host":
                seat, _, host, _, delay, _, offset, _, ttl, _, pid, *_ = rest
                entry = Entry(int(delay), int(offset), int(ttl), int(pid))
                shown[-1].tables[int(seat), int(host)] = entry
        elif name == "set-up":
            set_up = int(rest[0])
        elif name == "ran":
            runs.append(Run(int(rest[0]), int(rest[1]), []))
        elif name == "answers":
            runs[-1].answers.extend(map(int, rest))
        in_show = name == "seat"
    return set_up, runs, shown


def broken(path):
    """What the text at a path promises and the run does not keep, in words."""
    file, promises, named = bench_file.read_long_text(path.read_text("utf-8"))
    with tempfile.TemporaryDirectory() as folder:
        paths = []
        for number, piece in enumerate(bench_file.pieces(file)):
            paths.append((pathlib.Path(folder) / f"{number}.bench", len(piece.events)))
            paths[-1][0].write_bytes(bench_file.to_octets(piece))
        return list(_broken(paths, promises, named))


def _broken(paths, promises, named):
    """The same of files that are run one after the other, each with the number of its events."""
    events = sum(count for _, count in paths)
    wanted = {promise.after for promise in promises} | {events}
    words, cuts, start = [], [], 0
    for path, count in paths:
        ends = sorted({cut for cut in wanted if start < cut <= start + count} | {start + count})
        words.append(path)
        words += [word for first, end in zip([start, *ends], ends) for word in (end - first, "show")]
        cuts += ends
        start += count
    set_up, runs, shown = returned(*words)
    if set_up != 0 or any(run.answer != 0 for run in runs):
        yield "the file is refused"
        return
    answers = [answer for run in runs for answer in run.answers]
    if len(answers) != events:
        yield f"{len(answers)} events were carried out, and there are {events}"
    in_one_piece = [word for path, _ in paths for word in (path, "all")]
    if returned(*in_one_piece, "show")[2][-1] != shown[-1]:
        yield "the run in one piece ends otherwise"
    for event, answer, name in bench_file.unlike(named, answers):
        yield f"event {event} was answered {answer}, and the text names {name}"
    tables = {cut: each.tables for cut, each in zip(cuts, shown, strict=True)}
    for promise in promises:
        wrong = promise.broken(tables[promise.after], answers)
        if wrong:
            yield f"line {promise.line}: {wrong}"
