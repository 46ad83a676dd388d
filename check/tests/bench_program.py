"""Gives the bench program, hello_bench, the small file of docs/, each exercise and some files that are refused, and compares what it prints with lines worked out from the file and the independent program's run. `tools/programs hello_bench` and `check/tests/bench` come before."""

import pathlib
import subprocess
import tempfile

from hello import bench_file
from bench_runs import EXERCISES, ROOT, returned

PROGRAM = ROOT / "crates" / "hello_bench" / "out" / "hello_bench"
KINDS = {1: "tick", 2: "adjust", 3: "set", 4: "second", 5: "self-report"}
DOWN = 30_000
# An exercise with walks, which no bench file has.
WALKS = "14-open-walk"


def names():
    """The answers' names by number."""
    lines = (ROOT / "docs" / "answers.txt").read_text("utf-8").splitlines()
    rows = [line.split("\t") for line in lines if not line.startswith("#")]
    return {int(number): name for number, name, *_ in rows}


def event(record):
    """An event's record in words."""
    kind, seat, cable, end, tray = record[:5]
    if kind == 6:
        return f"send cable {cable} end {end} tray {tray}"
    if kind == 7:
        return f"arrival tray {tray}"
    by = f" by {int.from_bytes(record[10:14], 'big', signed=True)} ms" if kind == 3 else ""
    return f"{KINDS[kind]} seat {seat}{by}"


def date(word):
    return f"{word % 32 + 1972}-{word // 1024 % 16:02}-{word // 32 % 32:02}"


def expected(path):
    """The lines for the file at a path."""
    set_up, runs, shown = returned(path, "all", "show")
    name = names()
    if set_up:
        return [f"{set_up} {name[set_up]}"]
    octets = path.read_bytes()
    start = int.from_bytes(octets[16:20], "big")
    lines = []
    for i, answer in enumerate(runs[0].answers):
        record = octets[start + 14 * i : start + 14 * i + 14]
        lines.append(f"event {i}: {event(record)}: {answer} {name[answer]}")
    lines.append("seat\tCLOCK ms\tDATE")
    for line in shown[0].lines:
        _, seat, what, *values = line.split()
        if what == "clock":
            lines.append(f"{seat}\t{int(values[0]) // 65536}\t{date(int(values[-1]))}")
    lines.append("seat\thost\tDELAY ms\tOFFSET ms\tTTL s\tPID")
    for (seat, host), e in shown[0].tables.items():
        if e.delay < DOWN:
            lines.append("\t".join(map(str, (seat, host, e.delay, e.offset, e.ttl, e.pid))))
    return lines


def files(folder):
    """The files, written to a folder; of an exercise that needs several files, the first."""
    exercises = [path for path in sorted(EXERCISES.glob("*.txt")) if path.stem != WALKS]
    for text in [ROOT / "docs" / "bench" / "small.txt", *exercises]:
        path = folder / f"{text.stem}.bench"
        file, _, _ = bench_file.read_long_text(text.read_text("utf-8"))
        path.write_bytes(bench_file.to_octets(next(iter(bench_file.pieces(file)))))
        yield path
    small = (folder / "small.bench").read_bytes()
    of_no_kind = bytearray(small)
    of_no_kind[666] = 9
    for name, octets in [("empty", b""), ("short", small[:-1]), ("kind", bytes(of_no_kind)), ("long", bytes(100_000))]:
        path = folder / name
        path.write_bytes(octets)
        yield path


def main():
    with tempfile.TemporaryDirectory() as folder:
        count = 0
        for path in files(pathlib.Path(folder)):
            run = subprocess.run([str(PROGRAM)], stdin=path.open("rb"), check=True, capture_output=True, text=True)
            if run.stdout.splitlines() != expected(path):
                raise SystemExit(f"hello_bench prints other lines of {path.name}")
            count += 1
    print(f"hello_bench: {count} files as they should be")


if __name__ == "__main__":
    main()
