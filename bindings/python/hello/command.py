"""The command hello891: HELLO packets, messages, captures, NTP headers, bench files and pcap files.

Exit status: 0 done; 1 refused, with the number of the answer and its meaning on standard error; 2 wrong usage, or
a file that cannot be read or written.
"""

from __future__ import annotations

import argparse
import json
import os
import pathlib
import subprocess
import sys
from typing import Any, Callable, NoReturn, Optional

from . import bench_file, capture, ntp, pcap, text
from .answer import Answer, Refused
from .bench import Bench
from .net_table import NetTable
from .room import Host, Room
from .state import Settings

VERSION = "0.1.0"
LINK = 1
DONE, REFUSED, WRONG = 0, 1, 2
EPILOG = "Exit status: 0 done; 1 refused, with the answer's number and meaning on standard error; 2 usage or input and output."


class Failure(Exception):
    """Something that ends the command with status 2."""


def _input(name: Optional[str]) -> bytes:
    try:
        return sys.stdin.buffer.read() if name in (None, "-") else pathlib.Path(str(name)).read_bytes()
    except OSError as error:
        raise Failure(f"{name or 'standard input'}: {error.strerror}") from None


def _output(name: Optional[str], octets: bytes) -> None:
    try:
        if name in (None, "-"):
            sys.stdout.buffer.write(octets)
            sys.stdout.buffer.flush()
        else:
            pathlib.Path(str(name)).write_bytes(octets)
    except OSError as error:
        raise Failure(f"{name or 'standard output'}: {error.strerror}") from None


def _print(arguments: argparse.Namespace, value: dict[str, Any], lines: list[str]) -> None:
    """Prints a result as JSON or as lines."""
    shown = json.dumps(value, indent=2) if arguments.json else "\n".join(lines)
    _output(None, (shown + "\n").encode("utf-8") if shown else b"")


def _decoded(octets: bytes, name: Optional[str]) -> str:
    try:
        return octets.decode("utf-8")
    except UnicodeDecodeError:
        raise Failure(f"{name or 'standard input'}: the text is not UTF-8") from None


# Packets.


def _host(arguments: argparse.Namespace) -> Host:
    settings = Settings(arguments.address, arguments.offset, arguments.nhosts)
    host = Room(1, arguments.nhosts).host(0, settings)
    host.initialize().check()
    return host


def inspect(arguments: argparse.Namespace) -> int:
    """Looks at a packet, IP header first: would a new host take it, and what does it say?"""
    seen = _host(arguments).inspect(LINK, _input(arguments.file))
    seen.answer.check()
    value = {"answer": 0, "source": str(seen.source), "time": seen.time, "tsp": seen.tsp, "nhosts": seen.nhosts}
    _print(arguments, value, [f"{name} {value[name]}" for name in value])
    return DONE


def _state(host: Host) -> dict[str, int]:
    """What a walk can change, each number by its name."""
    found = {f"clock.{name}": getattr(host.clock, name) for name in ("clock", "delta", "hold", "date")}
    link = host.links[LINK - 1]
    found |= {"link.keep_alive": link.keep_alive, "link.tsp": link.tsp, "link.neighbor": str(link.neighbor)}
    for id, entry in enumerate(host.table):
        found |= {f"host {id}.{name}": value for name, value in entry._asdict().items()}
    return found


def walk(arguments: argparse.Namespace) -> int:
    """Takes a packet one box at a time: each box with what it changed."""
    host = _host(arguments)
    opened = host.open_walk(LINK, _input(arguments.file))
    opened.answer.check()
    place, boxes, lines, answer = opened.place, [], [], Answer.DONE
    while place is not None and answer is Answer.DONE:
        before = _state(host)
        answer, after = host.step()
        now = _state(host)
        changes = {name: [before[name], now[name]] for name in now if before[name] != now[name]}
        boxes.append({"box": str(place), "changes": changes})
        lines.append(", ".join([f"{place}:", *(f"{name} {old} -> {new}" for name, (old, new) in changes.items())]).replace(":,", ":"))
        place = after
    _print(arguments, {"answer": int(answer), "boxes": boxes}, lines)
    answer.check()
    return DONE


# Messages, captures, NTP.


def decode(arguments: argparse.Namespace) -> int:
    """A HELLO, without the IP header, as text."""
    shown = text.to_text(_input(arguments.file))
    if arguments.json:
        first, *hosts = shown.splitlines()
        date, time, tsp, offset, nhosts = map(int, first.split()[1:])
        table = [dict(zip(("delay", "offset"), map(int, line.split()))) for line in hosts]
        value = {"date": date, "time": time, "tsp": tsp, "address_offset": offset, "nhosts": nhosts, "hosts": table}
        shown = json.dumps(value, indent=2) + "\n"
    _output(arguments.output, shown.encode("ascii"))
    return DONE


def encode(arguments: argparse.Namespace) -> int:
    """The octets of a HELLO from its text, with the checksum that a sender computes."""
    message = text.from_text(_decoded(_input(arguments.file), arguments.file))
    if arguments.json:
        message = (json.dumps({"octets": message.hex(), "length": len(message)}) + "\n").encode()
    _output(arguments.output, message)
    return DONE


def recover(arguments: argparse.Namespace) -> int:
    """The packets of a damaged capture, as a capture; on standard error what was passed over."""
    found = capture.recover(_input(arguments.file))
    stretches = [stretch._asdict() for stretch in found.stretches]
    if arguments.json:
        value = {"capture": found.capture.hex(), "stretches": stretches, "places_true": found.places_true}
        _output(arguments.output, (json.dumps(value, indent=2) + "\n").encode())
        return DONE
    _output(arguments.output, found.capture)
    for stretch in found.stretches:
        print(f"passed over {stretch.length} octets from octet {stretch.start}", file=sys.stderr)
    return DONE


def ntp_header(arguments: argparse.Namespace) -> int:
    """The fields of an NTP header of 48 octets."""
    value = ntp.read(_input(arguments.file))._asdict()
    _print(arguments, value, [f"{name} {value[name]}" for name in value])
    return DONE


# Bench files.


def _bench(arguments: argparse.Namespace) -> tuple[bytes, list[Any]]:
    """The octets of a bench file, and the promises of a text."""
    octets = _input(arguments.file)
    name = arguments.file or "standard input"
    if octets[:3] == b"\0\0\0":
        return octets, []
    try:
        file, promises = bench_file.read_text(_decoded(octets, arguments.file))
        return bench_file.to_octets(file), list(promises)
    except bench_file.Wrong as wrong:
        raise Failure("\n".join(f"{name}:{line}: {fault}" for line, fault in wrong.faults)) from None
    except bench_file.Fault as fault:
        raise Failure(f"{name}: {fault}") from None


def _set_up(octets: bytes) -> Bench:
    nhosts = int.from_bytes(octets[26:28], "big")
    made = Bench(octets, NetTable(nhosts if 1 <= nhosts <= 255 else 1))
    made.set_up().check()
    return made


def bench_check(arguments: argparse.Namespace) -> int:
    """Whether a bench file, as text or octets, can be set up."""
    made = _set_up(_bench(arguments)[0])
    _print(arguments, {"answer": 0, "events": made.events, "nhosts": made.net_table.nhosts}, [f"{made.events} events, NHOSTS {made.net_table.nhosts}"])
    return DONE


def _entries(made: Bench, seats: int) -> dict[tuple[int, int], bench_file.Entry]:
    return {
        (seat, id): bench_file.Entry(*entry[:4]) for seat in range(seats) for id, entry in enumerate(made.host(seat).table)
    }


def bench_run(arguments: argparse.Namespace) -> int:
    """Runs a bench file: the answer of each event, then the live entries. A broken promise of a text is an error."""
    octets, promises = _bench(arguments)
    made = _set_up(octets)
    seats = int.from_bytes(octets[:4], "big")
    broken = []
    for end in sorted({promise.after for promise in promises} | {made.events}):
        made.run(end - made.done).answer.check()
        tables = _entries(made, seats)
        found = (promise.broken(tables, made.answers) for promise in promises if promise.after == end)
        broken += [words for words in found if words]
    answers = [int(answer) for answer in made.answers]
    live = [
        {"seat": seat, "host": id, **entry._asdict()}
        for (seat, id), entry in _entries(made, seats).items()
        if entry.delay < 30_000
    ]
    lines = [f"event {number}: answer {answer}" for number, answer in enumerate(answers)]
    lines += [f"seat {e['seat']} has host {e['host']}: DELAY {e['delay']}, OFFSET {e['offset']}, PID {e['pid']}" for e in live]
    _print(arguments, {"answers": answers, "live": live, "broken": broken}, lines)
    if broken:
        raise Failure("\n".join(broken))
    return DONE


def bench_list(arguments: argparse.Namespace) -> int:
    """Each octet of a bench file with its name."""
    octets = _bench(arguments)[0]
    try:
        shown = bench_file.listing(octets)
    except bench_file.Fault as fault:
        raise Failure(f"{arguments.file or 'standard input'}: {fault}") from None
    _print(arguments, {"octets": octets.hex(), "listing": shown.splitlines()}, shown.splitlines())
    return DONE


# pcap files.


def _pcap(octets: bytes, name: Optional[str]) -> list[pcap.Timed]:
    try:
        return pcap.read(octets)
    except (ValueError, ImportError) as error:
        raise Failure(f"{name or 'standard input'}: {error}") from None


def _written_pcap(arguments: argparse.Namespace, packets: list[pcap.Timed]) -> int:
    try:
        octets = pcap.write(packets, arguments.format == "pcapng", arguments.link == "ethernet")
    except ImportError as error:
        raise Failure(str(error)) from None
    _output(arguments.output, octets)
    return DONE


def pcap_from(arguments: argparse.Namespace) -> int:
    """The packets of a pcap or pcapng file as a capture. A capture has no times: --times keeps them in a file."""
    packets = _pcap(_input(arguments.file), arguments.file)
    if arguments.json:
        listed = [{"time_us": time, "packet": packet.hex()} for time, packet in packets]
        _output(arguments.output, (json.dumps(listed, indent=2) + "\n").encode())
    else:
        _output(arguments.output, capture.of_packets([packet for _, packet in packets]))
    if arguments.times:
        _output(arguments.times, (json.dumps([time for time, _ in packets]) + "\n").encode())
    return DONE


def pcap_to(arguments: argparse.Namespace) -> int:
    """A capture as a pcap or pcapng file, with the times of --times, or with time 0."""
    try:
        packets = capture.packets(_input(arguments.file))
        times = json.loads(_input(arguments.times)) if arguments.times else [0] * len(packets)
        if not isinstance(times, list) or not all(type(time) is int and time >= 0 for time in times) or len(times) != len(packets):
            raise ValueError(f"{arguments.times} has not one time, in microseconds, for each of {len(packets)} packets")
    except ValueError as error:
        raise Failure(f"{arguments.file or 'standard input'}: {error}") from None
    return _written_pcap(arguments, [pcap.Timed(time, packet) for time, packet in zip(times, packets)])


def pcap_convert(arguments: argparse.Namespace) -> int:
    """A pcap or pcapng file of one sort as one of another, with its times."""
    return _written_pcap(arguments, _pcap(_input(arguments.file), arguments.file))


# The demonstration and the class.


def _shared() -> pathlib.Path:
    """The folder with run, class and apps/: the repository, or what ./install made."""
    named = os.environ.get("HELLO_SHARE")
    package = pathlib.Path(__file__).resolve().parent
    folders = [pathlib.Path(named)] if named else [package.parents[2], *(parent / "share" / "hello891" for parent in package.parents)]
    for folder in folders:
        if (folder / "class").is_file() and (folder / "run").is_file():
            return folder
    raise Failure("room and class need the repository or an installation by ./install: name its folder in HELLO_SHARE")


def _started(name: str, words: list[str]) -> int:
    try:
        ended = subprocess.run([str(_shared() / name), *words]).returncode
    except KeyboardInterrupt:
        return DONE
    return ended if ended in (DONE, WRONG) else (WRONG if ended else DONE)


# The arguments.


class _Parser(argparse.ArgumentParser):
    def error(self, message: str) -> NoReturn:
        self.exit(WRONG, f"{self.prog}: {message}\nTry {self.prog} --help.\n")


def parser() -> argparse.ArgumentParser:
    """The arguments of the command."""
    made = _Parser(prog="hello891", description="Works with HELLO (RFC 891) packets, messages, captures, bench files and pcap files, by a proved library.", epilog=EPILOG)
    made.add_argument("--version", action="version", version=f"hello891 {VERSION}")
    commands = made.add_subparsers(dest="command", required=True, metavar="COMMAND")

    def add(to: Any, name: str, call: Callable[[argparse.Namespace], int], what: str, output: bool = False) -> argparse.ArgumentParser:
        found: argparse.ArgumentParser = to.add_parser(name, help=call.__doc__, description=call.__doc__, epilog=EPILOG)
        found.add_argument("file", nargs="?", metavar="FILE", help=f"{what}; standard input if it is not given or -")
        found.add_argument("--json", action="store_true", help="print JSON")
        if output:
            found.add_argument("-o", "--output", metavar="FILE", help="where to write; standard output if it is not given")
        found.set_defaults(call=call)
        return found

    for name, call in (("inspect", inspect), ("walk", walk)):
        one = add(commands, name, call, "the packet")
        one.add_argument("--address", default="192.0.2.1", help="LOCAL-ADDRESS of the host (192.0.2.1)")
        one.add_argument("--offset", type=int, default=1, help="its ADDRESS-OFFSET (1)")
        one.add_argument("--nhosts", type=int, default=4, help="its NHOSTS (4)")
    texts = commands.add_parser("text", help="a HELLO as text, and back", epilog=EPILOG).add_subparsers(dest="way", required=True, metavar="WAY")
    add(texts, "decode", decode, "the HELLO", True)
    add(texts, "encode", encode, "the text", True)
    add(commands, "recover", recover, "the capture", True)
    add(commands, "ntp", ntp_header, "the header")
    benches = commands.add_parser("bench", help="bench files: check, run, list", epilog=EPILOG).add_subparsers(dest="way", required=True, metavar="WAY")
    add(benches, "check", bench_check, "the bench file, text or octets")
    add(benches, "run", bench_run, "the bench file, text or octets")
    add(benches, "list", bench_list, "the bench file, text or octets")
    pcaps = commands.add_parser("pcap", help="pcap and pcapng files: from, to, convert", epilog=EPILOG).add_subparsers(dest="way", required=True, metavar="WAY")
    taken = add(pcaps, "from", pcap_from, "the pcap or pcapng file", True)
    given = add(pcaps, "to", pcap_to, "the capture", True)
    for one in (taken, given):
        one.add_argument("--times", metavar="FILE", help="the times of the packets in microseconds, a JSON list")
    changed = add(pcaps, "convert", pcap_convert, "the pcap or pcapng file", True)
    for one in (given, changed):
        one.add_argument("--format", choices=("pcap", "pcapng"), default="pcap", help="of the file that is written (pcap)")
        one.add_argument("--link", choices=("raw", "ethernet"), default="raw", help="link type of the file that is written (raw)")
    commands.add_parser("room", add_help=False, help="runs a room of hosts, as ./run does; see hello891 room --help")
    commands.add_parser("class", add_help=False, help="serves a class in browsers, as ./class does; see hello891 class --help")
    return made


def main(words: Optional[list[str]] = None) -> int:
    """Runs the command; the exit status."""
    words = sys.argv[1:] if words is None else words
    asked_json = False
    try:
        if words[:1] in (["room"], ["class"]):
            return _started("run" if words[0] == "room" else "class", words[1:])
        arguments = parser().parse_args(words)
        asked_json = arguments.json
        status: int = arguments.call(arguments)
        return status
    except Refused as refused:
        if asked_json:
            print(json.dumps({"answer": refused.number, "words": refused.words}))
        print(f"hello891: refused: {refused}", file=sys.stderr)
        return REFUSED
    except Failure as failure:
        print(f"hello891: {failure}", file=sys.stderr)
        return WRONG
    except (ValueError, OverflowError, ImportError) as error:
        print(f"hello891: {error}", file=sys.stderr)
        return WRONG


if __name__ == "__main__":
    sys.exit(main())
