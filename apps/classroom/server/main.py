"""Serves the class: python3 -m classroom.server; ./class calls it."""

import asyncio
import logging
import signal
import socket
import subprocess
import sys

from aiohttp import web
from aiohttp.http_exceptions import HttpProcessingError

from . import arguments, tls, which
from .app import Application
from .codes import Codes, new_codes
from .door import Door
from .hall import MOST_PAGES, Hall
from .history import History
from .keys import Keys, new_keys
from .record import Record
from .store import StoreError

LOOPBACK = "127.0.0.1"
BACKLOG = 128
PLAIN = (
    "Warning: --plain sends keys and all that is written as plain text. Anyone in the net can read it, "
    "and act as the teacher. Leave --plain out for TLS."
)


class OneLine(logging.Formatter):
    """What went wrong, in one line and without what led to it."""

    def format(self, record):
        words = record.getMessage()
        if record.exc_info and record.exc_info[1] is not None:
            words += f": {type(record.exc_info[1]).__name__}"
        return "class: " + ascii(words)[1:-1]


def _is_news(record):
    """Not that someone sent what is no HTTP: it is refused, and needs no word."""
    return not (record.exc_info and isinstance(record.exc_info[1], HttpProcessingError))


def log_to_stderr():
    """All that is logged goes to standard error, a line each."""
    handler = logging.StreamHandler()
    handler.setFormatter(OneLine())
    handler.addFilter(_is_news)
    logging.basicConfig(level=logging.WARNING, handlers=[handler])


def own_addresses():
    """The machine's addresses in its nets."""
    try:
        returned = subprocess.run(["hostname", "-I"], capture_output=True, text=True, check=True).stdout
    except (OSError, subprocess.CalledProcessError):
        return []
    return returned.split()


def listening(port, to_the_net):
    """The sockets that listen: on the loopback, or on every address of either sort."""
    if not to_the_net:
        return [socket.create_server((LOOPBACK, port), backlog=BACKLOG)]
    four = socket.create_server(("0.0.0.0", port), backlog=BACKLOG)
    try:
        six = socket.create_server(("::", four.getsockname()[1]), family=socket.AF_INET6, backlog=BACKLOG)
    except OSError:
        return [four]
    return [four, six]


def with_port(name, port, scheme):
    """A host name as a browser names it: an IPv6 address in brackets, the usual port left out."""
    name = f"[{name}]" if ":" in name else name
    return name if port == {"http": 80, "https": 443}[scheme] else f"{name}:{port}"


def names_of(to_the_net):
    """The host names that are printed, and others under which the class may be asked for."""
    here = ["localhost", "::1"]
    if not to_the_net:
        return [LOOPBACK], here
    name = socket.gethostname()
    return [*own_addresses(), name], [f"{name}.local", socket.getfqdn(), LOOPBACK, *here]


def tell(addresses, others):
    """Prints the addresses, and under which names the same is had."""
    for place, address in addresses.items():
        print(f"{place[1:].replace('/', ' '):8} {address}")
    if others:
        print("The same is at", ", ".join(others))


def class_of(store, asked):
    """What is noted of a class; a new one is begun. Another number of seats than it has is refused."""
    seats = store.noted("seats")
    if seats is None:
        seats = asked.seats or arguments.SEATS
        store.tell(seats=seats, keys=new_keys(seats), codes=new_codes(seats))
    elif asked.seats not in (None, seats):
        raise StoreError(
            f"The class in {store.path} has {seats} seats, and not {asked.seats}: leave out --seats to "
            "resume it, or begin another with --new."
        )
    return seats, store.noted("keys")


async def serve(asked, store):
    """Serves until the process is asked to stop."""
    seats, keys = class_of(store, asked)
    resumed = store.begun()
    record = Record(store, seats)
    wanted = store.noted("port", arguments.PORT) if asked.port is None else asked.port
    try:
        sockets = listening(wanted, asked.open_to_the_net)
    except OSError as why:
        raise StoreError(f"Port {wanted} cannot be had: {why.strerror}.") from None
    port = sockets[0].getsockname()[1]
    store.tell(port=port)
    names, others = names_of(asked.open_to_the_net)
    secured, fingerprint = None, None
    if asked.open_to_the_net and not asked.plain:
        secured, fingerprint = tls.context(store, asked.certificate, names + others)
    scheme = "http" if secured is None else "https"
    returned, also = ([with_port(name, port, scheme) for name in each] for each in (names, others))
    keys = Keys(keys, port, secure=secured is not None)
    origin = f"{scheme}://{returned[0]}"
    addresses = keys.addresses(origin)
    seats_at = list(addresses.values())[1:]
    hall = Hall(record, seats_at)
    codes = Codes(store.noted("codes"))
    history = History(store.path)

    def slips(sheets, names):
        return sheets.slips(origin, seats_at, codes, names, fingerprint)

    app = Application(hall, keys, {host.lower() for host in returned + also}, codes, slips, history)

    stop = asyncio.Event()
    for number in (signal.SIGINT, signal.SIGTERM):
        asyncio.get_running_loop().add_signal_handler(number, stop.set)
    runner = web.AppRunner(app.app, access_log=None)
    await runner.setup()
    door = Door(runner.server, MOST_PAGES * (seats + 1), secured)
    app.enter_by(door)
    door.open(sockets)
    print(f"{'Resumed' if resumed else 'A new class,'} {store.path}")
    tell(addresses, returned[1:])
    print(f"Students may join at {origin}/ with the codes of their slips: {origin}/teacher/print/slips")
    if fingerprint:
        print(f"The certificate's SHA-256 fingerprint: {fingerprint}")
    if asked.plain:
        print(PLAIN, file=sys.stderr)
    print("Stop with Ctrl-C.", flush=True)
    await stop.wait()
    await door.close()
    for each in sockets:
        each.close()
    await runner.shutdown()
    await runner.server.shutdown(2)
    await runner.cleanup()
    await history.close()
    hall.end()
    return 0


def run(asked):
    """Serves; the number with which the process ends."""
    log_to_stderr()
    store = None
    try:
        store = which.opened(asked)
        return asyncio.run(serve(asked, store))
    except StoreError as why:
        print(why, file=sys.stderr)
        return 1
    finally:
        if store is not None:
            store.close()
