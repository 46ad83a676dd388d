"""The door: how many connections there are, from where, and how long one may wait before it asks.

A connection waits for a request's head, is busy with a request, or is a page: an open socket with a key.
Pages are limited elsewhere, four at each place. If there are too many of the others, the one that has
waited longest is closed for the new one: whoever opens connections and says nothing keeps no one out.
"""

import asyncio
import resource
import time

from .guard import LOG

OF_AN_ADDRESS, IN_ALL = 128, 384
# A head is complete after that many seconds, and so is the exchange that begins TLS.
HEAD = 10
# A request without a key is done after that many seconds.
WITHOUT_KEY = 30
# File descriptors for the store, the list of calls, the listening sockets and the like.
OWN_DESCRIPTORS = 64
BETWEEN_COMPLAINTS = 60
BETWEEN_LOOKS = 1


class Connection(asyncio.Protocol):
    """A connection, and the handler to which all that it receives is passed on."""

    def __init__(self, door, socket, address):
        self._door = door
        self._socket = socket
        self._inner = None
        self._transport = None
        self.opening = None
        self.address = address
        self.waits = True
        self.page = False
        self.keyed = False
        self.since = time.monotonic()

    def give(self, inner):
        """The handler that gets what is received."""
        self._inner = inner
        return self

    def ask(self, waits):
        """A head is complete, or, where it `waits`, the request is done and another may come."""
        self.waits = waits
        self.since = time.monotonic()

    def close(self):
        """Closes it at once."""
        self._door.forget(self)
        if self._transport is not None:
            self._transport.abort()
        elif self.opening is not None:
            self.opening.cancel()

    def late(self, now):
        """Whether it has waited, or been busy without a key, for too long."""
        if self.page:
            return False
        return now - self.since > (HEAD if self.waits else WITHOUT_KEY) and (self.waits or not self.keyed)

    def connection_made(self, transport):
        self._transport = transport
        self.since = time.monotonic()
        self._door.handlers[self._inner] = self
        self._inner.connection_made(transport)

    def data_received(self, data):
        self._inner.data_received(data)

    def eof_received(self):
        return self._inner.eof_received()

    def pause_writing(self):
        self._inner.pause_writing()

    def resume_writing(self):
        self._inner.resume_writing()

    def connection_lost(self, why):
        self._door.forget(self)
        self._door.handlers.pop(self._inner, None)
        self._inner.connection_lost(why)


class Door:
    """Accepts connections for handlers that `make_handler` makes."""

    def __init__(self, make_handler, pages, tls=None):
        self._make = make_handler
        self._tls = tls
        self._open = {}
        self._tasks = []
        self._complained = None
        self.handlers = {}
        most = resource.getrlimit(resource.RLIMIT_NOFILE)[0] - OWN_DESCRIPTORS - pages
        self._most = max(8, min(IN_ALL, most))

    def open(self, listeners):
        """Lets connections in from these listening sockets."""
        for listener in listeners:
            listener.setblocking(False)
            self._tasks.append(asyncio.create_task(self._accept(listener)))
        self._tasks.append(asyncio.create_task(self._look()))

    async def close(self):
        """Lets no more in."""
        for task in self._tasks:
            task.cancel()
        await asyncio.gather(*self._tasks, return_exceptions=True)

    def of(self, request):
        """The connection of a request."""
        return self.handlers.get(request.protocol)

    def forget(self, connection):
        """A connection is closed."""
        self._open.pop(connection, None)

    async def _accept(self, listener):
        loop = asyncio.get_running_loop()
        while True:
            try:
                socket, address = await loop.sock_accept(listener)
            except OSError as why:
                self._complain(why)
                await asyncio.sleep(1)
                continue
            self._admit(socket, address[0])

    def _complain(self, why):
        now = time.monotonic()
        if self._complained is None or now - self._complained >= BETWEEN_COMPLAINTS:
            self._complained = now
            LOG.error("a connection could not be accepted: %s; more of these are reported once a minute", why.strerror)

    def _admit(self, socket, address):
        """Takes a new connection in, if there is room for it or can be made."""
        if not (self._room_for(address) and self._room_for(None)):
            socket.close()
            return
        connection = Connection(self, socket, address)
        self._open[connection] = None
        connection.opening = asyncio.create_task(self._begin(connection, socket))

    def _room_for(self, address):
        """Whether one more fits of an address, or in all, if need be for one that waits."""
        others = [each for each in self._open if not each.page and address in (None, each.address)]
        if len(others) < (self._most if address is None else min(OF_AN_ADDRESS, self._most)):
            return True
        if address is None:
            # Of all, one of the address that has the most is closed.
            counts = {}
            for each in others:
                counts[each.address] = counts.get(each.address, 0) + 1
            most = max(counts, key=counts.get)
            others = [each for each in others if each.address == most]
        waiting = [each for each in others if each.waits]
        if not waiting:
            return False
        min(waiting, key=lambda each: each.since).close()
        return True

    async def _begin(self, connection, socket):
        limits = {} if self._tls is None else {"ssl_handshake_timeout": HEAD}
        try:
            await asyncio.get_running_loop().connect_accepted_socket(
                lambda: connection.give(self._make()), socket, ssl=self._tls, **limits
            )
        except (OSError, asyncio.CancelledError):
            self.forget(connection)
            socket.close()

    async def _look(self):
        while True:
            await asyncio.sleep(BETWEEN_LOOKS)
            now = time.monotonic()
            for connection in [each for each in self._open if each.late(now)]:
                connection.close()
