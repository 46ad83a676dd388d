"""An exchange of two hosts: how A learns DELAY and OFFSET of B.

B's clock is 500 ms ahead of A's. A sends at 40,000 by its clock; B gets it at 40,530 by its own,
and answers at 45,530; A gets the answer at 45,081. So the way there and back took 81 ms, and A
takes B to be 489 ms ahead.

Run bindings/python/make_library once, then PYTHONPATH=bindings/python python3 bindings/python/examples/exchange.py.
"""

import hello
from hello import Answer

LINK = 1  # both hosts have one link


def expect(got, wanted):
    """Ends the example where a result is not the wanted one."""
    if got != wanted:
        raise AssertionError(f"got {got}, wanted {wanted}")


def address(number):
    """The address of host `number`: 192.0.2.1 and 192.0.2.2; the ids are 0 and 1."""
    return hello.Address(192, 0, 2, 1 + number)


def fresh(room, number, time):
    """Host `number`, initialized, with its clock at `time` ms."""
    host = room.host(number, hello.Settings(address(number), address_offset=1, nhosts=2, time=time))
    expect(host.initialize(), Answer.DONE)
    return host


def wait_until(host, time):
    """Ticks until the host's clock reads `time` ms."""
    while host.read().time < time:
        expect(host.tick(), Answer.DONE)
    expect(host.read().time, time)


def send(host):
    """The message that the host sends now."""
    sent = host.send(LINK)
    expect(sent.answer, Answer.DONE)
    return sent.message


def take(host, message):
    """Takes a message that arrives now: looks at it, then acts on it. What it says."""
    inspected = host.inspect(LINK, message)
    expect(inspected.answer, Answer.DONE)
    expect(host.act(LINK, message), Answer.DONE)
    return inspected


def main():
    room = hello.Room(hosts=2, nhosts=2)
    a = fresh(room, 0, 39_900)
    b = fresh(room, 1, 40_400)

    # B introduces itself, so that A knows its neighbor.
    introduction = send(b)
    wait_until(a, 39_930)
    # B has heard nobody yet, so that TSP is 0, and it sends no table.
    seen = hello.Inspected(Answer.DONE, source=address(1), time=40_400, tsp=0, nhosts=0)
    expect(take(a, introduction), seen)
    expect(a.links[0].neighbor, address(1))

    wait_until(a, 40_000)
    question = send(a)
    wait_until(b, 40_530)
    expect(take(b, question).time, 40_000)
    expect(b.links[0].tsp, -530)

    wait_until(b, 45_530)
    expect(b.self_report(), Answer.DONE)
    reply = send(b)
    wait_until(a, 45_081)
    seen = hello.Inspected(Answer.DONE, source=address(1), time=45_530, tsp=45_000, nhosts=2)
    expect(take(a, reply), seen)

    # DELAY 81 counts as the least one, 100; OFFSET is 449 + 81 / 2.
    learned = a.table[1]
    expect(learned, hello.Entry(delay=100, offset=489, ttl=120, pid=LINK, time=45_081))
    expect(a.lookup(address(1)), hello.Route(Answer.DONE, id=1, pid=LINK))

    print(f"A has for B: DELAY {learned.delay} ms, OFFSET {learned.offset} ms.")


main()
