"""A bench file: two hosts and a cable between them, three messages in turn.

Messages 1 and 2 make the hosts known to each other; message 3 is the first that is believed. Each
takes 30 ms, and seat 1's clock is 500 ms ahead, so that it has seat 0 with OFFSET -500.

Run bindings/python/make_library once, then PYTHONPATH=bindings/python python3 bindings/python/examples/bench.py.
"""

from hello import bench_file
import hello
from hello import Answer

TEXT = """
seat 192.0.2.1
seat 192.0.2.2 time 12:00:00.500
cable 0.1 1.1
self-report all
send cable 0 end 0 tray 0
wait 30
arrival tray 0
send cable 0 end 1 tray 0
wait 30
arrival tray 0
send cable 0 end 0 tray 0
wait 30
arrival tray 0
"""


def expect(got, wanted):
    """Ends the example where a result is not the wanted one."""
    if got != wanted:
        raise AssertionError(f"got {got}, wanted {wanted}")


def main():
    file, _ = bench_file.read_text(TEXT)
    octets = bench_file.to_octets(file)
    bench = hello.Bench(octets[:-1], hello.NetTable(nhosts=2))
    expect(bench.set_up(), Answer.HEADER)  # a file without its last octet
    bench.file = octets
    expect(bench.set_up(), Answer.DONE)

    # Seven events: seat 0 is still down at seat 1.
    expect(bench.run(7), (Answer.DONE, 7))
    expect(bench.host(1).table[0].delay, 30_000)
    expect(bench.slots[0].end, 0)

    # The last one, of as many as may be.
    expect(bench.run(), (Answer.DONE, 1))
    expect((bench.done, bench.answers), (8, 8 * (Answer.DONE,)))
    learned = bench.host(1).table[0]
    expect((learned.delay, learned.offset, learned.pid), (100, -500, 1))
    print(f"Seat 1 has for seat 0: DELAY {learned.delay} ms, OFFSET {learned.offset} ms.")


main()
