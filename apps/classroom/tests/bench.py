"""How long a call takes from a click to the table, with sixteen seats running, and how many octets a page
is sent. No test: it only prints.

    PYTHONPATH=bindings/python:apps HELLO_SO=target/lib/libhello.so /usr/bin/python3 -m classroom.tests.bench

The room runs, all pages are open, and each of fifteen students makes a call about twice a second.
Octets are those of the connection, as the system counts them, after compression.
"""

import asyncio
import os
import random
import socket
import statistics
import struct
import sys
import time

from classroom.tests.browsing import Browser
from classroom.tests.serving import Class, Page
from classroom.tests.test_server_load import SEATS, room

SAMPLES = int(sys.argv[1]) if sys.argv[1:] else 200
ENTRIES = 20
# The seat of the browser. It works by hand, so that nothing but the click changes its table.
CLICKED = 0

# Notes the time from the next click to the change of the own entry's time in the table.
WATCH = """
const cell = document.querySelector('#routes [data-id="0"] [data-field="time"]');
window.sample = new Promise((done) => {
  let clicked = null;
  document.addEventListener("click", () => { clicked = performance.now(); }, { capture: true, once: true });
  const watch = new MutationObserver(() => {
    if (clicked === null) return;
    watch.disconnect();
    done(performance.now() - clicked);
  });
  watch.observe(cell, { attributes: true, childList: true, characterData: true, subtree: true });
});
"""


def clicks(browser):
    """The times of clicks at self_report, in ms."""
    button = browser.one('#routes [data-call="self_report"]')
    times = []
    for _ in range(SAMPLES):
        time.sleep(random.uniform(0.1, 0.4))
        browser.driver.execute_script(WATCH)
        button.click()
        times.append(browser.run("window.sample.then(done)"))
    return times


async def asks(page):
    """The times from a message to the view that shows its reply, in ms. The seat works by hand."""
    return [await ask(page) for _ in range(SAMPLES)]


async def ask(page):
    """One of them, after a pause."""
    await asyncio.sleep(random.uniform(0.1, 0.4))
    views, new = [], asyncio.Event()

    def look(view):
        views.append((time.perf_counter(), view["seat"]["last"]))
        new.set()

    page.each_view = look
    began = time.perf_counter()
    reply = await page.call("read")
    while not (shown := [at for at, last in views if last == reply]):
        new.clear()
        await new.wait()
    page.each_view = None
    return (shown[0] - began) * 1000


async def lively(page):
    """A student who makes a call about twice a second."""
    while True:
        await asyncio.sleep(random.uniform(0.2, 0.8))
        await page.call(random.choice(("read", "second", "self_report")))


def received(page):
    """The octets that a page's connection has received so far."""
    connection = page.socket.get_extra_info("socket")
    return struct.unpack_from("<Q", connection.getsockopt(socket.IPPROTO_TCP, socket.TCP_INFO, 192), 128)[0]


async def entries(teacher, student):
    """The octets that the teacher's page and a student's are sent for one changed entry, in a room that
    stands: a self-report, which stores the seat's own entry."""
    await teacher.ask("pause")
    await asyncio.sleep(1)
    octets = []
    for _ in range(ENTRIES):
        await teacher.ask("one_second")
        await asyncio.sleep(0.3)
        before = counts(teacher, student)
        await student.call("self_report")
        await asyncio.sleep(0.3)
        octets.append([now - start for now, start in zip(counts(teacher, student), before)])
    await teacher.ask("run")
    return [statistics.median(each) for each in zip(*octets)]


def counts(*pages):
    """Of each page the octets received, and the characters that they are."""
    return [count for page in pages for count in (received(page), page.characters)]


def worked(served):
    """The processor time of the server so far, in s."""
    with open(f"/proc/{served.process.pid}/stat") as stat:
        fields = stat.read().rpartition(")")[2].split()
    return (int(fields[11]) + int(fields[12])) / os.sysconf("SC_CLK_TCK")


def tell(what, times):
    """Prints the middle, the 95th of a hundred, and the worst."""
    ordered = sorted(times)
    middle, most = statistics.median(ordered), ordered[len(ordered) * 95 // 100]
    print(f"{what}: median {middle:.1f} ms, 95 per cent {most:.1f} ms, worst {ordered[-1]:.1f} ms")


async def main():
    """The measurements."""
    served = await asyncio.to_thread(Class, SEATS)
    browser = await asyncio.to_thread(Browser)
    try:
        async with asyncio.TaskGroup() as group, Page(served, "/teacher") as teacher:
            await teacher.ask("set_up", **room())
            await teacher.ask("run")
            pages = [Page(served, f"/seat/{seat}") for seat in range(1, SEATS)]
            for page in pages:
                await page.__aenter__()
            working = [group.create_task(lively(page)) for page in pages[1:]]
            began, before = time.monotonic(), worked(served)
            sent = [received(page) for page in (teacher, pages[0])]
            tell("message to view", await asks(pages[0]))
            seconds = time.monotonic() - began
            part = (worked(served) - before) / seconds
            print(f"the server took {100 * part:.0f} per cent of one processor")
            for whose, page, start in zip(("teacher", "student"), (teacher, pages[0]), sent):
                print(f"a {whose}'s page: {(received(page) - start) / seconds / 1000:.1f} kB/s")
            for work in working:
                work.cancel()
            measured = await entries(teacher, pages[0])
            for whose, sent, text in (("teacher", *measured[:2]), ("student", *measured[2:])):
                print(f"one changed entry, to a {whose}'s page: {sent:.0f} octets, uncompressed {text:.0f}")
            working = [group.create_task(lively(page)) for page in pages[1:]]
            working.append(group.create_task(lively(pages[0])))
            browser.open(served.address[f"/seat/{CLICKED}"])
            tell("click to table", await asyncio.to_thread(clicks, browser))
            for work in working:
                work.cancel()
            for page in pages:
                await page.__aexit__()
    finally:
        browser.close()
        await asyncio.to_thread(served.stop)
    print("load of the machine: " + " ".join(f"{load:.1f}" for load in os.getloadavg()))


if __name__ == "__main__":
    asyncio.run(main())
