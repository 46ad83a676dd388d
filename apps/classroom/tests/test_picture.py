"""The picture in a real browser: no cable behind a host that it does not join, no word outside its box,
no letter under 12 px, at three widths of the page."""

import unittest

from classroom.tests.browsing import PICTURES, Browser
from classroom.tests.serving import Class

WIDTHS = (1280, 1400, 1920)
LONG = "Maximiliane von Arnstein"

# What is wrong with the picture, in words.
FAULTS = """
const rects = new Map();
const faults = [];
for (const host of document.querySelectorAll('#picture [data-host]')) {
  const rect = host.querySelector('rect').getBoundingClientRect();
  rects.set(host.dataset.host, rect);
  for (const text of host.querySelectorAll('text')) {
    const words = text.getBoundingClientRect();
    if (!text.textContent) continue;
    if (words.left < rect.left - 1 || words.right > rect.right + 1 || words.top < rect.top - 1 || words.bottom > rect.bottom + 1)
      faults.push(`outside its box: ${text.textContent}`);
  }
}
for (const text of document.querySelectorAll('#picture text'))
  if (parseFloat(getComputedStyle(text).fontSize) * text.getCTM().a < 12) faults.push(`too small: ${text.textContent}`);
const all = [...rects];
for (const [i, [one, a]] of all.entries()) for (const [two, b] of all.slice(i + 1))
  if (a.left < b.right && b.left < a.right && a.top < b.bottom && b.top < a.bottom) faults.push(`over each other: ${one} ${two}`);
const frame = document.querySelector('#picture svg').getBoundingClientRect();
for (const [one, a] of all) if (a.left < frame.left - 1 || a.right > frame.right + 1) faults.push(`outside the picture: ${one}`);
const middle = (r) => [(r.left + r.right) / 2, (r.top + r.bottom) / 2];
for (const line of document.querySelectorAll('#picture [data-cable]')) {
  const [from, to] = arguments[0][line.dataset.cable].map((seat) => middle(rects.get(String(seat))));
  for (const [seat, r] of rects) {
    if (arguments[0][line.dataset.cable].map(String).includes(seat)) continue;
    for (let k = 0; k <= 400; k += 1) {
      const [x, y] = [0, 1].map((i) => from[i] + (to[i] - from[i]) * k / 400);
      if (x > r.left && x < r.right && y > r.top && y < r.bottom) { faults.push(`cable ${line.dataset.cable} behind ${seat}`); break; }
    }
  }
}
return faults;
"""
PLACES = """
const frame = document.querySelector('#picture svg').getBoundingClientRect();
return Object.fromEntries([...document.querySelectorAll('#picture [data-host]')].map((host) => {
  const r = host.querySelector('rect').getBoundingClientRect();
  return [host.dataset.host, [(r.left + r.right) / 2 - frame.left, (r.top + r.bottom) / 2 - frame.top]];
}));
"""


def room(seats, pairs, **more):
    """A room of these pairs of seats."""
    links, cables = seats * [0], []
    for pair in pairs:
        for seat in pair:
            links[seat] += 1
        cables.append({"ends": [[seat, links[seat]] for seat in pair], "ways": [[20, 40], [20, 40]]})
    names = [f"{LONG[: 24 - 2]}{seat:02}" for seat in range(seats)]
    plans = [{"name": name, "by_hand": True, **more} for name in names]
    return {"seats": plans, "cables": cables}


def ring(count, first=0):
    return [(first + k, first + (k + 1) % count) for k in range(count)]


ROOMS = {
    "ring of 16": (16, ring(16)),
    "ring of 5 with a tail": (6, [*ring(5), (2, 5)]),
    "ring of 5 with a ghost outside": (7, [*ring(5), (0, 5), (5, 6)]),
    "star of 9": (9, [(0, k) for k in range(1, 9)]),
    "tree of 16": (16, [((k - 1) // 7, k) for k in range(1, 16)]),
    "each with each, 7": (7, [(a, b) for a in range(7) for b in range(a)]),
    "eight pairs": (16, [(2 * k, 2 * k + 1) for k in range(8)]),
    "line of 16": (16, [(k, k + 1) for k in range(15)]),
    "grid of 16": (16, [(k, k + 1) for k in range(15) if k % 4 < 3] + [(k, k + 4) for k in range(12)]),
    "two rings": (10, [*ring(5), *[(a + 5, b + 5) for a, b in ring(5)]]),
}


class Picture(unittest.TestCase):
    @classmethod
    def setUpClass(cls):
        cls.served = Class(16)
        cls.addClassCleanup(cls.served.stop)
        cls.teacher = Browser()
        cls.addClassCleanup(cls.teacher.close)
        cls.teacher.open(cls.served.address["/teacher"])
        cls.teacher.one("#room[data-time]")
        cls.teacher.click("#start-close")

    def ask(self, *messages):
        """Messages of the teacher's, by a socket of their own; the last one's reply comes last."""
        returned = self.teacher.run(
            "const [messages] = arguments, replies = [];"
            "const s = new WebSocket(`ws://${location.host}/teacher/socket`);"
            "s.onopen = () => messages.forEach((message, i) => s.send(JSON.stringify({ n: i + 1, ...message })));"
            "s.onmessage = (m) => { const returned = JSON.parse(m.data); if (returned.n) replies.push(returned);"
            "  if (returned.n === messages.length) { s.close(); done(replies); } };",
            messages,
        )
        self.assertEqual([each for each in returned if "reply" not in each], [])

    def set_up(self, seats, pairs):
        before = self.teacher.attribute("#room", "data-number")
        self.ask({"do": "set_up", **room(seats, pairs)})
        self.teacher.until(lambda: self.teacher.attribute("#room", "data-number") == before + 1, "the room")
        self.teacher.until(lambda: len(self.teacher.all("#picture [data-host]")) == seats, "its hosts")

    def faults(self, pairs):
        return self.teacher.driver.execute_script(FAULTS, [list(pair) for pair in pairs])

    def test_shapes(self):
        for name, (seats, pairs) in ROOMS.items():
            self.set_up(seats, pairs)
            for width in WIDTHS:
                self.teacher.driver.set_window_size(width, 1000)
                with self.subTest(name=name, width=width):
                    self.teacher.until(lambda: self.drawn(), "the picture at this width")
                    self.assertEqual(self.faults(pairs), [])
                    if name in ("ring of 16", "eight pairs"):
                        self.teacher.picture(PICTURES / f"picture-{seats}-{len(pairs)}-{width}.png")

    def drawn(self):
        """Whether the picture has the width of its place."""
        return self.teacher.driver.execute_script(
            "const p = document.getElementById('picture');"
            "return Math.abs(p.clientWidth - p.querySelector('svg').width.baseVal.value) < 2;"
        )

    def test_many_wait(self):
        """Eleven messages wait at each of sixteen hosts that work by hand."""
        seats, pairs = ROOMS["ring of 16"]
        self.set_up(seats, pairs)
        write = {"do": "call", "call": "write", "link": 1, "text": "hello 0 0 0 1 0\n"}
        self.ask(*({**write, "seat": seat} for seat in range(seats) for _ in range(11)))
        host = '#picture [data-host="15"]'
        self.teacher.until(lambda: "11 wait" in self.teacher.text(host), "11 wait")
        for width in WIDTHS:
            self.teacher.driver.set_window_size(width, 1000)
            self.teacher.until(lambda: self.drawn(), "the picture at this width")
            self.assertIn("by hand", self.teacher.text(host))
            self.assertEqual(self.faults(pairs), [])

    def test_centre_and_tail(self):
        self.set_up(*ROOMS["star of 9"])
        spots = self.teacher.driver.execute_script(PLACES)
        for axis in (0, 1):
            others = sorted(spot[axis] for seat, spot in spots.items() if seat != "0")
            self.assertLess(others[1], spots["0"][axis])
            self.assertGreater(others[-2], spots["0"][axis])
        for name, ring_of, outside in (
            ("ring of 5 with a tail", 5, ("5",)),
            ("ring of 5 with a ghost outside", 5, ("5", "6")),
        ):
            self.set_up(*ROOMS[name])
            spots = self.teacher.driver.execute_script(PLACES)
            polygon = [spots[str(seat)] for seat in range(ring_of)]
            for seat in outside:
                self.assertFalse(within(spots[seat], polygon), (name, seat))

    def test_dragged(self):
        self.set_up(*ROOMS["star of 9"])
        before = self.teacher.driver.execute_script(PLACES)["3"]
        self.teacher.driver.execute_script(
            "const host = document.querySelector('#picture [data-host=\"3\"]');"
            "const at = host.querySelector('rect').getBoundingClientRect();"
            "const [x, y] = [at.left + 9, at.top + 9];"
            "const send = (kind, dx, dy) => host.dispatchEvent(new PointerEvent(kind,"
            " { bubbles: true, button: 0, pointerId: 1, clientX: x + dx, clientY: y + dy }));"
            "host.setPointerCapture = () => {};"
            "send('pointerdown', 0, 0); send('pointermove', 30, 12); send('pointerup', 30, 12);"
        )
        after = self.teacher.driver.execute_script(PLACES)["3"]
        self.assertNotEqual(before, after)
        self.assertEqual(self.teacher.driver.execute_script("return document.body.dataset.tab"), "tables")
        self.teacher.click("#picture .again")
        self.assertEqual(self.teacher.driver.execute_script(PLACES)["3"], before)

    def tearDown(self):
        self.assertEqual(self.teacher.complaints(), [])


def within(point, polygon):
    """Whether a point is inside a polygon."""
    x, y = point
    inside = False
    for (x1, y1), (x2, y2) in zip(polygon, polygon[1:] + polygon[:1]):
        if (y1 > y) != (y2 > y) and x < (x2 - x1) * (y - y1) / (y2 - y1) + x1:
            inside = not inside
    return inside


if __name__ == "__main__":
    unittest.main()
