"""Nothing that gives an answer away is sent to a student's page before she has answered: all that comes
over her socket is read."""

import asyncio
import json
import unittest

from classroom.tests.serving import Class, Page, Quiet

# Clocks and ways of which every result is a number that is nowhere else: no two messages take alike.
DIFFERENCE = 7_321
WAYS = [[1_203, 2_897], [1_551, 3_999]]


def room():
    """Two hosts by hand, with clocks that differ by an odd number and a slow cable."""
    cable = {"ends": [[0, 1], [1, 1]], "ways": WAYS}
    return {"seats": [{"by_hand": True}, {"by_hand": True, "difference": DIFFERENCE}], "cables": [cable]}


class Listening(Page):
    """A page that keeps every frame which it gets, as text."""

    async def __aenter__(self):
        self.frames = []
        await super().__aenter__()
        return self

    def _take_view(self, text):
        self.frames.append(text)
        super()._take_view(text)

    async def send(self, message):
        returned = await super().send(message)
        self.frames.append(json.dumps(returned))
        return returned


def gives_away(frames, number):
    """Whether a number stands anywhere in these frames."""
    return any(number in _numbers(json.loads(frame)) for frame in frames)


def _numbers(value):
    if isinstance(value, dict):
        value = list(value.values())
    if isinstance(value, list):
        return set().union(*map(_numbers, value)) if value else set()
    if isinstance(value, str):
        words = "".join(c if c.isdigit() else " " for c in value.replace(",", "")).split()
        return {int(word) for word in words if len(word) < 12}
    return {abs(value)} if type(value) is int else set()


class Secret(Quiet):
    async def asyncSetUp(self):
        await super().asyncSetUp()
        self.served = await asyncio.to_thread(Class, 2)

    async def asyncTearDown(self):
        await asyncio.to_thread(self.served.stop)

    async def exchange(self, teacher, pages):
        """Messages to and fro, until the next one at the first host will be believed."""
        first, second = pages
        for sender, taker in ((first, second), (second, first), (first, second)):
            await sender.call("self_report")
            sent = await sender.call("send", link=1)
            await self.arrive(teacher, sent["returned"]["way"]["arrival"])
            (message,) = (await taker.until(lambda view: view["seat"]["waiting"]))["seat"]["waiting"]
            await taker.call("receive", message=message["message"])
        await second.call("self_report")
        sent = await second.call("send", link=1)
        await self.arrive(teacher, sent["returned"]["way"]["arrival"])

    async def arrive(self, teacher, time):
        """The room's time goes on until a message is there."""
        while (await teacher.ask("one_message"))["time"] < time:
            pass

    async def test_nothing_is_given_away(self):
        async with (
            Page(self.served, "/teacher") as teacher,
            Listening(self.served, "/seat/0") as first,
            Listening(self.served, "/seat/1") as second,
        ):
            await teacher.ask("set_up", **room())
            await first.until(lambda view: view["room"]["number"] == 2)
            await second.until(lambda view: view["room"]["number"] == 2)
            await self.exchange(teacher, (first, second))
            await teacher.ask("predict", mode="required")
            await first.until(lambda view: view["room"]["predict"] == "required" and view["seat"]["waiting"])
            first.frames.clear()
            await self.walk(first)

    async def walk(self, first):
        """Predicts each box wrong twice; what it then turns out to be stood in no frame before."""
        (message,) = first.view["seat"]["waiting"]
        await first.call("open_walk", message=message["message"])
        hidden = 0
        while (walk := (await first.until(lambda view: view["seat"]["walk"]))["seat"]["walk"]) and walk["next"]:
            fields = {field: "0.0.0.1" if field in ("then", "NEIGHBOR-ADDRESS") else 1 for field in walk["asks"]}
            self.assertIn("first write", await first.refused("call", call="step"))
            self.assertIn("first write", await first.refused("call", call="walk_on", to="end"))
            missed = await first.ask("predict", of="step", fields=fields)
            self.assertFalse(missed["done"])
            # Other views come between, too: all that she has got is read.
            await first.refused("call", call="step")
            frames = list(first.frames)
            shown = await first.ask("predict", of="step", fields=fields)
            self.assertTrue(shown["done"])
            state = {"KEEP-ALIVE": 4, "entry TTL": 120}
            for mark in shown["fields"]:
                value = mark["expected"]
                if type(value) is int and abs(value) > 1_000 and value != 30_000 and mark["field"] != "reading":
                    if walk["held"]["delay"] != value and walk["held"]["offset"] != value:
                        self.assertFalse(gives_away(frames, abs(value)), (walk["next"], mark))
                        hidden += 1
                self.assertNotIn(f'"expected": {json.dumps(value)}', "".join(frames[-4:]), state)
            first.frames.clear()
            boxes = len(walk["boxes"])
            await first.until(lambda view: len(view["seat"]["walk"]["boxes"]) > boxes)
        # TSP, DELAY and OFFSET of step 3 at least.
        self.assertGreaterEqual(hidden, 3)


if __name__ == "__main__":
    unittest.main()
