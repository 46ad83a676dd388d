"""Tests of patches: what changed between two views, made again on the first, is the second."""

import copy
import json
import random
import unittest

from classroom.room import Room
from classroom.server.patch import Patched, Versions, changes, patched


def some(chance, depth=0):
    """A value by chance, as a view has them."""
    kind = chance.randrange(8 if depth < 3 else 5)
    if kind < 5:
        return chance.choice((None, True, False, 2, 3, 1.5, "", "a", "12:00:00.081"))
    if kind < 7:
        return [some(chance, depth + 1) for _ in range(chance.randrange(5))]
    return {chance.choice("abcdef"): some(chance, depth + 1) for _ in range(chance.randrange(5))}


def altered(value, chance):
    """The value with something in it changed by chance."""
    if type(value) is list and value and chance.random() < 0.8:
        value, place = list(value), chance.randrange(len(value))
        return chance.choice(
            (
                lambda: [*value[:place], altered(value[place], chance), *value[place + 1 :]],
                lambda: [*value[:place], *value[place + 1 :]],
                lambda: [*value[:place], some(chance), *value[place:]],
            )
        )()
    if type(value) is dict and value and chance.random() < 0.8:
        key = chance.choice(list(value))
        return {**value, key: altered(value[key], chance)}
    return some(chance)


class Patches(unittest.TestCase):
    """Patches of values, and of a room's views."""

    def test_any_values(self):
        chance = random.Random(1)
        for _ in range(3_000):
            old = some(chance)
            new = altered(old, chance) if chance.random() < 0.7 else some(chance)
            kept = copy.deepcopy(old)
            made = json.loads(json.dumps(changes(old, new)))
            self.assertEqual(json.dumps(patched(old, made), sort_keys=True), json.dumps(new, sort_keys=True))
            self.assertEqual(json.dumps(old), json.dumps(kept))

    def test_nothing(self):
        self.assertEqual(changes({"a": [1, {"b": 2}]}, {"a": [1, {"b": 2}]}), [])

    def test_one_number(self):
        old = {"table": [{"delay": 100, "ttl": 5}, {"delay": 30_000, "ttl": 0}]}
        new = {"table": [{"delay": 100, "ttl": 5}, {"delay": 101, "ttl": 0}]}
        self.assertEqual(changes(old, new), [[["table", 1, "delay"], 101]])

    def test_the_first_of_a_list_goes(self):
        old, new = [{"m": k} for k in range(9)], [{"m": k} for k in range(1, 10)]
        self.assertEqual(patched(old, changes(old, new)), new)
        self.assertEqual(changes([1, 2, 3], [2, 3]), [[[], 0, 1, []]])

    def test_views_of_a_room(self):
        room, versions, page, since, chance = Room.fresh(4), Versions(), Patched(), None, random.Random(2)
        for _ in range(120):
            room.go_on(room.now + chance.randrange(700))
            if chance.random() < 0.1:
                room.teacher({"do": "by_hand", "seat": chance.randrange(4), "on": True})
            if chance.random() < 0.02:
                room.teacher({"do": "exercise", "number": 1})
                room.teacher({"do": "set_up", "seats": 4 * [{}], "cables": []})
            view = room.teacher_view(since)
            since = view.pop("mark")
            message = json.loads(json.dumps(versions.message(view)))
            self.assertTrue(page.take(message))
            for part in view:
                self.assertEqual(page.view[part], json.loads(json.dumps(view[part])), part)

    def test_a_list_that_grows_in_its_place(self):
        versions, page, boxes = Versions(), Patched(), []
        for box in range(4):
            boxes.append({"box": box})
            self.assertTrue(page.take(versions.message({"walk": {"boxes": boxes}})))
            self.assertEqual(page.view["walk"]["boxes"], boxes)

    def test_a_gap(self):
        versions, page = Versions(), Patched()
        self.assertTrue(page.take(versions.message({"room": {"time": 1}})))
        versions.message({"room": {"time": 2}})
        self.assertFalse(page.take(versions.message({"room": {"time": 3}})))


if __name__ == "__main__":
    unittest.main()
