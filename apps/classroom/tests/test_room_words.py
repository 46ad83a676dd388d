"""Tests of names and texts: normalised, and without control characters."""

import unittest

from classroom.room import Refused, Room
from classroom.room.checks import name, words


class Words(unittest.TestCase):
    """What a page may write."""

    def test_normalised(self):
        self.assertEqual(words("name", "Zoe\u0308", 10), "Zo\u00eb")
        self.assertEqual(words("text", "a\r\nb\rc\td", 10, lines=True), "a\nb\nc\td")
        self.assertEqual(name("name", "  Ada \u00a0 Lovelace ", 24), "Ada Lovelace")

    def test_joined_letters(self):
        for text in ("\u0645\u06cc\u200c\u062e", "\U0001f469\u200d\U0001f52c"):
            self.assertEqual(words("name", text, 24), text)

    def test_controls(self):
        for text in ("a\x00", "\x1b[31m", "a\nb", "a\tb", "\x7f", "\x9b", "\u202eadA", "\u2028", "\ufeffA", "\u2066x"):
            with self.assertRaises(Refused, msg=ascii(text)):
                words("name", text, 24)
            with self.assertRaises(Refused):
                Room.fresh().teacher({"do": "set_up", "seats": [{"name": text}], "cables": []})
        for text in ("a\x00", "\x1b", "\u202e", "\u2028"):
            with self.assertRaises(Refused):
                words("text", text, 24, lines=True)

    def test_name_of_a_seat(self):
        room = Room.fresh()
        room.teacher({"do": "set_up", "seats": [{"name": " Zoe\u0308  B "}], "cables": []})
        self.assertEqual(room.seats[0].name, "Zo\u00eb B")


if __name__ == "__main__":
    unittest.main()
