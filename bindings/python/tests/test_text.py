"""Tests of messages on paper."""

import unittest

import hello
from hello.text import LONGEST_HELLO, LONGEST_TEXT, from_text, to_text

BOARD = "hello 12331 3600000 4660 1 0\n"


class Text(unittest.TestCase):
    """There and back, and the refusals."""

    def test_blackboard(self):
        message = from_text(BOARD)
        self.assertEqual(message.hex(), "cde9302b0036ee8012340100")
        self.assertEqual(to_text(message), BOARD)

    def test_hosts(self):
        text = "hello 65535 4294967295 65535 255 4\n0 0\n100 -51\n30000 32767\n65535 -32768\n"
        self.assertEqual(to_text(from_text(text)), text)

    def test_most(self):
        text = "hello 65535 4294967295 65535 255 255\n" + "65535 -32768\n" * 255
        self.assertLessEqual(len(text), LONGEST_TEXT)
        message = from_text(text)
        self.assertEqual(len(message), LONGEST_HELLO)
        self.assertEqual(to_text(message), text)

    def refused(self, answer, function, given):
        with self.assertRaises(hello.Refused) as refusal:
            function(given)
        self.assertEqual(refusal.exception.answer, answer)

    def test_refused(self):
        self.refused(hello.Answer.HELLO_FORM, to_text, b"")
        for text in ("", BOARD[:-1], BOARD + "\n", BOARD.upper(), BOARD.replace("1 0", "1 -0")):
            self.refused(hello.Answer.TEXT_FORM, from_text, text)
        self.refused(hello.Answer.FIELD_RANGE, from_text, BOARD.replace("12331", "65536"))
        self.refused(hello.Answer.FIELD_RANGE, from_text, BOARD.replace("12331", "1" * 70_000))
        self.refused(hello.Answer.TEXT_FORM, from_text, BOARD.replace("12331", "1" * 70_000 + "x"))

    def test_types(self):
        with self.assertRaises(TypeError):
            from_text(b"hello")
        for wrong in (12, "hello", None, [1, 2]):
            with self.assertRaises(TypeError):
                to_text(wrong)


if __name__ == "__main__":
    unittest.main()
