"""Tests of recovery: what it finds, passes over and refuses."""

import unittest

import hello
from hello import Answer
from hello.capture import LONGEST_INPUT, Recovered, Stretch, of_packets, packets, recover


def folded(octets):
    total = sum(int.from_bytes(octets[i : i + 2].ljust(2, b"\0"), "big") for i in range(0, len(octets), 2))
    while total > 0xFFFF:
        total = total % 0x10000 + total // 0x10000
    return total


def packet(hosts=b"", time=0):
    """A good packet: its hosts are given as octets, four for each."""
    rest = b"\x30\x2b" + time.to_bytes(4, "big") + bytes(2) + bytes((1, len(hosts) // 4)) + hosts
    body = (0xFFFF - folded(rest)).to_bytes(2, "big") + rest
    front = b"\x45\0" + (20 + len(body)).to_bytes(2, "big") + bytes(4) + b"\xff\x3f"
    back = bytes((192, 0, 2, 1, 192, 0, 2, 2))
    return front + (0xFFFF - folded(front + back)).to_bytes(2, "big") + back + body


def capture(packets):
    place, places = 4 + 4 * len(packets), b""
    for octets in packets:
        places += place.to_bytes(4, "big")
        place += len(octets)
    return len(packets).to_bytes(4, "big") + places + b"".join(packets)


PACKETS = [packet(), packet(b"\0\x64\0\0" * 4, 5), packet(time=7)]


class Recovery(unittest.TestCase):
    """Recovery of captures."""

    def refused(self, answer, *arguments):
        with self.assertRaises(hello.Refused) as caught:
            recover(*arguments)
        self.assertIs(caught.exception.answer, answer)

    def test_complete(self):
        complete = capture(PACKETS)
        self.assertEqual(recover(complete), Recovered(complete, [Stretch(0, 16)], True))

    def test_cut(self):
        complete = capture(PACKETS)
        recovered = recover(complete[:17] + complete[18:])
        self.assertEqual(recovered.capture, capture(PACKETS[1:]))
        self.assertEqual(recovered.stretches, [Stretch(0, 47)])
        self.assertFalse(recovered.places_true)

    def test_nothing_found(self):
        self.assertEqual(recover(b""), (bytes(4), [], False))
        self.assertEqual(recover(bytes(4)), (bytes(4), [Stretch(0, 4)], True))
        self.assertEqual(recover(b"\1" * 9).stretches, [Stretch(0, 9)])

    def test_nested(self):
        inner = packet(time=9)
        outer = packet(inner)
        self.assertEqual(recover(outer).capture, capture([outer]))
        self.assertEqual(recover(b"\0" + outer[1:]).capture, capture([inner]))

    def test_refusals(self):
        complete = capture(PACKETS)
        longer = bytes(LONGEST_INPUT + 1)
        self.refused(Answer.CAPTURE_LENGTH, longer)
        self.refused(Answer.CAPTURE_LENGTH, longer, 0, 0)
        self.assertEqual(recover(longer[1:]).capture, bytes(4))
        self.refused(Answer.SHORT_BUFFER, complete, len(complete) - 1)
        self.refused(Answer.SHORT_BUFFER, complete, len(complete), 7)
        self.assertEqual(recover(complete, len(complete), 8).capture, complete)

    def test_types(self):
        for wrong in (65_537, "capture", None, [1]):
            with self.assertRaises(TypeError):
                recover(wrong)

    def test_packets(self):
        self.assertEqual(of_packets(PACKETS), capture(PACKETS))
        self.assertEqual(packets(capture(PACKETS)), PACKETS)
        self.assertEqual(packets(of_packets([])), [])
        for wrong in (b"", bytes(3), capture(PACKETS)[:15], capture(PACKETS)[:-1], b"\0\0\0\1\0\0\0\x09" + PACKETS[0]):
            with self.assertRaises(ValueError):
                packets(wrong)


if __name__ == "__main__":
    unittest.main()
