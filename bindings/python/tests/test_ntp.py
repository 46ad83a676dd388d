"""Tests of the module hello.ntp."""

import struct
import unittest

from hello import Refused, ntp
from hello.ntp import Association, Header, Outcome

SECOND = 1 << 32
TIME = 0xE8F1A2B4 * SECOND
HEADER = Header(
    leap=3,
    mode=4,
    stratum=1,
    poll=6,
    precision=-20,
    root_delay=2621,
    root_dispersion=7936,
    reference_id=0x47505300,
    reference=TIME,
    origin=TIME + 1,
    receive=TIME + 2,
    transmit=TIME + 3,
)
TABLE = [
    [ntp.NEWPS, ntp.DSCRD, ntp.FXMIT, ntp.MANY, ntp.NEWBC],
    [ntp.PROC, ntp.PROC, ntp.DSCRD, ntp.DSCRD, ntp.DSCRD],
    [ntp.PROC, ntp.ERR, ntp.DSCRD, ntp.DSCRD, ntp.DSCRD],
    [ntp.DSCRD, ntp.DSCRD, ntp.DSCRD, ntp.PROC, ntp.DSCRD],
    [ntp.DSCRD] * 5,
    [ntp.DSCRD] * 5,
    [ntp.DSCRD, ntp.DSCRD, ntp.DSCRD, ntp.DSCRD, ntp.PROC],
]


class Ntp(unittest.TestCase):
    def refused(self, answer, call, *arguments):
        with self.assertRaises(Refused) as caught:
            call(*arguments)
        self.assertEqual(caught.exception.answer, answer)

    def test_octets(self):
        octets = struct.pack(
            ">BBbbIIIQQQQ", 3 << 6 | 4 << 3 | 4, 1, 6, -20, 2621, 7936, 0x47505300, *HEADER[9:]
        )
        self.assertEqual(ntp.write(HEADER), octets)
        self.assertEqual(ntp.read(octets), HEADER)

    def test_refusals(self):
        octets = ntp.write(HEADER)
        for wrong in (b"", octets[:47], octets + b"\0"):
            self.refused(23, ntp.read, wrong)
        self.refused(24, ntp.read, bytes([3 << 6 | 3 << 3]) + octets[1:])
        for mode in (0, 6, 7):
            self.refused(25, ntp.read, bytes([4 << 3 | mode]) + octets[1:])
            self.refused(25, ntp.write, HEADER._replace(mode=mode))
        self.refused(24, ntp.write, HEADER._replace(version=3, mode=0, leap=4))
        self.refused(25, ntp.write, HEADER._replace(leap=4))
        self.refused(25, ntp.receive, Association(7), octets, 0)
        with self.assertRaises(OverflowError):
            ntp.write(HEADER._replace(poll=128))
        for wrong in (48, "header", None):
            with self.assertRaises(TypeError):
                ntp.read(wrong)

    def test_dispatch(self):
        for number in range(7):
            for mode in range(1, 6):
                association = Association(number, TIME, 0)
                header = HEADER._replace(mode=mode, origin=TIME, receive=TIME, transmit=TIME)
                outcome = ntp.receive(association, ntp.write(header), TIME + 2)
                self.assertEqual(outcome.action, TABLE[number][mode - 1])
                if outcome.action == ntp.PROC:
                    self.assertEqual((outcome.offset, outcome.delay), (-1, 2))
                    self.assertEqual(association.saved, TIME)
                else:
                    self.assertEqual((outcome.offset, outcome.delay, association.saved), (0, 0, 0))

    def test_exchange(self):
        # The server is 5 s ahead; the ways take 2 s and 1 s, and it kept the packet for 4 s.
        association = Association(3, TIME, 9)
        header = HEADER._replace(
            origin=TIME, receive=TIME + 7 * SECOND, transmit=TIME + 11 * SECOND
        )
        outcome = ntp.receive(association, ntp.write(header), TIME + 7 * SECOND)
        self.assertEqual(outcome, Outcome(ntp.PROC, 11 * SECOND // 2, 3 * SECOND))
        self.assertEqual(association.saved, header.transmit)
        self.refused(26, ntp.receive, association, ntp.write(header), TIME + 7 * SECOND)

    def test_timestamp_tests(self):
        good = dict(origin=TIME, receive=TIME, transmit=TIME + 1)
        tests = [
            (good | dict(transmit=0), TIME + 2),
            (good | dict(origin=TIME + 1), TIME + 2),
            (good | dict(transmit=7), TIME + 2),
            (good, TIME),
            (good, TIME - 1),
            (good, (TIME + (1 << 63)) % (1 << 64)),
        ]
        for fields, destination in tests:
            association = Association(3, TIME, 7)
            octets = ntp.write(HEADER._replace(**fields))
            self.refused(26, ntp.receive, association, octets, destination)
            self.assertEqual(association.saved, 7)
        octets = ntp.write(HEADER._replace(**good))
        ntp.receive(Association(3, TIME, 7), octets, (TIME + (1 << 63) - 1) % (1 << 64))

    def test_ends(self):
        # T2 - T1 and T3 - T4 are both -2^63: their full sum is halved.
        half = 1 << 63
        association = Association(3, 1, 0)
        header = HEADER._replace(origin=1, receive=1 + half, transmit=2 + half)
        outcome = ntp.receive(association, ntp.write(header), 2)
        self.assertEqual(outcome, Outcome(ntp.PROC, -half, 0))


if __name__ == "__main__":
    unittest.main()
