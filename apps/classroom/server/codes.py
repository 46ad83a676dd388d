"""Short codes of the seats, which are on the students' slips: each is exchanged for the seat's key."""

import hmac
import secrets
import time
from collections import deque

LETTERS = "23456789ABCDEFGHJKMNPQRSTUVWXYZ"
"""No two of them look alike."""
LENGTH = 6
MINUTE = 60
OF_AN_ADDRESS, IN_ALL = 6, 60
"""This many wrong codes are taken in a minute; then none at all."""


def new_codes(seats):
    """A code for each seat, no two alike."""
    codes = []
    while len(codes) < seats:
        code = "".join(secrets.choice(LETTERS) for _ in range(LENGTH))
        if code not in codes:
            codes.append(code)
    return codes


class Codes:
    """The codes, and the wrong ones of the last minute."""

    def __init__(self, codes, clock=time.monotonic):
        self._codes = codes
        self._clock = clock
        self._wrong = deque()

    @property
    def seats(self):
        """How many seats there are."""
        return len(self._codes)

    def of(self, seat):
        """The code of a seat."""
        return self._codes[seat]

    def wait(self, address):
        """Whether an address has to wait before it may try again."""
        while self._wrong and self._wrong[0][0] <= self._clock() - MINUTE:
            self._wrong.popleft()
        own = sum(of == address for _, of in self._wrong)
        return own >= OF_AN_ADDRESS or len(self._wrong) >= IN_ALL

    def right(self, address, seat, code):
        """Whether this is the seat's code. A wrong one is counted."""
        given = "".join(code.upper().split()).replace("-", "")
        if 0 <= seat < len(self._codes):
            if hmac.compare_digest(given.encode("utf-8", "replace"), self._codes[seat].encode()):
                return True
        self._wrong.append((self._clock(), address))
        return False
