"""The answers of all calls; docs/answers.txt is their list, with what each changes."""

from __future__ import annotations

import enum


class Answer(enum.IntEnum):
    """What a call answers. In the calls of a host OUT_OF_RANGE is tested first, then IN_WALK, then
    upwards; in the tutor's OUT_OF_RANGE, NO_ROW, TABLE_FULL, SETTING; in set-up and run of a bench
    HEADER, ABSENT, OUT_OF_RANGE."""

    DONE = 0
    SETTING = 1
    SHORT_BUFFER = 2
    IP_FORM = 3
    IP_CHECKSUM = 4
    PROTOCOL = 5
    HELLO_FORM = 6
    HELLO_CHECKSUM = 7
    OTHER_LAYOUT = 8
    LOOPED_LINE = 9
    DELAY_NOT_VALID = 10
    NO_HOST = 11
    OUT_OF_RANGE = 12
    HOST_DOWN = 13
    TEXT_FORM = 14
    FIELD_RANGE = 15
    IN_WALK = 16
    NO_WALK = 17
    HEADER = 18
    ABSENT = 19
    TABLE_FULL = 21
    NO_ROW = 22
    NTP_LENGTH = 23
    NTP_VERSION = 24
    NTP_MODE = 25
    NTP_TIMESTAMP = 26
    CAPTURE_LENGTH = 27

    @property
    def words(self) -> str:
        """What it means."""
        return _WORDS[self]

    def check(self) -> None:
        """Raises Refused unless the call was done."""
        if self is not Answer.DONE:
            raise Refused(self)


# The meanings; check/tests/answers --write makes them from docs/answers.txt.
_WORDS = {
    Answer.DONE: "done",
    Answer.SETTING: "a setting is out of its range, the own id is not marked, an id from NHOSTS on is marked, or NHOSTS is not that of the net table",
    Answer.SHORT_BUFFER: "the buffer is shorter than the message",
    Answer.IP_FORM: "the IP header is not in form",
    Answer.IP_CHECKSUM: "the IP checksum is not good",
    Answer.PROTOCOL: "the IP protocol is not 63",
    Answer.HELLO_FORM: "the HELLO is not in form",
    Answer.HELLO_CHECKSUM: "the HELLO checksum is not good",
    Answer.OTHER_LAYOUT: "the packet has a table, and its NHOSTS or ADDRESS-OFFSET is not ours",
    Answer.LOOPED_LINE: "the source is our own LOCAL-ADDRESS, on a point-to-point link",
    Answer.DELAY_NOT_VALID: "the delay is not valid: from the neighbor on a point-to-point link, the packet's TSP is 0 or HOLD is not 0",
    Answer.NO_HOST: "the address has no id",
    Answer.OUT_OF_RANGE: "the host's number is over 15; the link is not from 1 to the host's count (8 at most); the host's 255 places are not all in the host table; the copy of a walk to open has no space for 1,052 octets; the net table is bad: over 32 rows, an NHOSTS not 1 to 255 or a row's id not below it; other state of the caller is out of range; or an entry's mark is not the settings'. Of a bench: state smaller than the file needs; in a run also a filled slot with a length over 1,052, an absent cable or an end other than 0 and 1, or more events done than the file has",
    Answer.HOST_DOWN: "the host looked up is down: its DELAY is 30,000",
    Answer.TEXT_FORM: "the text has another form, its number of lines included",
    Answer.FIELD_RANGE: "a number of the text does not fit its field",
    Answer.IN_WALK: "the host is in the middle of a walk",
    Answer.NO_WALK: "no walk is open",
    Answer.HEADER: "the file's header or length: a count over its most, a start that is not where the section before it ends, or another length",
    Answer.ABSENT: "a record of the file names something that is not there, or has settings that 1 refuses",
    Answer.TABLE_FULL: "the net table has 32 rows",
    Answer.NO_ROW: "there is no row of that number; none is number 0",
    Answer.NTP_LENGTH: "the header has not 48 octets",
    Answer.NTP_VERSION: "the version is not 4",
    Answer.NTP_MODE: "the packet mode or the association is outside the table, or the leap is over 3",
    Answer.NTP_TIMESTAMP: "one of the four tests of the times failed",
    Answer.CAPTURE_LENGTH: "the capture has over 65,536 octets",
}


class Refused(ValueError):
    """A call was refused: `answer`, an Answer, says why. It changed what its answer says, mostly nothing."""

    def __init__(self, answer: int) -> None:
        self.answer = Answer(answer)
        super().__init__(f"answer {self.number} ({self.answer.name}): {self.words}")

    @property
    def number(self) -> int:
        """The number of the answer."""
        return int(self.answer)

    @property
    def words(self) -> str:
        """What it means."""
        return self.answer.words

    def __reduce__(self) -> tuple[type[Refused], tuple[int]]:
        return Refused, (self.number,)
