//! The answers of all calls. `docs/answers.txt` is their list.

use std::error::Error;
use std::fmt;

/// What a call answers, and the one error type of this crate. Every call of a host tests
/// [`Answer::OutOfRange`] first, then [`Answer::InWalk`], then upwards in number; the tutor's test
/// [`Answer::OutOfRange`], [`Answer::NoRow`], [`Answer::TableFull`], [`Answer::Setting`], in this
/// order; those of a bench [`Answer::Header`], [`Answer::Absent`], [`Answer::OutOfRange`].
/// What a refusal changes is said with it; if nothing is said, nothing is changed.
#[repr(u8)]
#[derive(Clone, Copy, Debug, PartialEq, Eq, PartialOrd, Ord, Hash)]
pub enum Answer {
    /// The call changed what its rule says.
    Done = 0,
    /// A setting is out of its range, the own id is not marked, a mark lies at NHOSTS or above, or
    /// NHOSTS is not that of the class's table. Of the tutor: NHOSTS is not 1 to 255, or the id not
    /// below it.
    Setting = 1,
    /// The send's buffer is shorter than the message.
    ShortBuffer = 2,
    /// The IP header is not in form.
    IpForm = 3,
    /// The IP checksum is not good.
    IpChecksum = 4,
    /// The IP protocol is not 63.
    Protocol = 5,
    /// The HELLO is not in form.
    HelloForm = 6,
    /// The HELLO checksum is not good.
    HelloChecksum = 7,
    /// The packet has a table, and its NHOSTS or ADDRESS-OFFSET is not ours.
    OtherLayout = 8,
    /// The source is our own LOCAL-ADDRESS, on a point-to-point link.
    LoopedLine = 9,
    /// The delay is not valid: the packet's TSP is 0, or HOLD is not. The clock is changed, by its
    /// reading, and the link's KEEP-ALIVE and TSP are; a walk ends.
    DelayNotValid = 10,
    /// The address has no id. A lookup changes nothing; `act` and `receive` change the clock, by
    /// its reading, and the link's KEEP-ALIVE, TSP and NEIGHBOR-ADDRESS; a walk ends.
    NoHost = 11,
    /// The host's number is over 15; the link is not from 1 to the host's count (8 at most); the
    /// host's 255 places are not all in the host table; if a walk is opened, its copy has no room for
    /// 1,052 octets; the class's table has over 32 rows, an NHOSTS not 1 to 255 or a row's id not
    /// below it; something else that is borrowed is out of range; or the mark of one of the host's first NHOSTS
    /// entries is not that of the settings. Of a bench: something borrowed is too short for its file,
    /// the class's table is bad, a slot's packet is on a cable that the file has not, or more events
    /// are done than it has.
    OutOfRange = 12,
    /// The host looked up is down: its DELAY is 30,000.
    HostDown = 13,
    /// The text of a message has another form, its number of lines included.
    TextForm = 14,
    /// A number of a text does not fit its field.
    FieldRange = 15,
    /// The host is in the middle of a walk: it refuses all calls but `initialize` and `step`.
    InWalk = 16,
    /// A step was asked, and no walk is open.
    NoWalk = 17,
    /// A bench file's header or length: a count over its most, a start that is not where the section
    /// before it ends, or another length.
    Header = 18,
    /// A record of a bench file names something that is not there, or has settings that 1 refuses.
    Absent = 19,
    /// 32 rows stand in the class's table.
    TableFull = 21,
    /// There is no row of that number; none is number 0.
    NoRow = 22,
    /// The NTP header has not 48 octets.
    NtpLength = 23,
    /// The NTP version is not 4.
    NtpVersion = 24,
    /// The NTP packet mode is not 1 to 5, the association's number is over 6, or, in a header to be
    /// written, leap is over 3.
    NtpMode = 25,
    /// One of the four timestamp tests of NTP failed.
    NtpTimestamp = 26,
    /// The capture to recover has over 65,536 octets.
    CaptureLength = 27,
}

impl Answer {
    /// All answers, rising in number.
    pub const ALL: [Answer; 27] = [
        Answer::Done,
        Answer::Setting,
        Answer::ShortBuffer,
        Answer::IpForm,
        Answer::IpChecksum,
        Answer::Protocol,
        Answer::HelloForm,
        Answer::HelloChecksum,
        Answer::OtherLayout,
        Answer::LoopedLine,
        Answer::DelayNotValid,
        Answer::NoHost,
        Answer::OutOfRange,
        Answer::HostDown,
        Answer::TextForm,
        Answer::FieldRange,
        Answer::InWalk,
        Answer::NoWalk,
        Answer::Header,
        Answer::Absent,
        Answer::TableFull,
        Answer::NoRow,
        Answer::NtpLength,
        Answer::NtpVersion,
        Answer::NtpMode,
        Answer::NtpTimestamp,
        Answer::CaptureLength,
    ];

    /// The answer of that number.
    pub fn of(number: u8) -> Option<Answer> {
        Answer::ALL
            .into_iter()
            .find(|answer| answer.number() == number)
    }

    /// The published number.
    pub const fn number(self) -> u8 {
        self as u8
    }

    /// What it means. `check/tests/answers --write` makes these words from `docs/answers.txt`.
    #[rustfmt::skip]
    pub const fn words(self) -> &'static str {
        match self {
            Answer::Done => "done",
            Answer::Setting => "a setting is out of its range, the own id is not marked, an id from NHOSTS on is marked, or NHOSTS is not that of the net table",
            Answer::ShortBuffer => "the buffer is shorter than the message",
            Answer::IpForm => "the IP header is not in form",
            Answer::IpChecksum => "the IP checksum is not good",
            Answer::Protocol => "the IP protocol is not 63",
            Answer::HelloForm => "the HELLO is not in form",
            Answer::HelloChecksum => "the HELLO checksum is not good",
            Answer::OtherLayout => "the packet has a table, and its NHOSTS or ADDRESS-OFFSET is not ours",
            Answer::LoopedLine => "the source is our own LOCAL-ADDRESS, on a point-to-point link",
            Answer::DelayNotValid => "the delay is not valid: from the neighbor on a point-to-point link, the packet's TSP is 0 or HOLD is not 0",
            Answer::NoHost => "the address has no id",
            Answer::OutOfRange => "the host's number is over 15; the link is not from 1 to the host's count (8 at most); the host's 255 places are not all in the host table; the copy of a walk to open has no space for 1,052 octets; the net table is bad: over 32 rows, an NHOSTS not 1 to 255 or a row's id not below it; other state of the caller is out of range; or an entry's mark is not the settings'. Of a bench: state smaller than the file needs; in a run also a filled slot with a length over 1,052, an absent cable or an end other than 0 and 1, or more events done than the file has",
            Answer::HostDown => "the host looked up is down: its DELAY is 30,000",
            Answer::TextForm => "the text has another form, its number of lines included",
            Answer::FieldRange => "a number of the text does not fit its field",
            Answer::InWalk => "the host is in the middle of a walk",
            Answer::NoWalk => "no walk is open",
            Answer::Header => "the file's header or length: a count over its most, a start that is not where the section before it ends, or another length",
            Answer::Absent => "a record of the file names something that is not there, or has settings that 1 refuses",
            Answer::TableFull => "the net table has 32 rows",
            Answer::NoRow => "there is no row of that number; none is number 0",
            Answer::NtpLength => "the header has not 48 octets",
            Answer::NtpVersion => "the version is not 4",
            Answer::NtpMode => "the packet mode or the association is outside the table, or the leap is over 3",
            Answer::NtpTimestamp => "one of the four tests of the times failed",
            Answer::CaptureLength => "the capture has over 65,536 octets",
        }
    }

    /// Whether the call was done.
    pub fn is_done(self) -> bool {
        self == Answer::Done
    }

    /// The same as a result, for `?`: a refusal is the error.
    pub fn ok(self) -> Result<(), Answer> {
        match self {
            Answer::Done => Ok(()),
            refusal => Err(refusal),
        }
    }
}

/// The answer of a number that a call returned.
pub(crate) fn given(number: u8) -> Answer {
    Answer::of(number).expect("a call returns a number of the table")
}

/// The value if a call was done, and the refusal otherwise.
pub(crate) fn result<T>(number: u8, value: T) -> Result<T, Answer> {
    given(number).ok().map(|()| value)
}

impl fmt::Display for Answer {
    fn fmt(&self, out: &mut fmt::Formatter) -> fmt::Result {
        write!(out, "answer {} ({self:?}): {}", self.number(), self.words())
    }
}

impl Error for Answer {}
