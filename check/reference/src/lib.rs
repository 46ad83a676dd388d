//! The rules of a HELLO host (RFC 891) as a plain program.
//!
//! It shares no code with the proved library and is compared with it call by
//! call. Up to sixteen hosts share one run of table entries, which the caller
//! lends to each call together with the host's own settings, clock, links and
//! walk and the net table of the class.

pub mod address;
pub mod bench;
pub mod capture;
pub mod checklist;
pub mod checksum;
pub mod clock;
pub mod date;
pub mod host;
pub mod link;
pub mod net;
pub mod ntp;
pub mod packet;
pub mod program;
pub mod route;
pub mod settings;
pub mod table;
pub mod text;
pub mod walk;

#[cfg(test)]
mod tests;

pub use address::Address;
pub use clock::{Clock, Counter, Units};
pub use date::Date;
pub use link::{Link, LinkKind, Links, LINKS};
pub use net::{NetRow, NetTable, NET_ROWS};
pub use settings::{Marks, Settings, MARKS};
pub use table::Entry;
pub use walk::{Place, Walk};

/// The hosts that can share one run.
pub const HOSTS: usize = 16;
/// The places of the run that each host owns.
pub const PLACES: usize = 255;

/// Why a call was refused; the values are the published answer numbers.
#[derive(Clone, Copy, Debug, PartialEq, Eq)]
#[repr(u8)]
pub enum Refusal {
    Settings = 1,
    ShortBuffer = 2,
    IpForm = 3,
    IpChecksum = 4,
    Protocol = 5,
    HelloForm = 6,
    HelloChecksum = 7,
    Layout = 8,
    LoopedLine = 9,
    DelayNotValid = 10,
    NoHost = 11,
    Lent = 12,
    HostDown = 13,
    TextForm = 14,
    TextNumber = 15,
    WalkOpen = 16,
    NoWalk = 17,
    FileForm = 18,
    FileRecord = 19,
    NetFull = 21,
    NoRow = 22,
    NtpLength = 23,
    NtpVersion = 24,
    NtpMode = 25,
    NtpTimestamp = 26,
    LongInput = 27,
}

impl From<Refusal> for u8 {
    fn from(refusal: Refusal) -> u8 {
        refusal as u8
    }
}

/// The published answer number of an outcome: 0 where the call was done.
pub fn answer<T>(outcome: &Result<T, Refusal>) -> u8 {
    match outcome {
        Ok(_) => 0,
        Err(refusal) => *refusal as u8,
    }
}
