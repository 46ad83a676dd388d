//! NTP beside HELLO: the 48-octet header of RFC 5905, read and written, and what an association
//! makes of a packet.
//!
//! A call is refused with [`Answer::NtpLength`], [`Answer::NtpVersion`], [`Answer::NtpMode`] or
//! [`Answer::NtpTimestamp`], tested in that order. A refusal leaves the association as it was.

use crate::answer::result;
use crate::Answer;
use std::mem::{offset_of, size_of};

/// The octets of a header.
pub const OCTETS: usize = 48;

/// Error: a passive association ends.
pub const ERR: i8 = -1;
/// The packet is discarded.
pub const DSCRD: i8 = 0;
/// The packet is processed.
pub const PROC: i8 = 1;
/// A client's packet is answered at once.
pub const FXMIT: i8 = 3;
/// A manycast server answers: a client association begins.
pub const MANY: i8 = 4;
/// A passive association begins.
pub const NEWPS: i8 = 5;
/// A broadcast client association begins.
pub const NEWBC: i8 = 6;

/// A header. A timestamp has seconds in its high 32 bits and a fraction of a second in its low.
#[repr(C)]
#[derive(Clone, Copy, Debug, PartialEq, Eq, Default)]
pub struct NtpHeader {
    /// The leap indicator, 0 to 3.
    pub leap: u8,
    /// The version, 4.
    pub version: u8,
    /// The packet mode, 1 to 5.
    pub mode: u8,
    /// The stratum.
    pub stratum: u8,
    /// The poll exponent, a power of two in seconds.
    pub poll: i8,
    /// The precision exponent, a power of two in seconds.
    pub precision: i8,
    /// rootdelay, 16 bits of seconds and 16 of a fraction.
    pub root_delay: u32,
    /// rootdisp, the same.
    pub root_dispersion: u32,
    /// refid.
    pub reference_id: u32,
    /// reftime.
    pub reference: u64,
    /// org, T1.
    pub origin: u64,
    /// rec, T2.
    pub receive: u64,
    /// xmt, T3.
    pub transmit: u64,
}

/// An association.
#[repr(C)]
#[derive(Clone, Copy, Debug, PartialEq, Eq, Default)]
pub struct NtpAssociation {
    /// Its row of the dispatch table: 0 none, 1 to 6.
    pub number: u8,
    /// The time that we last sent.
    pub transmit: u64,
    /// The transmit time that was last taken in.
    pub saved: u64,
}

/// What a packet that is not refused gives.
#[derive(Clone, Copy, Debug, PartialEq, Eq)]
pub struct NtpOutcome {
    /// The action's number.
    pub action: i8,
    /// The offset in units of 1/2^32 s; 0 unless the action is [`PROC`].
    pub offset: i64,
    /// The delay, the same.
    pub delay: i64,
}

#[repr(C)]
struct ReadAnswer {
    answer: u8,
    header: NtpHeader,
}

#[repr(C)]
struct WriteAnswer {
    answer: u8,
    octets: [u8; OCTETS],
}

#[repr(C)]
struct ReceiveAnswer {
    answer: u8,
    action: i8,
    offset: i64,
    delay: i64,
    association: NtpAssociation,
}

// The C interface of `libhello.a`.
extern "C" {
    fn hello_ntp_read(octets: *const u8, length: usize) -> ReadAnswer;
    fn hello_ntp_write(header: NtpHeader) -> WriteAnswer;
    fn hello_ntp_receive(
        association: NtpAssociation,
        octets: *const u8,
        length: usize,
        destination: u64,
    ) -> ReceiveAnswer;
}

// Sizes and places of fields, as the C interface has them; a difference is an error of the build.
const _: () = {
    assert!(size_of::<NtpHeader>() == 56);
    assert!(offset_of!(NtpHeader, poll) == 4);
    assert!(offset_of!(NtpHeader, root_delay) == 8);
    assert!(offset_of!(NtpHeader, reference) == 24);
    assert!(offset_of!(NtpHeader, transmit) == 48);
    assert!(size_of::<NtpAssociation>() == 24);
    assert!(size_of::<ReadAnswer>() == 64 && offset_of!(ReadAnswer, header) == 8);
    assert!(size_of::<WriteAnswer>() == 49 && offset_of!(WriteAnswer, octets) == 1);
    assert!(size_of::<ReceiveAnswer>() == 48 && offset_of!(ReceiveAnswer, action) == 1);
    assert!(offset_of!(ReceiveAnswer, offset) == 8);
    assert!(offset_of!(ReceiveAnswer, association) == 24);
};

/// The fields of a header.
pub fn read(octets: &[u8]) -> Result<NtpHeader, Answer> {
    // SAFETY: a slice is valid for its length.
    let returned = unsafe { hello_ntp_read(octets.as_ptr(), octets.len()) };
    result(returned.answer, returned.header)
}

/// The octets of a header.
pub fn write(header: &NtpHeader) -> Result<[u8; OCTETS], Answer> {
    // SAFETY: all is passed by value.
    let returned = unsafe { hello_ntp_write(*header) };
    result(returned.answer, returned.octets)
}

/// Takes in a packet that arrives at the time `destination`, T4.
/// Only a packet that is processed changes the association: its transmit time is saved.
pub fn receive(
    association: &mut NtpAssociation,
    octets: &[u8],
    destination: u64,
) -> Result<NtpOutcome, Answer> {
    // SAFETY: a slice is valid for its length; the association is passed by value.
    let returned =
        unsafe { hello_ntp_receive(*association, octets.as_ptr(), octets.len(), destination) };
    *association = returned.association;
    result(
        returned.answer,
        NtpOutcome {
            action: returned.action,
            offset: returned.offset,
            delay: returned.delay,
        },
    )
}
