//! A HELLO host of RFC 891: safe calls of the proved library `libhello.a`.
//!
//! A [`Room`] keeps up to sixteen hosts, their host tables, and the net table of their class, which all
//! use and the tutor changes by the calls of [`ClassTable`]. A [`Host`] of it has settings, a clock and
//! links, and the calls as methods. Every call ends with `Ok` or with an [`Answer`] that says why it was
//! refused, whatever the state is, and needs no other call before it.
//!
//! A packet that arrives is taken in one piece by [`Host::receive`], or in two by [`Host::inspect`]
//! and [`Host::act`], or one box at a time: [`Host::open_walk`] opens a walk, and [`Host::step`]
//! makes one step of the arrival, or one line of a host's update. Meanwhile the host refuses its
//! other calls with [`Answer::InWalk`], except [`Host::initialize`], which drops the walk.
//!
//! A [`Bench`] runs an exercise that is in one file, its hosts, cables and events: a
//! [`bench_file::File`]. [`text`] writes messages as text and reads them, [`capture`] recovers captures,
//! [`ntp`] reads and writes NTP headers.
//!
//! A [`State`] borrows the parts of a host from a program that keeps them in its own way, and has the
//! plain calls.

#![deny(missing_docs)]
#![deny(clippy::undocumented_unsafe_blocks)]

pub mod answer;
pub mod bench;
pub mod bench_file;
pub mod capture;
mod host;
mod layout;
mod library;
pub mod nets;
pub mod ntp;
mod room;
mod state;
mod sums;
pub mod text;
mod types;

pub use answer::Answer;
pub use bench::Bench;
pub use host::{Found, Host, Reading, Seen};
pub use room::Room;
pub use state::State;
pub use sums::checksum_plain;
pub use types::*;

/// The number of a new host's answer to `octets` on its one point-to-point link. The host is 192.0.2.1,
/// ADDRESS-OFFSET 1, NHOSTS 4, time 0, 1 January 1972, without net rows or clock host.
pub fn packet(octets: &[u8]) -> u8 {
    // SAFETY: a slice is valid for its length.
    unsafe { library::hello_packet(octets.as_ptr(), octets.len()) }
}

/// The DATE word of a calendar day with bit 15 zero; none if there is no such day from 1 January 1972 to
/// 31 December 2003.
///
/// ```
/// assert_eq!(hello::date(1984, 2, 29), Some(2 << 10 | 29 << 5 | 12));
/// assert_eq!(hello::date(1983, 2, 29), None);
/// ```
pub fn date(year: u16, month: u16, day: u16) -> Option<u16> {
    // SAFETY: all is passed by value.
    let word = unsafe { library::hello_date(year, month, day) };
    (word != 0).then_some(word)
}

/// The internet checksum (RFC 1071): the complement of the folded one's complement sum of all
/// words of `octets`, high octet first.
pub fn checksum(octets: &[u8]) -> u16 {
    // SAFETY: a slice is valid for its length.
    unsafe { library::hello_checksum(octets.as_ptr(), octets.len()) }
}
