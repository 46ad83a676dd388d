//! The plain calls: each borrows the state of one host and returns the number of an
//! [`Answer`](crate::Answer). They are for programs that keep settings, clocks, links, walks and entries
//! in another way than a [`Room`](crate::Room).

use crate::library;
use crate::{Address, ClassTable, Clock, Counter, Entry, Inspected, Links, Route, Sent, Settings};
use crate::{Stepped, Time, Walk};

/// All that a call on a host borrows.
///
/// Host k, from 0 to 15, owns the 255 entries from 255 k, and only the first NHOSTS of them are ever
/// changed; so there must be at least 255 k + 255 entries.
#[derive(Debug)]
pub struct State<'a> {
    /// The settings of the host.
    pub settings: &'a Settings,
    /// The table of the class.
    pub table: &'a ClassTable,
    /// The number of the host, from 0.
    pub number: usize,
    /// Its clock.
    pub clock: &'a mut Clock,
    /// Its links.
    pub links: &'a mut Links,
    /// Its walk, closed unless one is open.
    pub walk: &'a mut Walk,
    /// The copy of the walk's packet; only [`State::open_walk`] changes it.
    pub copy: &'a mut [u8],
    /// The entries of all hosts.
    pub entries: &'a mut [Entry],
}

impl State<'_> {
    /// Initializes the host: the clock, all links and the first NHOSTS entries, each with the mark
    /// of its id, by the settings. A walk is dropped.
    pub fn initialize(&mut self) -> u8 {
        // SAFETY: references and slices are valid and aligned, and do not overlap since the state
        // borrows each of them alone; all their octets are initialized.
        unsafe {
            library::hello_initialize(
                self.settings,
                self.table,
                self.number,
                self.clock,
                self.links,
                self.walk,
                self.copy.as_ptr(),
                self.copy.len(),
                self.entries.as_mut_ptr(),
                self.entries.len(),
            )
        }
    }

    /// Adds CLOCK-TICK to the clock. Midnight is tested on CLOCK plus `count`, the crystal's count (0
    /// for a line clock); so also in `adjust` and `set`.
    pub fn tick(&mut self, count: u16) -> u8 {
        // SAFETY: references and slices are valid and aligned, and do not overlap since the state
        // borrows each of them alone; all their octets are initialized.
        unsafe {
            library::hello_tick(
                self.settings,
                self.table,
                self.number,
                self.clock,
                self.links,
                self.walk,
                self.copy.as_ptr(),
                self.copy.len(),
                self.entries.as_ptr(),
                self.entries.len(),
                count,
            )
        }
    }

    /// Moves the clock by DELTA / 128, rounded down, which DELTA loses.
    pub fn adjust(&mut self, count: u16) -> u8 {
        // SAFETY: references and slices are valid and aligned, and do not overlap since the state
        // borrows each of them alone; all their octets are initialized.
        unsafe {
            library::hello_adjust(
                self.settings,
                self.table,
                self.number,
                self.clock,
                self.links,
                self.walk,
                self.copy.as_ptr(),
                self.copy.len(),
                self.entries.as_ptr(),
                self.entries.len(),
                count,
            )
        }
    }

    /// Corrects the clock by `ms`: from -128 to +127 it becomes DELTA, which `adjust` spends;
    /// otherwise the clock is moved at once and HOLD is loaded.
    pub fn set(&mut self, ms: i32, count: u16) -> u8 {
        // SAFETY: references and slices are valid and aligned, and do not overlap since the state
        // borrows each of them alone; all their octets are initialized.
        unsafe {
            library::hello_set(
                self.settings,
                self.table,
                self.number,
                self.clock,
                self.links,
                self.walk,
                self.copy.as_ptr(),
                self.copy.len(),
                self.entries.as_ptr(),
                self.entries.len(),
                ms,
                count,
            )
        }
    }

    /// The integer milliseconds of CLOCK plus the count, and the DATE word. What a mark adds to the clock
    /// stays, and midnight is tested on the sum; so at every reading.
    pub fn read(&mut self, counter: Counter) -> Time {
        // SAFETY: references and slices are valid and aligned, and do not overlap since the state
        // borrows each of them alone; all their octets are initialized.
        unsafe {
            library::hello_read(
                self.settings,
                self.table,
                self.number,
                self.clock,
                self.links,
                self.walk,
                self.copy.as_ptr(),
                self.copy.len(),
                self.entries.as_ptr(),
                self.entries.len(),
                counter,
            )
        }
    }

    /// A second has passed: HOLD and each TTL fall by one, and an entry whose TTL ends goes down.
    pub fn second(&mut self) -> u8 {
        // SAFETY: references and slices are valid and aligned, and do not overlap since the state
        // borrows each of them alone; all their octets are initialized.
        unsafe {
            library::hello_second(
                self.settings,
                self.table,
                self.number,
                self.clock,
                self.links,
                self.walk,
                self.copy.as_ptr(),
                self.copy.len(),
                self.entries.as_mut_ptr(),
                self.entries.len(),
            )
        }
    }

    /// Updates the entry of each marked id, in rising order, with PID 0, DELAY 0 and OFFSET 0, all at the
    /// time of one reading.
    pub fn self_report(&mut self, counter: Counter) -> u8 {
        // SAFETY: references and slices are valid and aligned, and do not overlap since the state
        // borrows each of them alone; all their octets are initialized.
        unsafe {
            library::hello_self_report(
                self.settings,
                self.table,
                self.number,
                self.clock,
                self.links,
                self.walk,
                self.copy.as_ptr(),
                self.copy.len(),
                self.entries.as_mut_ptr(),
                self.entries.len(),
                counter,
            )
        }
    }

    /// Writes the next message of link `link`, from 1, to the start of `buffer`; a message has 32
    /// octets, or with the host table 32 + 4 NHOSTS. Octets after it stay. The clock is read once, as
    /// by `read`, unless it answers 1, 2, 12 or 16.
    pub fn send(&mut self, link: usize, counter: Counter, buffer: &mut [u8]) -> Sent {
        // SAFETY: references and slices are valid and aligned, and do not overlap since the state
        // borrows each of them alone; all their octets are initialized.
        unsafe {
            library::hello_send(
                self.settings,
                self.table,
                self.number,
                self.clock,
                self.links,
                self.walk,
                self.copy.as_ptr(),
                self.copy.len(),
                self.entries.as_ptr(),
                self.entries.len(),
                link,
                counter,
                buffer.as_mut_ptr(),
                buffer.len(),
            )
        }
    }

    /// Looks at a packet, IP header first, that arrived on link `link`, from 1: would it be taken, and
    /// what does it say? Nothing is changed.
    pub fn inspect(&mut self, link: usize, packet: &[u8]) -> Inspected {
        // SAFETY: references and slices are valid and aligned, and do not overlap since the state
        // borrows each of them alone; all their octets are initialized.
        unsafe {
            library::hello_inspect(
                self.settings,
                self.table,
                self.number,
                self.clock,
                self.links,
                self.walk,
                self.copy.as_ptr(),
                self.copy.len(),
                self.entries.as_ptr(),
                self.entries.len(),
                link,
                packet.as_ptr(),
                packet.len(),
            )
        }
    }

    /// Acts on a packet, IP header first, that arrived on link `link`, from 1. Any calls may have come
    /// since `inspect`, so it tests the packet again. The clock is read once, as by `read`, unless it
    /// answers 1 to 9, 12 or 16.
    pub fn act(&mut self, link: usize, counter: Counter, packet: &[u8]) -> u8 {
        // SAFETY: references and slices are valid and aligned, and do not overlap since the state
        // borrows each of them alone; all their octets are initialized.
        unsafe {
            library::hello_act(
                self.settings,
                self.table,
                self.number,
                self.clock,
                self.links,
                self.walk,
                self.copy.as_ptr(),
                self.copy.len(),
                self.entries.as_mut_ptr(),
                self.entries.len(),
                link,
                counter,
                packet.as_ptr(),
                packet.len(),
            )
        }
    }

    /// An arrival in one piece: `inspect` and, if that answers 0, `act`.
    pub fn receive(&mut self, link: usize, counter: Counter, packet: &[u8]) -> u8 {
        // SAFETY: references and slices are valid and aligned, and do not overlap since the state
        // borrows each of them alone; all their octets are initialized.
        unsafe {
            library::hello_receive(
                self.settings,
                self.table,
                self.number,
                self.clock,
                self.links,
                self.walk,
                self.copy.as_ptr(),
                self.copy.len(),
                self.entries.as_mut_ptr(),
                self.entries.len(),
                link,
                counter,
                packet.as_ptr(),
                packet.len(),
            )
        }
    }

    /// Opens a walk for a packet, IP header first, that arrived on link `link`, from 1: the packet is
    /// copied to the start of `copy`, which must have room for [`LONGEST_MESSAGE`](crate::LONGEST_MESSAGE) octets, and step 1 is
    /// next. Nothing else is changed, and the clock is not read.
    pub fn open_walk(&mut self, link: usize, packet: &[u8]) -> Stepped {
        // SAFETY: references and slices are valid and aligned, and do not overlap since the state
        // borrows each of them alone; all their octets are initialized.
        unsafe {
            library::hello_open_walk(
                self.settings,
                self.table,
                self.number,
                self.clock,
                self.links,
                self.walk,
                self.copy.as_mut_ptr(),
                self.copy.len(),
                self.entries.as_ptr(),
                self.entries.len(),
                link,
                packet.as_ptr(),
                packet.len(),
            )
        }
    }

    /// Makes the changes of the place that the walk is at, and returns the next. The clock is read
    /// once, as by `read`, at step 1; at the others the counter is not looked at.
    pub fn step(&mut self, counter: Counter) -> Stepped {
        // SAFETY: references and slices are valid and aligned, and do not overlap since the state
        // borrows each of them alone; all their octets are initialized.
        unsafe {
            library::hello_step(
                self.settings,
                self.table,
                self.number,
                self.clock,
                self.links,
                self.walk,
                self.copy.as_ptr(),
                self.copy.len(),
                self.entries.as_mut_ptr(),
                self.entries.len(),
                counter,
            )
        }
    }

    /// The host id and the link by which `address` is reached. Nothing is changed.
    pub fn lookup(&mut self, address: Address) -> Route {
        // SAFETY: references and slices are valid and aligned, and do not overlap since the state
        // borrows each of them alone; all their octets are initialized.
        unsafe {
            library::hello_lookup(
                self.settings,
                self.table,
                self.number,
                self.clock,
                self.links,
                self.walk,
                self.copy.as_ptr(),
                self.copy.len(),
                self.entries.as_ptr(),
                self.entries.len(),
                address,
            )
        }
    }
}
