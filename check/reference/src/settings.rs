//! The settings of a host and their test.

use crate::address::Address;
use crate::clock::{Units, DAY_MS};
use crate::date::Date;
use crate::link::{LinkKind, LINKS};
use crate::net::NetTable;
use crate::route;
use crate::PLACES;

/// The clock host id that switches clock setting off.
pub const CLOCK_SETTING_OFF: u8 = 255;
/// The ids that can have a mark: one more than a table can have entries, so
/// that a mark at 255 is always "at NHOSTS or above".
pub const MARKS: usize = 256;
/// The longest CLOCK-TICK, between two overflows of a 16-bit counter.
const MOST_TICK: Units = Units::from_ms(65_536);

/// The mark "lives here" of each id.
pub type Marks = [bool; MARKS];

/// The marks of some ids.
pub const fn marks_of<const COUNT: usize>(ids: [u8; COUNT]) -> Marks {
    let mut marks = [false; MARKS];
    let mut place = 0;
    while place < COUNT {
        marks[ids[place] as usize] = true;
        place += 1;
    }
    marks
}

#[derive(Clone, Copy, Debug, PartialEq, Eq)]
pub struct Settings {
    pub address: Address,
    pub address_offset: u8,
    pub nhosts: usize,
    /// Which ids live here, the own id among them.
    pub marks: Marks,
    pub clock_host: u8,
    /// In seconds.
    pub hold_interval: u16,
    pub clock_tick: Units,
    /// The starting time in milliseconds.
    pub time: i64,
    /// The starting date.
    pub date: Date,
    pub link_count: usize,
    pub links: [LinkKind; LINKS],
}

impl Settings {
    /// The links there are, also where too many are set.
    pub fn usable_links(&self) -> usize {
        self.link_count.min(LINKS)
    }

    /// The entries there are, also where too many are set.
    pub fn usable_hosts(&self) -> usize {
        self.nhosts.min(PLACES)
    }

    /// Whether 1 lets the settings pass beside the class's table, which
    /// must have the same NHOSTS.
    pub fn suit(&self, net: &NetTable) -> bool {
        self.are_sound() && self.nhosts == net.nhosts
    }

    pub fn are_sound(&self) -> bool {
        (1..=223).contains(&self.address.0[0])
            && (1..=PLACES).contains(&self.nhosts)
            && (self.clock_host == CLOCK_SETTING_OFF || usize::from(self.clock_host) < self.nhosts)
            && (1..=255).contains(&self.hold_interval)
            && (Units(1)..=MOST_TICK).contains(&self.clock_tick)
            && (0..DAY_MS).contains(&self.time)
            && self.date.is_real()
            && (1..=LINKS).contains(&self.link_count)
            && !self.links[..self.usable_links()].contains(&LinkKind::Neither)
            && route::own_id(self).is_some_and(|id| self.marks[id])
            && !self.marks[self.usable_hosts()..].contains(&true)
    }

    /// The marked ids in rising order.
    pub fn marked_ids(&self) -> impl Iterator<Item = usize> + '_ {
        (0..MARKS).filter(|id| self.marks[*id])
    }
}
