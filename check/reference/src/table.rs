//! The entries of a host table and how reports change them.

use crate::clock::DAY_MS;
use crate::link::LINKS;

/// MAXDELAY in milliseconds: an entry with this DELAY is down.
pub const MAX_DELAY: i64 = 30_000;
/// MINDELAY in milliseconds.
pub const MIN_DELAY: i64 = 100;
/// Seconds for which an entry stays up unheard, or is held down.
pub const HOLD_DOWN: u16 = 120;

#[derive(Clone, Copy, Debug, PartialEq, Eq)]
pub struct Entry {
    /// DELAY in milliseconds.
    pub delay: i64,
    /// OFFSET in milliseconds.
    pub offset: i16,
    /// TTL in seconds.
    pub ttl: u16,
    pub pid: u8,
    /// The reading, in milliseconds, at the last store.
    pub updated: i64,
    /// The mark "lives here", 1 or 0; only setting afresh writes it.
    pub here: u8,
}

/// What is reported of a host: by a neighbour, or by the host itself as PID 0.
#[derive(Clone, Copy, Debug)]
pub struct Report {
    pub delay: i64,
    pub offset: i16,
    pub pid: u8,
    pub reading: i64,
}

impl Entry {
    pub const FRESH: Entry = Entry {
        delay: MAX_DELAY,
        offset: 0,
        ttl: 0,
        pid: 0,
        updated: 0,
        here: 0,
    };

    /// A fresh entry with its mark.
    pub fn fresh(lives_here: bool) -> Entry {
        Entry {
            here: lives_here.into(),
            ..Entry::FRESH
        }
    }

    pub fn in_range(&self) -> bool {
        (0..=MAX_DELAY).contains(&self.delay)
            && self.ttl <= HOLD_DOWN
            && usize::from(self.pid) <= LINKS
            && (0..=DAY_MS).contains(&self.updated)
    }

    /// Whether the mark is that of the settings.
    pub fn is_marked(&self, lives_here: bool) -> bool {
        self.here == u8::from(lives_here)
    }

    pub fn is_up(&self) -> bool {
        self.delay < MAX_DELAY
    }

    /// Updates the entry by a report; whether it was stored.
    pub fn update(&mut self, report: &Report) -> bool {
        if self.pid != report.pid && report.delay + MIN_DELAY > self.delay {
            return false;
        }
        let report_is_up = report.delay < MAX_DELAY;
        if self.is_up() {
            if !report_is_up {
                self.take_down();
                return false;
            }
        } else if !report_is_up || self.ttl != 0 {
            return false;
        }
        *self = Entry {
            delay: report.delay,
            offset: report.offset,
            ttl: HOLD_DOWN,
            pid: report.pid,
            updated: report.reading,
            here: self.here,
        };
        true
    }

    /// One second goes by.
    pub fn second(&mut self) {
        if self.ttl == 0 {
            return;
        }
        self.ttl -= 1;
        if self.ttl == 0 && self.is_up() {
            self.take_down();
        }
    }

    /// The DELAY advertised to the neighbour on a link. A route by way of that link
    /// is advertised as down, or it could loop.
    pub fn advertised_delay(&self, link: usize) -> u16 {
        if usize::from(self.pid) == link {
            MAX_DELAY as u16
        } else {
            self.delay as u16
        }
    }

    fn take_down(&mut self) {
        self.delay = MAX_DELAY;
        self.ttl = HOLD_DOWN;
    }
}
