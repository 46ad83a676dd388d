//! What drives a host's clock: the line's ticks, or a crystal's counter.

use demo::plan::SECOND;
use hello::Counter;

/// A crystal's counter, of 16 bits and 1,000 Hz, overflows after this number of ms.
pub const OVERFLOW: i64 = 65_536;

pub enum Drive {
    /// It ticks at each step of the room.
    Line,
    /// It ticks for each overflow of the counter.
    Crystal(Crystal),
}

/// A crystal, whose counter shows 0 at the room's start. The host makes the tick for an overflow at
/// the next whole second, unless a reading comes before; that is handed the mark, and makes it.
#[derive(Default)]
pub struct Crystal {
    /// The overflows for which the tick was made, and those of them where a reading made it.
    pub ticked: i64,
    pub marked: i64,
}

impl Drive {
    /// The count of the tick that is due at that ms of the room, if one is.
    pub fn tick(&mut self, now: i64) -> Option<u16> {
        match self {
            Drive::Line => Some(0),
            Drive::Crystal(crystal) if now % SECOND == 0 && crystal.overflowed(now) => {
                crystal.ticked += 1;
                Some(count(now))
            }
            Drive::Crystal(_) => None,
        }
    }

    /// What a call that reads the clock at that ms of the room is handed.
    pub fn counter(&mut self, now: i64) -> Counter {
        match self {
            Drive::Line => Counter::LINE_CLOCK,
            Drive::Crystal(crystal) if crystal.overflowed(now) => {
                crystal.ticked += 1;
                crystal.marked += 1;
                Counter::overflowed(count(now), count(now))
            }
            Drive::Crystal(_) => Counter::of(count(now)),
        }
    }
}

impl Crystal {
    /// Whether the counter has overflowed, and the tick for that was not made yet.
    fn overflowed(&self, now: i64) -> bool {
        self.ticked < now / OVERFLOW
    }
}

/// What a crystal's counter shows at that ms of the room.
fn count(now: i64) -> u16 {
    (now % OVERFLOW) as u16
}
