//! The clock of a host: tick, adjust, set, read and second.
//!
//! The time of day is the sum of CLOCK and the count of the hardware counter,
//! which a line clock does not have; its count is always zero.

use std::ops::{Add, AddAssign, SubAssign};

use crate::date::Date;

/// A day in milliseconds.
pub const DAY_MS: i64 = 86_400_000;
/// The milliseconds, both included, by which a set slews the clock; any other
/// count steps it. So one adjust moves the clock back by a millisecond at most.
pub const SLEW_MS: (i32, i32) = (-128, 127);
/// An adjust takes DELTA / 2^7.
const ADJUST_FRACTION: u32 = 7;
const UNITS_PER_MS: i64 = 65_536;
/// The most milliseconds that a count has, and that CLOCK stands below zero.
const MOST_COUNT: i64 = 65_535;

/// Clock units, 1/65,536 of a millisecond each.
#[derive(Clone, Copy, Debug, Default, PartialEq, Eq, PartialOrd, Ord)]
pub struct Units(pub i64);

impl Units {
    pub const ZERO: Units = Units(0);
    pub const DAY: Units = Units::from_ms(DAY_MS);

    pub const fn from_ms(ms: i64) -> Units {
        Units(ms * UNITS_PER_MS)
    }

    /// The whole milliseconds, rounded down.
    pub fn whole_ms(self) -> i64 {
        self.0.div_euclid(UNITS_PER_MS)
    }

    /// The part that one adjust moves, rounded down.
    fn adjustment(self) -> Units {
        Units(self.0 >> ADJUST_FRACTION)
    }
}

impl Add for Units {
    type Output = Units;

    fn add(self, other: Units) -> Units {
        Units(self.0 + other.0)
    }
}

impl AddAssign for Units {
    fn add_assign(&mut self, other: Units) {
        self.0 += other.0;
    }
}

impl SubAssign for Units {
    fn sub_assign(&mut self, other: Units) {
        self.0 -= other.0;
    }
}

/// What a reading is handed of the 1000 Hz counter.
#[derive(Clone, Copy, Debug, Default, PartialEq, Eq)]
pub struct Counter {
    /// In milliseconds.
    pub count: u16,
    /// The mark for counter overflow: any number but 0.
    pub overflow: u8,
    /// "the count taken again after it", in milliseconds.
    pub again: u16,
}

impl Counter {
    /// What a line clock hands in.
    pub const LINE_CLOCK: Counter = Counter {
        count: 0,
        overflow: 0,
        again: 0,
    };
}

/// One reading of the clock.
#[derive(Clone, Copy, Debug, PartialEq, Eq)]
pub struct Sample {
    /// The time of day in whole milliseconds.
    pub time: i64,
    /// The count that was used.
    pub count: u16,
}

#[derive(Clone, Copy, Debug, Default, PartialEq, Eq)]
pub struct Clock {
    pub clock: Units,
    pub delta: Units,
    /// Seconds for which timestamps are not to be trusted.
    pub hold: u16,
    pub date: Date,
}

impl Clock {
    pub fn fresh(time_ms: i64, date: Date) -> Clock {
        Clock {
            clock: Units::from_ms(time_ms),
            delta: Units::ZERO,
            hold: 0,
            date: date.awaited(),
        }
    }

    pub fn in_range(&self) -> bool {
        let (least, most) = (
            Units::from_ms(SLEW_MS.0.into()),
            Units::from_ms(SLEW_MS.1.into()),
        );
        (Units::from_ms(-MOST_COUNT)..=Units::DAY).contains(&self.clock)
            && (least..=most).contains(&self.delta)
            && self.hold <= 255
            && self.date.is_real()
    }

    /// Reads the clock. With the mark it adds CLOCK-TICK, and uses the
    /// second count.
    pub fn read(&mut self, counter: Counter, clock_tick: Units, hold_interval: u16) -> Sample {
        let count = if counter.overflow == 0 {
            counter.count
        } else {
            self.clock += clock_tick;
            counter.again
        };
        self.pass_midnight(count, hold_interval);
        Sample {
            time: self.sum(count).whole_ms(),
            count,
        }
    }

    pub fn tick(&mut self, count: u16, clock_tick: Units, hold_interval: u16) {
        self.clock += clock_tick;
        self.pass_midnight(count, hold_interval);
    }

    pub fn adjust(&mut self, count: u16, hold_interval: u16) {
        let part = self.delta.adjustment();
        self.clock += part;
        self.delta -= part;
        self.pass_midnight(count, hold_interval);
    }

    pub fn set(&mut self, ms: i32, count: u16, hold_interval: u16) {
        let correction = Units::from_ms(ms.into());
        if (SLEW_MS.0..=SLEW_MS.1).contains(&ms) {
            self.delta = correction;
        } else {
            self.clock += correction;
            self.delta = Units::ZERO;
            self.hold = hold_interval;
        }
        self.pass_midnight(count, hold_interval);
    }

    pub fn second(&mut self) {
        self.hold = self.hold.saturating_sub(1);
    }

    /// Takes a master's date, if it is one.
    pub fn take_date(&mut self, date: Date) {
        if date.is_real() && !date.is_awaited() {
            self.date = date;
        }
    }

    /// CLOCK plus a count.
    fn sum(&self, count: u16) -> Units {
        self.clock + Units::from_ms(count.into())
    }

    /// Brings the sum of CLOCK and a count back into the day, CLOCK moving by
    /// whole days. A sum of exactly one day stays.
    fn pass_midnight(&mut self, count: u16, hold_interval: u16) {
        while self.sum(count) > Units::DAY {
            self.clock -= Units::DAY;
            self.change_day(self.date.next(), hold_interval);
        }
        while self.sum(count) < Units::ZERO {
            self.clock += Units::DAY;
            self.change_day(self.date.previous(), hold_interval);
        }
    }

    fn change_day(&mut self, day: Date, hold_interval: u16) {
        self.date = day.awaited();
        self.hold = hold_interval;
    }
}
