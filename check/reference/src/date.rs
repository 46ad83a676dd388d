//! The RT-11 date word: bits 0-4 the year less 1972, 5-9 the day, 10-13 the
//! month, 14 zero, 15 one while a master's date is awaited.

#[derive(Clone, Copy, Debug, Default, PartialEq, Eq)]
pub struct Date(pub u16);

const AWAITED: u16 = 0x8000;

impl Date {
    /// 1 January 1972.
    pub const FIRST: Date = Date::new(0, 1, 1);
    /// 31 December 2003.
    pub const LAST: Date = Date::new(31, 12, 31);

    const fn new(year: u16, month: u16, day: u16) -> Date {
        Date(year | day << 5 | month << 10)
    }

    /// The year less 1972.
    fn year(self) -> u16 {
        self.0 & 31
    }

    fn day(self) -> u16 {
        self.0 >> 5 & 31
    }

    fn month(self) -> u16 {
        self.0 >> 10 & 15
    }

    /// Whether the word is a day of the calendar; bit 15 is not looked at.
    pub fn is_real(self) -> bool {
        self.0 & 0x4000 == 0
            && (1..=12).contains(&self.month())
            && (1..=days(self.year(), self.month())).contains(&self.day())
    }

    pub fn is_awaited(self) -> bool {
        self.0 & AWAITED != 0
    }

    /// The same day, with a master's date awaited.
    pub fn awaited(self) -> Date {
        Date(self.0 | AWAITED)
    }

    /// The day after a real one, bit 15 zero; the last day steps to the first.
    pub fn next(self) -> Date {
        let (year, month, day) = (self.year(), self.month(), self.day());
        if day < days(year, month) {
            Date::new(year, month, day + 1)
        } else if month < 12 {
            Date::new(year, month + 1, 1)
        } else {
            Date::new((year + 1) & 31, 1, 1)
        }
    }

    /// The day before a real one, bit 15 zero; the first day steps to the last.
    pub fn previous(self) -> Date {
        let (year, month, day) = (self.year(), self.month(), self.day());
        if day > 1 {
            Date::new(year, month, day - 1)
        } else if month > 1 {
            Date::new(year, month - 1, days(year, month - 1))
        } else {
            Date::new(year.wrapping_sub(1) & 31, 12, 31)
        }
    }
}

/// The days of a month: 31, 30, 31 and so on, the odd months to July and the
/// even ones from August having 31. Every fourth year from 1972 to 2003 is a
/// leap year.
fn days(year: u16, month: u16) -> u16 {
    match month {
        2 if year.is_multiple_of(4) => 29,
        2 => 28,
        _ => 30 + (month + month / 8) % 2,
    }
}
