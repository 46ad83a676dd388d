//! The layout of an exercise file: this is the one place that says where each
//! number of a record stands and how wide it is.
//!
//! A file is a header, then the seat records, the cable records and the event
//! records; each section begins at the end of the one before. Records
//! have fixed sizes. Seats, cables, ends, trays and ids are numbered from 0,
//! links from 1; starts count from octet 0 of the file. All numbers are high
//! octet first. Fields that an event's kind has no use for are not looked at.

/// A number in a record: its first octet, and how many octets it has.
#[derive(Clone, Copy, Debug)]
pub struct Field {
    pub at: usize,
    pub octets: usize,
}

const fn field(at: usize, octets: usize) -> Field {
    Field { at, octets }
}

/// The header: five 32-bit numbers.
pub mod header {
    use super::{field, Field};

    pub const SIZE: usize = 20;
    pub const SEATS: Field = field(0, 4);
    pub const CABLES: Field = field(4, 4);
    pub const EVENTS: Field = field(8, 4);
    /// Where the cables start.
    pub const CABLES_START: Field = field(12, 4);
    /// Where the events start.
    pub const EVENTS_START: Field = field(16, 4);
}

/// A seat record: the settings of the seat of the record's number.
pub mod seat {
    use super::{field, Field};

    pub const SIZE: usize = 321;
    pub const LOCAL_ADDRESS: Field = field(0, 4);
    pub const ADDRESS_OFFSET: Field = field(4, 1);
    pub const CLOCK_HOST: Field = field(5, 1);
    pub const NHOSTS: Field = field(6, 2);
    /// In seconds.
    pub const HOLD_INTERVAL: Field = field(8, 2);
    pub const DATE: Field = field(10, 2);
    /// The starting time in milliseconds.
    pub const TIME: Field = field(12, 4);
    /// In clock units; 2^32 of them need more than 32 bits.
    pub const CLOCK_TICK: Field = field(16, 8);
    pub const LINK_COUNT: Field = field(24, 1);
    /// Eight links, link 1 first, whatever the count.
    pub const LINKS: Field = field(25, 8 * LINK_SIZE);
    pub const LINK_SIZE: usize = 5;
    /// In a link: 0 for point-to-point, 1 for broadcast.
    pub const SWITCH: Field = field(0, 1);
    /// In a link: the address that is set for broadcast.
    pub const NEIGHBOR_ADDRESS: Field = field(1, 4);
    /// The marks of ids 0 to 255, an octet of 0 or 1 each.
    pub const MARKS: Field = field(65, 256);
}

/// A cable record: its two ends, each a link of a seat.
pub mod cable {
    use super::{field, Field};

    pub const SIZE: usize = 4;
    /// The ends one behind the other, end 0 first.
    pub const END_SIZE: usize = 2;
    /// In an end.
    pub const SEAT: Field = field(0, 1);
    /// In an end.
    pub const LINK: Field = field(1, 1);
}

/// An event record.
pub mod event {
    use super::{field, Field};

    pub const SIZE: usize = 14;
    pub const KIND: Field = field(0, 1);
    /// For a tick, adjust, set, second or self-report.
    pub const SEAT: Field = field(1, 1);
    /// For a send.
    pub const CABLE: Field = field(2, 1);
    /// For a send.
    pub const END: Field = field(3, 1);
    /// For a send or an arrival.
    pub const TRAY: Field = field(4, 1);
    /// The mark for counter overflow, 0 or 1: for a self-report, send or
    /// arrival.
    pub const MARK: Field = field(5, 1);
    /// The count in milliseconds: for all but a second.
    pub const COUNT: Field = field(6, 2);
    /// The count taken again: where the mark is.
    pub const AGAIN: Field = field(8, 2);
    /// The signed milliseconds of a set, in two's complement.
    pub const AMOUNT: Field = field(10, 4);

    // The kinds.
    pub const TICK: u64 = 1;
    pub const ADJUST: u64 = 2;
    pub const SET: u64 = 3;
    pub const SECOND: u64 = 4;
    pub const SELF_REPORT: u64 = 5;
    pub const SEND: u64 = 6;
    pub const ARRIVAL: u64 = 7;
}

/// The octets of a field.
pub fn octets(record: &[u8], field: Field) -> &[u8] {
    &record[field.at..field.at + field.octets]
}

/// The number of a field.
pub fn number(record: &[u8], field: Field) -> u64 {
    octets(record, field)
        .iter()
        .fold(0, |number, octet| number << 8 | u64::from(*octet))
}

/// Puts a number into a field; what the field has no room for is lost.
pub fn put(record: &mut [u8], field: Field, number: u64) {
    for place in 0..field.octets {
        record[field.at + field.octets - 1 - place] = (number >> (8 * place)) as u8;
    }
}
