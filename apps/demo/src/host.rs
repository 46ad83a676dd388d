//! The hosts of the room: their addresses and settings.

use hello::{Address, Layout, Settings, UNITS_PER_MS};

/// What sets a host of the room apart, or is the same at all.
pub struct Place {
    pub number: usize,
    /// NHOSTS, and the ids of the further hosts that live here.
    pub ids: usize,
    pub guests: Vec<u8>,
    pub link_count: usize,
    /// The ms of one tick, and the time at the start.
    pub tick: i64,
    pub time: i64,
}

/// The DATE word of 1 December 1983.
const START_DATE: u16 = 12 << 10 | 1 << 5 | 11;

/// The address of the host of that id, which is its number in the room unless it is a further one.
pub fn address(id: usize) -> Address {
    Address::new(192, 0, 2, 1 + id as u8)
}

pub fn settings(place: Place) -> Settings {
    let layout = Layout {
        address_offset: 1,
        nhosts: place.ids,
    };
    Settings {
        hold_interval: 10,
        clock_tick: place.tick * UNITS_PER_MS,
        time: place.time,
        date: START_DATE,
        link_count: place.link_count,
        ..Settings::new(address(place.number), layout).with_marks(place.guests)
    }
}
