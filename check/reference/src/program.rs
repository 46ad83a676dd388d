//! The program that gives one packet to a fresh host.

use crate::address::Address;
use crate::answer;
use crate::clock::{Clock, Counter, Units};
use crate::date::Date;
use crate::host;
use crate::link::{Link, LinkKind, LINKS};
use crate::net::NetTable;
use crate::settings::{marks_of, Settings, CLOCK_SETTING_OFF};
use crate::table::Entry;
use crate::walk::Walk;
use crate::PLACES;

/// The settings of the program's host, 192.0.2.1.
pub const SETTINGS: Settings = Settings {
    address: Address([192, 0, 2, 1]),
    address_offset: 1,
    nhosts: 4,
    marks: marks_of([0]),
    clock_host: CLOCK_SETTING_OFF,
    hold_interval: 1,
    clock_tick: Units(1),
    time: 0,
    date: Date::FIRST,
    link_count: 1,
    links: [LinkKind::PointToPoint; LINKS],
};

/// "no net rows".
pub const NET: NetTable = NetTable::without_rows(SETTINGS.nhosts);

/// The answer number to a packet on the one link of a fresh host.
pub fn packet(octets: &[u8]) -> u8 {
    let mut clock = Clock::default();
    let mut links = [Link::default(); LINKS];
    let mut walk = Walk::CLOSED;
    let mut run = [Entry::FRESH; PLACES];
    let outcome = host::set_afresh(
        &SETTINGS, &NET, 0, &mut clock, &mut links, &mut walk, &mut run,
    )
    .and_then(|()| {
        host::inspect(
            &SETTINGS, &NET, 0, &clock, &links, &mut walk, &run, 1, octets,
        )
    })
    .and_then(|_| {
        host::act(
            &SETTINGS,
            &NET,
            0,
            &mut clock,
            &mut links,
            &mut walk,
            &mut run,
            1,
            Counter::LINE_CLOCK,
            octets,
        )
    });
    answer(&outcome)
}
