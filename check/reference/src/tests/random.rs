//! Random hosts and packets; a seed fixes all of them.

use super::{message_from, sum_header, Host};
use crate::clock::{DAY_MS, SLEW_MS};
use crate::packet::Heading;
use crate::settings::{marks_of, CLOCK_SETTING_OFF};
use crate::table::MAX_DELAY;
use crate::*;

/// A small generator (splitmix64).
pub struct Random(pub u64);

impl Random {
    pub fn next(&mut self) -> u64 {
        self.0 = self.0.wrapping_add(0x9E37_79B9_7F4A_7C15);
        let mut mixed = self.0;
        mixed = (mixed ^ (mixed >> 30)).wrapping_mul(0xBF58_476D_1CE4_E5B9);
        mixed = (mixed ^ (mixed >> 27)).wrapping_mul(0x94D0_49BB_1331_11EB);
        mixed ^ (mixed >> 31)
    }

    pub fn below(&mut self, bound: usize) -> usize {
        (self.next() % bound as u64) as usize
    }

    /// A number from `least` to `most`, both included.
    pub fn between(&mut self, least: i64, most: i64) -> i64 {
        least + (self.next() % (most - least + 1) as u64) as i64
    }

    pub fn one_in(&mut self, times: usize) -> bool {
        self.below(times) == 0
    }

    pub fn pick<T: Copy>(&mut self, from: &[T]) -> T {
        from[self.below(from.len())]
    }
}

/// A host with sound settings, borrowed nothing that is out of range.
pub fn host(random: &mut Random) -> Host {
    let mut host = Host::fresh(settings(random));
    host.net = net_table(random, host.settings.nhosts);
    host.clock = clock(random);
    host.counter = counter(random);
    for link in &mut host.links {
        link.neighbor = address(random, &host.settings);
        link.keep_alive = random.below(5) as u8;
        link.tsp = random.next() as i16;
    }
    for entry in &mut host.run[..host.settings.nhosts] {
        *entry = Entry {
            here: entry.here,
            ..self::entry(random)
        };
    }
    host
}

fn settings(random: &mut Random) -> Settings {
    let nhosts = random.pick(&[1, 2, 4, 4, 4, 9, 255]);
    let address_offset = random.pick(&[0, 1, 1, 200]);
    let id = random.below(nhosts.min(256 - usize::from(address_offset))) as u8;
    let host_octet = address_offset + id;
    let any_id = random.below(nhosts) as u8;
    let mut settings = Settings {
        address: random.pick(&[
            Address([10, 1, host_octet, 9]),
            Address([128, 7, 2, host_octet]),
            Address([192, 0, 2, host_octet]),
        ]),
        address_offset,
        nhosts,
        marks: marks(random, id, nhosts),
        clock_host: random.pick(&[CLOCK_SETTING_OFF, id, any_id, any_id]),
        hold_interval: random.pick(&[1, 30, 255]),
        clock_tick: random.pick(&[Units(1), Units(65_536_000), Units(1 << 32)]),
        link_count: random.pick(&[1, 2, 8]),
        ..program::SETTINGS
    };
    for place in 0..LINKS {
        if random.one_in(3) {
            settings.links[place] = LinkKind::Broadcast(address(random, &settings));
        }
    }
    settings
}

/// A table with some rows, none of them bad.
pub fn net_table(random: &mut Random, nhosts: usize) -> NetTable {
    let mut table = NetTable::without_rows(nhosts);
    table.count = random.below(4);
    for row in &mut table.rows {
        row.net = random.pick(&[[10, 0, 0], [128, 7, 3], [192, 0, 3], [0, 0, 0]]);
        row.host = random.below(nhosts) as u8;
    }
    table
}

/// The own id's mark, and those of any others.
fn marks(random: &mut Random, own_id: u8, nhosts: usize) -> Marks {
    let mut marks = marks_of([own_id]);
    let times = random.pick(&[2, 5, 1_000]);
    for mark in &mut marks[..nhosts] {
        *mark |= random.one_in(times);
    }
    marks
}

fn clock(random: &mut Random) -> Clock {
    let any = random.between(-65_535, DAY_MS);
    let date = random.pick(&[Date::FIRST, Date(2956), Date(2988), Date::LAST]);
    Clock {
        clock: Units::from_ms(random.pick(&[-65_535, 0, 1_000, DAY_MS - 200, DAY_MS, any])),
        delta: Units::from_ms(random.between(SLEW_MS.0.into(), SLEW_MS.1.into())),
        hold: random.pick(&[0, 0, 0, 7]),
        date: random.pick(&[date, date.awaited()]),
    }
}

/// What a crystal clock hands in, or a line clock.
pub fn counter(random: &mut Random) -> Counter {
    if random.one_in(3) {
        return Counter::LINE_CLOCK;
    }
    let any = random.next();
    Counter {
        count: random.pick(&[0, 1, 65_535, any as u16]),
        overflow: random.pick(&[0, 0, 1, 255]),
        again: random.pick(&[0, 1, 65_535, (any >> 16) as u16]),
    }
}

fn entry(random: &mut Random) -> Entry {
    let any = random.between(0, MAX_DELAY);
    Entry {
        delay: random.pick(&[0, 100, 500, 29_900, 29_999, MAX_DELAY, MAX_DELAY, any]),
        offset: random.next() as i16,
        ttl: random.pick(&[0, 0, 1, 120]),
        pid: random.pick(&[0, 1, 1, 2, 8]),
        updated: random.between(0, DAY_MS),
        here: 0,
    }
}

/// An address on the host's net, or on another.
fn address(random: &mut Random, settings: &Settings) -> Address {
    let any = random.next().to_be_bytes();
    let mut near = settings.address;
    let place = if near.is_class_a() { 2 } else { 3 };
    near.0[place] = settings.address_offset + random.below(5) as u8;
    random.pick(&[
        near,
        near,
        near,
        settings.address,
        Address::ZERO,
        Address([192, 0, 3, 1]),
        Address([10, 9, 9, 9]),
        Address([224, 0, 0, 1]),
        Address([any[0], any[1], any[2], any[3]]),
    ])
}

/// A packet for a link of the host, most often a good one.
pub fn packet(random: &mut Random, host: &Host, link: usize) -> Vec<u8> {
    let reading = host.clone().read().map_or(0, |reading| reading.time);
    let any = random.next();
    let near = reading + random.between(-200, 200);
    let earlier = reading - random.between(0, 500);
    let heading = Heading {
        date: Date(random.pick(&[2956, 2956 | 0x8000, 0, any as u16])),
        time: random.pick(&[near as u32, reading as u32, any as u32]),
        tsp: random.pick(&[earlier as u16, reading as u16, 0, any as u16]),
        address_offset: host.settings.address_offset,
    };
    let source = if random.one_in(3) {
        address(random, &host.settings)
    } else {
        host.links[link - 1].neighbor
    };
    let count = match random.below(8) {
        0 => random.below(6),
        1..=3 => 0,
        _ => host.settings.nhosts,
    };
    let hosts: Vec<_> = (0..count).map(|_| reported(random)).collect();
    let mut packet = message_from(source, heading, &hosts);
    if random.one_in(10) {
        let place = match random.below(4) {
            0 => 9,
            1 => 31,
            _ => random.below(packet.len()),
        };
        packet[place] ^= 1 << random.below(8);
        if random.one_in(2) {
            sum_header(&mut packet);
        }
    }
    packet
}

fn reported(random: &mut Random) -> (u16, i16) {
    let any = random.next();
    let delay = random.pick(&[0, 0, 100, 300, 29_900, 29_999, 30_000, any as u16]);
    (delay, random.pick(&[0, -5_000, (any >> 16) as i16]))
}
