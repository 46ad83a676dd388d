//! Bench files: the small file of `docs/bench` from its parts.

use hello::bench_file::{End, Event, File};
use hello::UNITS_PER_MS;
use hello::{date, Address, Answer, Counter, Layout, LinkSetting, Room, Settings};

/// A host of the small file, with a crystal clock.
fn host(id: u8, time: i64) -> Settings {
    let layout = Layout {
        address_offset: 1,
        nhosts: 2,
    };
    Settings {
        hold_interval: 10,
        clock_tick: 65_536 * UNITS_PER_MS,
        time,
        date: date(1983, 12, 1).unwrap(),
        ..Settings::new(Address::new(192, 0, 2, 1 + id), layout)
    }
}

fn send(end: u8, slot: u8, count: u16) -> Event {
    Event::Send {
        cable: 0,
        end,
        slot,
        counter: Counter::of(count),
    }
}

fn arrival(slot: u8, count: u16) -> Event {
    Event::Arrival {
        slot,
        counter: Counter::of(count),
    }
}

/// The octets of a listing: on each line a place, octets in hex or one of them `x` times, and a name.
fn listed(listing: &str) -> Vec<u8> {
    let mut octets = Vec::new();
    for line in listing.lines() {
        let mut columns = line.trim_start().split("  ");
        let place = columns.next().unwrap();
        if place.is_empty() || place.starts_with('#') {
            continue;
        }
        assert_eq!(place.parse(), Ok(octets.len()));
        let part = columns.next().unwrap();
        let (hex, times) = part.split_once(" x ").unwrap_or((part, "1"));
        let hex = hex.split(' ').map(|octet| u8::from_str_radix(octet, 16));
        let part: Vec<u8> = hex.collect::<Result<_, _>>().unwrap();
        octets.extend(part.repeat(times.parse().unwrap()));
    }
    octets
}

#[test]
fn the_small_file() {
    let file = File {
        hosts: vec![host(0, 43_200_000), host(1, 43_200_500)],
        cables: vec![[End { host: 0, link: 1 }, End { host: 1, link: 1 }]],
        events: vec![
            Event::SelfReport(0, Counter::of(0)),
            Event::SelfReport(1, Counter::of(0)),
            send(0, 0, 0),
            arrival(0, 30),
            send(1, 1, 30),
            arrival(1, 60),
            send(0, 0, 60),
            arrival(0, 90),
            arrival(31, 90),
            Event::Set(1, -500, 90),
            Event::Second(0),
            Event::Second(1),
        ],
    };
    let small = include_str!("../../../docs/bench/small.octets");
    assert_eq!(file.octets().unwrap(), listed(small));
    assert_eq!(File::read(&listed(small)), Some(file));
}

#[test]
fn other_numbers() {
    let mut settings = host(9, 86_399_999).with_marks([255]);
    settings.clock_host = 7;
    settings.layout.nhosts = 255;
    settings.link_count = 8;
    settings.links[7] = LinkSetting::broadcast(Address::new(10, 1, 2, 3));
    let counter = Counter::overflowed(0x1234, 0x5678);
    let file = File {
        hosts: vec![settings],
        cables: vec![],
        events: vec![
            Event::Tick(3, 0x0102),
            Event::Adjust(4, 0x0304),
            Event::Set(5, i32::MIN, 0x0506),
            Event::Send {
                cable: 31,
                end: 1,
                slot: 30,
                counter,
            },
        ],
    };
    let octets = file.octets().unwrap();
    assert_eq!(octets[..8], [0, 0, 0, 1, 0, 0, 0, 0]);
    assert_eq!(octets[12..20], [0, 0, 1, 85, 0, 0, 1, 85]);
    assert_eq!(octets[20..28], [192, 0, 2, 10, 1, 7, 0, 255]);
    assert_eq!(octets[44], 8);
    assert_eq!(octets[80..86], [1, 10, 1, 2, 3, 0]);
    let marked: Vec<_> = (0..256).filter(|id| octets[85 + id] == 1).collect();
    assert_eq!(marked, [9, 255]);
    let events = &octets[341..];
    assert_eq!(events[..14], [1, 3, 0, 0, 0, 0, 1, 2, 0, 0, 0, 0, 0, 0]);
    assert_eq!(events[14..28], [2, 4, 0, 0, 0, 0, 3, 4, 0, 0, 0, 0, 0, 0]);
    assert_eq!(
        events[28..42],
        [3, 5, 0, 0, 0, 0, 5, 6, 0, 0, 0x80, 0, 0, 0]
    );
    let send = [6, 0, 31, 1, 30, 1, 0x12, 0x34, 0x56, 0x78, 0, 0, 0, 0];
    assert_eq!(events[42..], send);
    assert_eq!(File::read(&octets), Some(file));
}

#[test]
fn no_file() {
    let octets = listed(include_str!("../../../docs/bench/small.octets"));
    assert_eq!(File::read(&[]), None);
    assert_eq!(File::read(&octets[..octets.len() - 1]), None);
    assert_eq!(File::read(&[&octets[..], &[0]].concat()), None);
    // The highest and the lowest octet of each number of the header.
    for place in (0..20).step_by(4).flat_map(|place| [place, place + 3]) {
        let mut other = octets.clone();
        other[place] ^= 1;
        assert_eq!(File::read(&other), None, "octet {place}");
    }
    let mut kind = octets.clone();
    let last = kind.len() - 14;
    kind[last] = 0;
    assert_eq!(File::read(&kind), None);
}

/// Numbers that do not fit their fields: a host with such settings is refused, and so is the file.
#[test]
fn numbers_that_do_not_fit_are_refused() {
    let good = host(0, 0);
    let mut wrong = [good; 5];
    wrong[0].layout.nhosts = (1 << 16) + 2;
    wrong[1].time = 1 << 32;
    wrong[2].time = -1;
    wrong[3].link_count = 256 + 1;
    wrong[4].layout.nhosts = usize::MAX;
    for settings in wrong {
        let mut room = Room::new(1, 2);
        assert_eq!(room.host(0).initialize(settings), Err(Answer::Setting));
        let file = File {
            hosts: vec![good, settings],
            ..File::default()
        };
        assert_eq!(file.octets(), Err(Answer::Setting));
    }
}
