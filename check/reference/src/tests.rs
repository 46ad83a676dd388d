//! The rules' own sums, the known slips, and the points that surprise.

use crate::clock::DAY_MS;
use crate::host::{self, Inspected, Reading, Route};
use crate::packet::{self, Heading};
use crate::program;
use crate::settings::marks_of;
use crate::table::{Report, HOLD_DOWN, MAX_DELAY};
use crate::*;

mod bench;
mod capture;
mod crystal;
mod inspect;
mod marks;
mod ntp;
mod random;
mod text;
mod tutor;
mod walk;

const ROUTER: Address = Address([192, 0, 2, 2]);
const UNITS_OF_DAY: i64 = DAY_MS * 65_536;

/// A host with all that its calls borrow.
#[derive(Clone, PartialEq, Debug)]
struct Host {
    settings: Settings,
    net: NetTable,
    number: usize,
    clock: Clock,
    links: Links,
    walk: Walk,
    run: Vec<Entry>,
    /// What its calls are handed of the counter.
    counter: Counter,
}

type Done = Result<(), Refusal>;

impl Host {
    fn fresh(settings: Settings) -> Host {
        let mut host = Host {
            settings,
            net: NetTable::without_rows(settings.nhosts),
            number: 0,
            clock: Clock::default(),
            links: [Link::default(); LINKS],
            walk: Walk::CLOSED,
            run: vec![Entry::FRESH; PLACES],
            counter: Counter::LINE_CLOCK,
        };
        assert_eq!(host.set_afresh(), Ok(()));
        host
    }

    fn set_afresh(&mut self) -> Done {
        host::set_afresh(
            &self.settings,
            &self.net,
            self.number,
            &mut self.clock,
            &mut self.links,
            &mut self.walk,
            &mut self.run,
        )
    }

    fn tick(&mut self) -> Done {
        host::tick(
            &self.settings,
            &self.net,
            self.number,
            &mut self.clock,
            &self.links,
            &mut self.walk,
            &self.run,
            self.counter.count,
        )
    }

    fn adjust(&mut self) -> Done {
        host::adjust(
            &self.settings,
            &self.net,
            self.number,
            &mut self.clock,
            &self.links,
            &mut self.walk,
            &self.run,
            self.counter.count,
        )
    }

    fn set(&mut self, ms: i32) -> Done {
        host::set(
            &self.settings,
            &self.net,
            self.number,
            &mut self.clock,
            &self.links,
            &mut self.walk,
            &self.run,
            ms,
            self.counter.count,
        )
    }

    fn read(&mut self) -> Result<Reading, Refusal> {
        host::read(
            &self.settings,
            &self.net,
            self.number,
            &mut self.clock,
            &self.links,
            &mut self.walk,
            &self.run,
            self.counter,
        )
    }

    fn second(&mut self) -> Done {
        host::second(
            &self.settings,
            &self.net,
            self.number,
            &mut self.clock,
            &self.links,
            &mut self.walk,
            &mut self.run,
        )
    }

    fn self_report(&mut self) -> Done {
        host::self_report(
            &self.settings,
            &self.net,
            self.number,
            &mut self.clock,
            &self.links,
            &mut self.walk,
            &mut self.run,
            self.counter,
        )
    }

    fn send(&mut self, link: usize, buffer: &mut [u8]) -> Result<usize, Refusal> {
        host::send(
            &self.settings,
            &self.net,
            self.number,
            &mut self.clock,
            &mut self.links,
            &mut self.walk,
            &self.run,
            link,
            self.counter,
            buffer,
        )
    }

    fn message(&mut self, link: usize) -> Vec<u8> {
        let mut buffer = vec![0; 2_000];
        let length = self.send(link, &mut buffer).unwrap();
        buffer.truncate(length);
        buffer
    }

    fn inspect(&mut self, link: usize, packet: &[u8]) -> Result<Inspected, Refusal> {
        host::inspect(
            &self.settings,
            &self.net,
            self.number,
            &self.clock,
            &self.links,
            &mut self.walk,
            &self.run,
            link,
            packet,
        )
    }

    fn act(&mut self, link: usize, packet: &[u8]) -> Done {
        host::act(
            &self.settings,
            &self.net,
            self.number,
            &mut self.clock,
            &mut self.links,
            &mut self.walk,
            &mut self.run,
            link,
            self.counter,
            packet,
        )
    }

    fn arrival(&mut self, link: usize, packet: &[u8]) -> Done {
        host::arrival(
            &self.settings,
            &self.net,
            self.number,
            &mut self.clock,
            &mut self.links,
            &mut self.walk,
            &mut self.run,
            link,
            self.counter,
            packet,
        )
    }

    fn lookup(&mut self, address: Address) -> Result<Route, Refusal> {
        host::lookup(
            &self.settings,
            &self.net,
            self.number,
            &self.clock,
            &self.links,
            &mut self.walk,
            &self.run,
            address,
        )
    }

    fn open_walk(&mut self, link: usize, packet: &[u8]) -> Done {
        host::open_walk(
            &self.settings,
            &self.net,
            self.number,
            &self.clock,
            &self.links,
            &mut self.walk,
            &self.run,
            link,
            packet,
        )
    }

    fn step(&mut self) -> Result<Option<Place>, Refusal> {
        host::step(
            &self.settings,
            &self.net,
            self.number,
            &mut self.clock,
            &mut self.links,
            &mut self.walk,
            &mut self.run,
            self.counter,
        )
    }

    fn set_reading(&mut self, ms: i64) {
        self.clock.clock = Units::from_ms(ms);
    }
}

/// The settings of the program's host at another address.
fn settings_at(address: Address) -> Settings {
    let own_id = address.host_octet() - program::SETTINGS.address_offset;
    Settings {
        address,
        marks: marks_of([own_id]),
        ..program::SETTINGS
    }
}

fn router_message(heading: Heading, hosts: &[(u16, i16)]) -> Vec<u8> {
    message_from(ROUTER, heading, hosts)
}

fn message_from(source: Address, heading: Heading, hosts: &[(u16, i16)]) -> Vec<u8> {
    let mut message = vec![0; packet::HEADER + packet::hello_length(hosts.len())];
    packet::write_hello(
        &mut message[packet::HEADER..],
        &heading,
        hosts.iter().copied(),
    );
    packet::write_header(&mut message, source, program::SETTINGS.address);
    message
}

fn heading(time: u32, tsp: u16) -> Heading {
    Heading {
        date: Date(0x8000),
        time,
        tsp,
        address_offset: 1,
    }
}

/// The program's host with the router as its neighbour.
fn host_with_router() -> Host {
    let mut host = Host::fresh(program::SETTINGS);
    host.links[0].neighbor = ROUTER;
    host
}

fn entry(delay: i64, ttl: u16, pid: u8) -> Entry {
    Entry {
        delay,
        ttl,
        pid,
        ..Entry::FRESH
    }
}

/// The entry of an id that lives here.
fn living_here(entry: Entry) -> Entry {
    Entry { here: 1, ..entry }
}

/// The fresh entries of the program's host, whose own id is 0.
fn fresh_table() -> [Entry; 4] {
    [0, 1, 2, 3].map(|id| Entry::fresh(id == 0))
}

fn report(delay: i64, pid: u8) -> Report {
    Report {
        delay,
        offset: 0,
        pid,
        reading: 0,
    }
}

fn hello(date: u16, time: u32, tsp: u16, address_offset: u8) -> [u8; 12] {
    let mut octets = [0xEE; 12];
    let heading = Heading {
        date: Date(date),
        time,
        tsp,
        address_offset,
    };
    packet::write_hello(&mut octets, &heading, std::iter::empty());
    octets
}

// Sums on the blackboard.

#[test]
fn hello_checksums() {
    assert_eq!(hello(0x302B, 3_600_000, 0x1234, 1)[..2], [0xCD, 0xE9]);
    assert_eq!(hello(0x8000, 0, 0, 0)[..2], [0x7F, 0xFF]);
}

#[test]
fn dates_step() {
    assert_eq!(Date(2956).next(), Date(2988));
    assert_eq!(Date(2955).next(), Date(3115));
    assert_eq!(Date(13_311).next(), Date(1056));
    assert_eq!(Date(2988).previous(), Date(2956));
    assert_eq!(Date(3115).previous(), Date(2955));
    assert_eq!((Date::FIRST, Date::LAST), (Date(1056), Date(13_311)));
    assert_eq!(Date::FIRST.previous(), Date::LAST);
}

#[test]
fn dates_step_through_all_days_and_back() {
    let mut date = Date::FIRST;
    let mut days = 0;
    while days == 0 || date != Date::FIRST {
        assert!(date.is_real());
        assert_eq!(date.next().previous(), date);
        date = date.next();
        days += 1;
    }
    let real = (0..0x8000).filter(|&word| Date(word).is_real()).count();
    assert_eq!((days, real), (32 * 365 + 8, days));
}

#[test]
fn months_have_their_days() {
    let lengths = [31, 28, 31, 30, 31, 30, 31, 31, 30, 31, 30, 31];
    for year in 0..32 {
        for month in 0..16 {
            let leap_day = u16::from(month == 2 && year % 4 == 0);
            let days = match month {
                1..=12 => lengths[usize::from(month) - 1] + leap_day,
                _ => 0,
            };
            for day in 0..32 {
                let date = Date(year | day << 5 | month << 10);
                assert_eq!(date.is_real(), 1 <= day && day <= days, "{date:?}");
                if date.is_real() {
                    let next = date.next().0 >> 5 & 31;
                    assert_eq!(next, if day == days { 1 } else { day + 1 });
                }
            }
        }
    }
}

#[test]
fn shorter_route_by_a_hundred_is_taken() {
    let mut at_500 = entry(500, HOLD_DOWN, 2);
    assert!(at_500.update(&report(400, 1)));
    assert_eq!((at_500.delay, at_500.pid), (400, 1));
    assert!(!entry(500, HOLD_DOWN, 2).update(&report(401, 1)));
}

#[test]
fn down_entry_comes_up() {
    assert!(entry(MAX_DELAY, 0, 2).update(&report(29_900, 1)));
    assert!(!entry(MAX_DELAY, 0, 2).update(&report(29_901, 1)));
    assert!(entry(MAX_DELAY, 0, 1).update(&report(29_999, 1)));
    assert!(!entry(MAX_DELAY, 0, 1).update(&report(30_000, 1)));
}

#[test]
fn half_of_a_negative_delay_is_rounded_down() {
    let mut host = host_with_router();
    host.set_reading(1_000);
    assert_eq!(
        host.arrival(1, &router_message(heading(1_000, 1_003), &[])),
        Ok(())
    );
    assert_eq!((host.run[1].delay, host.run[1].offset), (100, -2));
}

#[test]
fn round_trip_between_two_hosts() {
    let mut a = host_with_router();
    let mut b = Host::fresh(settings_at(ROUTER));
    b.links[0].neighbor = a.settings.address;
    a.set_reading(40_000);
    b.set_reading(40_530);
    assert_eq!(b.arrival(1, &a.message(1)), Err(Refusal::DelayNotValid));
    assert_eq!((b.links[0].tsp, b.links[0].keep_alive), (-530, 4));
    b.set_reading(45_530);
    b.self_report().unwrap();
    let answer = b.message(1);
    assert_eq!(answer[28..30], 45_000_u16.to_be_bytes());
    assert_eq!(b.links[0].keep_alive, 3);
    a.set_reading(45_081);
    assert_eq!(a.arrival(1, &answer), Ok(()));
    let learned = Entry {
        delay: 100,
        offset: 489,
        ttl: 120,
        pid: 1,
        updated: 45_081,
        here: 0,
    };
    assert_eq!(a.run[1], learned);
    assert_eq!(a.lookup(ROUTER), Ok(Route { host: 1, pid: 1 }));
}

#[test]
fn midnight() {
    let mut host = Host::fresh(program::SETTINGS);
    host.clock.clock = Units(UNITS_OF_DAY - 1);
    host.clock.date = Date::LAST;
    host.tick().unwrap();
    assert_eq!(host.clock.clock, Units::DAY);
    assert_eq!((host.clock.date, host.clock.hold), (Date::LAST, 0));
    assert_eq!(host.read().map(|reading| reading.time), Ok(DAY_MS));
    host.tick().unwrap();
    assert_eq!(host.clock.clock, Units(1));
    assert_eq!(
        (host.clock.date, host.clock.hold),
        (Date::FIRST.awaited(), 1)
    );
}

#[test]
fn the_program_answers() {
    assert_eq!(program::packet(&[]), 3);
    assert_eq!(program::packet(&router_message(heading(0, 0), &[])), 0);
    let long = router_message(heading(0, 0), &[(0, 0); 5]);
    assert_eq!(program::packet(&long), 8);
    let own = message_from(program::SETTINGS.address, heading(0, 0), &[]);
    assert_eq!(program::packet(&own), 9);
    assert_eq!(program::packet(&ip_packet(2_000)), 6);
    assert_eq!(program::packet(&ip_packet(65_536)), 3);
}

/// A good IP packet of zeros behind its header.
fn ip_packet(length: usize) -> Vec<u8> {
    let mut octets = vec![0; length];
    packet::write_header(&mut octets, ROUTER, Address::ZERO);
    octets
}

// RFC 1071, section 3.

#[test]
fn internet_checksum() {
    let octets = [0x00, 0x01, 0xF2, 0x03, 0xF4, 0xF5, 0xF6, 0xF7];
    assert_eq!(checksum::folded_sum(&octets), 0xDDF2);
    assert_eq!(checksum::checksum(&octets), 0x220D);
    let swapped = [0x01, 0x00, 0x03, 0xF2, 0xF5, 0xF4, 0xF7, 0xF6];
    assert_eq!(checksum::folded_sum(&swapped), 0xF2DD);
    let reversed = [0x03, 0xF2, 0x01, 0x00, 0xF7, 0xF6, 0xF5, 0xF4];
    assert_eq!(checksum::folded_sum(&reversed), 0xF2DD);
    assert_eq!(checksum::folded_sum(&octets[..3]), 0xF201);
    assert_eq!(checksum::folded_sum(&octets[3..]), 0xF0EB);
    assert_eq!(checksum::folded_sum(&[0xF2, 0x01, 0xEB, 0xF0]), 0xDDF2);
    assert_eq!(checksum::folded_sum(&[]), 0);
    assert!(checksum::is_good(&[0xDD, 0xF2, 0x22, 0x0D]));
    assert!(!checksum::is_good(&[0; 12]));
}

// Slips the red pen has met.

#[test]
fn a_sum_of_delays_does_not_wrap() {
    let mut host = host_with_router();
    host.set_reading(1_000);
    let hosts = [(65_400, 0); 4];
    host.arrival(1, &router_message(heading(1_000, 800), &hosts))
        .unwrap();
    assert_eq!(host.run[..4], fresh_table());
}

#[test]
fn offset_is_formed_before_delay_is_raised() {
    let mut host = host_with_router();
    host.set_reading(1_000);
    host.arrival(1, &router_message(heading(1_000, 980), &[]))
        .unwrap();
    assert_eq!((host.run[1].delay, host.run[1].offset), (100, 10));
}

#[test]
fn a_report_of_a_host_already_down_renews_nothing() {
    let mut down = entry(MAX_DELAY, 50, 1);
    assert!(!down.update(&report(30_000, 1)));
    assert_eq!(down, entry(MAX_DELAY, 50, 1));
}

#[test]
fn a_negative_delay_is_not_a_large_one() {
    let mut host = host_with_router();
    host.set_reading(1_000);
    host.arrival(1, &router_message(heading(1_000, 1_500), &[]))
        .unwrap();
    assert_eq!((host.run[1].delay, host.run[1].offset), (100, -250));
}

// Clock.

#[test]
fn adjust_rounds_down() {
    let mut host = Host::fresh(program::SETTINGS);
    host.set_reading(1);
    host.clock.delta = Units(127);
    host.adjust().unwrap();
    assert_eq!(
        (host.clock.clock, host.clock.delta),
        (Units(65_536), Units(127))
    );
    host.clock.delta = Units(-5);
    for left in (0..5).rev() {
        host.adjust().unwrap();
        assert_eq!(host.clock.delta, Units(-left));
    }
    assert_eq!(host.clock.clock, Units(65_531));
}

#[test]
fn adjust_below_zero_steps_the_date_back() {
    let mut host = Host::fresh(program::SETTINGS);
    host.clock.delta = Units(-1);
    host.adjust().unwrap();
    assert_eq!(host.clock.clock, Units(UNITS_OF_DAY - 1));
    assert_eq!(
        (host.clock.date, host.clock.hold),
        (Date::LAST.awaited(), 1)
    );
}

#[test]
fn set_slews_or_steps() {
    let mut host = Host::fresh(program::SETTINGS);
    for ms in [-128, 127] {
        host.set(ms).unwrap();
        assert_eq!(host.clock.delta, Units::from_ms(ms.into()));
        assert_eq!((host.clock.clock, host.clock.hold), (Units::ZERO, 0));
    }
    host.set(128).unwrap();
    assert_eq!(host.clock.clock, Units::from_ms(128));
    assert_eq!((host.clock.delta, host.clock.hold), (Units::ZERO, 1));
    host.set(-129).unwrap();
    assert_eq!(host.clock.clock, Units::from_ms(DAY_MS - 1));
    assert_eq!(host.clock.date, Date::LAST.awaited());
}

#[test]
fn an_adjust_goes_back_by_one_millisecond_at_most() {
    let mut host = Host::fresh(program::SETTINGS);
    host.set_reading(1_000);
    host.set(-128).unwrap();
    host.adjust().unwrap();
    assert_eq!(host.clock.clock, Units::from_ms(999));
    assert_eq!(host.clock.delta, Units::from_ms(-127));
    host.set(-500).unwrap();
    assert_eq!(
        (host.clock.clock, host.clock.hold),
        (Units::from_ms(499), 1)
    );
    assert_eq!(host.clock.delta, Units::ZERO);
}

#[test]
fn the_clock_hosts_offset_slews_within_the_same_limit() {
    for (time, clock, delta) in [(10_127, 10_000, 127), (10_128, 10_128, 0)] {
        let mut host = host_with_router();
        host.settings.clock_host = 1;
        host.set_reading(10_000);
        host.arrival(1, &router_message(heading(time, 10_000), &[]))
            .unwrap();
        assert_eq!(host.clock.clock, Units::from_ms(clock));
        assert_eq!(host.clock.delta, Units::from_ms(delta));
    }
}

#[test]
fn set_passes_midnight_often() {
    let mut host = Host::fresh(program::SETTINGS);
    host.set(i32::MAX).unwrap();
    assert_eq!(host.clock.clock.whole_ms(), i64::from(i32::MAX) % DAY_MS);
    assert_eq!(host.clock.date, Date(0x8000 | 25 << 5 | 1 << 10));
    host.set_reading(0);
    host.clock.date = Date::FIRST;
    host.set(-86_400_000).unwrap();
    assert_eq!(host.clock.clock, Units::ZERO);
    assert_eq!(host.clock.date, Date::LAST.awaited());
    host.set(86_400_000).unwrap();
    assert_eq!(host.clock.clock, Units::DAY);
}

#[test]
fn a_second_takes_entries_down() {
    let mut host = Host::fresh(program::SETTINGS);
    host.clock.hold = 1;
    host.run[0] = living_here(entry(200, 1, 1));
    host.run[1] = entry(200, 2, 1);
    host.run[2] = entry(MAX_DELAY, 1, 1);
    host.run[4] = entry(200, 1, 1);
    host.second().unwrap();
    host.second().unwrap();
    assert_eq!(host.clock.hold, 0);
    assert_eq!(host.run[0], living_here(entry(MAX_DELAY, 119, 1)));
    assert_eq!(host.run[1], entry(MAX_DELAY, 120, 1));
    assert_eq!(host.run[2], entry(MAX_DELAY, 0, 1));
    assert_eq!(host.run[4], entry(200, 1, 1));
}

// Messages.

#[test]
fn a_send_advertises_own_routes_as_down() {
    let mut host = host_with_router();
    host.settings.link_count = 2;
    host.run[0] = Entry {
        offset: -7,
        ..living_here(entry(300, 120, 1))
    };
    host.run[1] = entry(400, 120, 2);
    let mut buffer = [0xEE; 60];
    assert_eq!(host.send(1, &mut buffer), Ok(48));
    assert_eq!(buffer[31..40], [4, 0x75, 0x30, 0xFF, 0xF9, 1, 144, 0, 0]);
    assert_eq!(buffer[48..], [0xEE; 12]);
    let header = [0x45, 0, 0, 48, 0, 0, 0, 0, 255, 63];
    assert_eq!(buffer[..10], header);
    assert_eq!(buffer[12..20], [192, 0, 2, 1, 192, 0, 2, 2]);
    assert_eq!(host.arrival(2, &buffer), Err(Refusal::IpForm));
    assert_eq!(host.arrival(2, &buffer[..48]), Err(Refusal::LoopedLine));
}

#[test]
fn a_refused_send_changes_nothing() {
    let mut host = host_with_router();
    host.links[0].keep_alive = 2;
    let before = host.clone();
    let mut buffer = [0xEE; 47];
    assert_eq!(host.send(1, &mut buffer), Err(Refusal::ShortBuffer));
    assert_eq!((host, buffer), (before, [0xEE; 47]));
}

#[test]
fn no_table_goes_to_another_net_or_to_nobody() {
    let mut host = Host::fresh(program::SETTINGS);
    assert_eq!(host.message(1).len(), 32);
    host.links[0].neighbor = Address([192, 0, 3, 2]);
    assert_eq!(host.message(1).len(), 32);
    host.links[0].neighbor = Address([192, 0, 2, 255]);
    assert_eq!(host.message(1).len(), 48);
}

/// Makes the header's checksum right.
fn sum_header(packet: &mut [u8]) {
    packet[10..12].fill(0);
    let word = checksum::checksum(&packet[..20]);
    packet[10..12].copy_from_slice(&word.to_be_bytes());
}

#[test]
fn packets_are_refused_in_rising_order() {
    let mut host = host_with_router();
    let good = router_message(heading(0, 1), &[(0, 0); 4]);
    let mut refused_with = |change: &dyn Fn(&mut Vec<u8>), sum: bool| {
        let mut packet = good.clone();
        change(&mut packet);
        if sum {
            sum_header(&mut packet);
        }
        let before = host.clone();
        let outcome = host.arrival(1, &packet);
        assert_eq!(host, before);
        outcome.unwrap_err() as u8
    };
    assert_eq!(refused_with(&|packet| packet.truncate(19), false), 3);
    assert_eq!(refused_with(&|packet| packet.truncate(47), true), 3);
    assert_eq!(refused_with(&|packet| packet[0] = 0x46, true), 3);
    assert_eq!(refused_with(&|packet| packet[6] = 0x20, true), 3);
    assert_eq!(refused_with(&|packet| packet[7] = 1, true), 3);
    assert_eq!(refused_with(&|packet| packet[8] = 1, false), 4);
    assert_eq!(refused_with(&|packet| packet[9] = 17, true), 5);
    assert_eq!(refused_with(&|packet| packet[31] = 3, true), 6);
    assert_eq!(refused_with(&|packet| packet[30] = 2, true), 7);
    let other_layout = |packet: &mut Vec<u8>| {
        packet[30] += 1;
        packet[20..22].fill(0);
        let word = checksum::checksum(&packet[20..]);
        packet[20..22].copy_from_slice(&word.to_be_bytes());
    };
    assert_eq!(refused_with(&other_layout, true), 8);
}

#[test]
fn free_header_bits() {
    let mut host = host_with_router();
    let mut packet = router_message(heading(0, 1), &[]);
    packet[1] = 3;
    packet[4] = 7;
    packet[6] = 0xC0;
    packet[8] = 1;
    sum_header(&mut packet);
    assert_eq!(host.arrival(1, &packet), Ok(()));
}

// Arrivals.

#[test]
fn a_source_of_zero_is_no_new_neighbour() {
    let packet = |tsp, hosts: &[(u16, i16)]| {
        program::packet(&message_from(Address::ZERO, heading(0, tsp), hosts))
    };
    assert_eq!(packet(0, &[]), 10);
    assert_eq!(packet(1, &[]), 11);
    assert_eq!(packet(1, &[(0, 0); 4]), 0);
}

#[test]
fn a_new_neighbour_is_stored_and_its_route_stays_down() {
    let mut host = Host::fresh(program::SETTINGS);
    host.clock.hold = 1;
    let far = Address([192, 0, 3, 9]);
    let message = message_from(far, heading(5, 0), &[]);
    assert_eq!(host.arrival(1, &message), Err(Refusal::NoHost));
    assert_eq!(
        host.links[0],
        Link {
            neighbor: far,
            keep_alive: 4,
            tsp: 5
        }
    );
    assert_eq!(host.arrival(1, &message), Err(Refusal::DelayNotValid));
    host.run[1] = entry(200, 100, 1);
    assert_eq!(host.arrival(1, &router_message(heading(5, 0), &[])), Ok(()));
    assert_eq!(host.run[1], entry(MAX_DELAY, 120, 1));
}

#[test]
fn a_broadcast_link_keeps_its_neighbour() {
    let mut settings = program::SETTINGS;
    settings.links[0] = LinkKind::Broadcast(Address([192, 0, 2, 3]));
    let mut host = Host::fresh(settings);
    host.clock.hold = 9;
    host.set_reading(1_000);
    let own = message_from(settings.address, heading(1_450, 0), &[]);
    assert_eq!(host.arrival(1, &own), Ok(()));
    let learned = Entry {
        offset: 450,
        updated: 1_000,
        ..entry(100, 120, 1)
    };
    assert_eq!((host.run[2], host.run[0]), (learned, Entry::fresh(true)));
    assert_eq!(host.links[0].neighbor, Address([192, 0, 2, 3]));
}

#[test]
fn the_clock_host_sets_the_clock() {
    let mut host = host_with_router();
    host.settings.clock_host = 1;
    host.set_reading(10_000);
    let dated = |date| Heading {
        date: Date(date),
        ..heading(15_000, 10_000)
    };
    host.arrival(1, &router_message(dated(2956), &[])).unwrap();
    assert_eq!(host.clock.clock, Units::from_ms(15_000));
    assert_eq!((host.clock.date, host.clock.hold), (Date(2956), 1));
    host.clock.hold = 0;
    host.set_reading(10_000);
    host.arrival(1, &router_message(dated(0x4000), &[]))
        .unwrap();
    assert_eq!(host.clock.clock, Units::from_ms(15_000));
    assert_eq!(host.clock.date, Date(2956));
}

#[test]
fn later_ids_use_the_reading_of_the_arrival() {
    let mut host = host_with_router();
    host.settings.clock_host = 0;
    host.set_reading(10_000);
    let packet = router_message(
        heading(15_000, 10_000),
        &[(0, 0), (0, -5_000), (0, 0), (0, 0)],
    );
    host.arrival(1, &packet).unwrap();
    assert_eq!(host.clock.clock, Units::from_ms(15_000));
    assert_eq!((host.run[1].offset, host.run[1].updated), (0, 10_000));
}

#[test]
fn self_report_stores_no_delay() {
    let mut host = Host::fresh(program::SETTINGS);
    let own = host.settings.address;
    assert_eq!(host.lookup(own), Err(Refusal::HostDown));
    host.settings.clock_host = 0;
    host.set_reading(77);
    host.self_report().unwrap();
    let learned = Entry {
        updated: 77,
        ..living_here(entry(0, 120, 0))
    };
    assert_eq!(host.run[0], learned);
    assert_eq!(host.clock.clock, Units::from_ms(77));
    assert_eq!(host.lookup(own), Ok(Route { host: 0, pid: 0 }));
}

// Finding an id.

#[test]
fn ids_are_found_by_class() {
    let settings = settings_at(Address([10, 1, 2, 9]));
    let mut table = NetTable::without_rows(4);
    for (number, net, host) in [(1, [128, 7, 1], 2), (2, [10, 0, 0], 3), (3, [0, 0, 0], 1)] {
        assert_eq!(net::add(&mut table, net, host), Ok(number));
    }
    assert!(settings.suit(&table));
    let find = |octets| route::find(&settings, &table, Address(octets));
    assert_eq!(find([10, 1, 4, 9]), Some(3));
    assert_eq!(find([10, 1, 5, 9]), None);
    assert_eq!(find([10, 1, 0, 9]), None);
    assert_eq!(find([10, 1, 2, 8]), Some(3));
    assert_eq!(find([128, 7, 1, 200]), Some(2));
    assert_eq!(find([128, 7, 2, 200]), Some(1));
    assert_eq!(find([0, 0, 0, 0]), Some(1));
    assert_eq!(find([224, 0, 0, 1]), None);
    assert_eq!(net::remove(&mut table, 3), Ok(()));
    assert_eq!(route::find(&settings, &table, Address([0; 4])), None);
}

// What is borrowed, and the settings.

#[test]
fn lent_values_out_of_range() {
    let good = Host::fresh(program::SETTINGS);
    let refused = |change: &dyn Fn(&mut Host)| {
        let mut host = good.clone();
        change(&mut host);
        let before = host.clone();
        let outcome = host.tick();
        assert!(outcome.is_ok() || host == before);
        answer(&outcome)
    };
    assert_eq!(refused(&|host| host.number = 16), 12);
    assert_eq!(refused(&|host| host.run.truncate(254)), 12);
    let least = -65_535 * 65_536;
    assert_eq!(refused(&|host| host.clock.clock = Units(least - 1)), 12);
    assert_eq!(refused(&|host| host.clock.clock = Units(least)), 0);
    assert_eq!(
        refused(&|host| host.clock.clock = Units(UNITS_OF_DAY + 1)),
        12
    );
    assert_eq!(
        refused(&|host| host.clock.delta = Units(127 * 65_536 + 1)),
        12
    );
    assert_eq!(
        refused(&|host| host.clock.delta = Units(-128 * 65_536 - 1)),
        12
    );
    assert_eq!(refused(&|host| host.clock.delta = Units(-128 * 65_536)), 0);
    assert_eq!(refused(&|host| host.clock.delta = Units(127 * 65_536)), 0);
    assert_eq!(refused(&|host| host.clock.hold = 256), 12);
    assert_eq!(refused(&|host| host.clock.date = Date(0)), 12);
    assert_eq!(refused(&|host| host.links[0].keep_alive = 5), 12);
    assert_eq!(refused(&|host| host.links[1].keep_alive = 5), 0);
    assert_eq!(refused(&|host| host.run[3].delay = 30_001), 12);
    assert_eq!(refused(&|host| host.run[3].delay = -1), 12);
    assert_eq!(refused(&|host| host.run[3].ttl = 121), 12);
    assert_eq!(refused(&|host| host.run[3].pid = 9), 12);
    assert_eq!(refused(&|host| host.run[3].updated = DAY_MS + 1), 12);
    assert_eq!(refused(&|host| host.run[4].pid = 9), 0);
    assert_eq!(refused(&|host| host.settings.nhosts = 300), 1);
    assert_eq!(
        refused(&|host| {
            host.settings.nhosts = 300;
            host.run[254].pid = 9
        }),
        12
    );
    assert_eq!(
        refused(&|host| {
            host.settings.nhosts = 0;
            host.run[0].pid = 9
        }),
        1
    );
}

#[test]
fn links_are_counted_to_eight() {
    let mut host = Host::fresh(program::SETTINGS);
    assert_eq!(host.send(0, &mut []), Err(Refusal::Lent));
    assert_eq!(host.send(2, &mut []), Err(Refusal::Lent));
    assert_eq!(host.send(1, &mut []), Err(Refusal::ShortBuffer));
    host.settings.link_count = 9;
    assert_eq!(host.send(9, &mut []), Err(Refusal::Lent));
    assert_eq!(host.send(8, &mut []), Err(Refusal::Settings));
}

#[test]
fn settings_are_tested() {
    let refused = |change: &dyn Fn(&mut Settings)| {
        let mut host = Host::fresh(program::SETTINGS);
        change(&mut host.settings);
        let before = host.clone();
        let outcome = host.set_afresh();
        assert!(outcome.is_ok() || host == before);
        answer(&outcome)
    };
    assert_eq!(refused(&|set| set.address.0[0] = 0), 1);
    assert_eq!(refused(&|set| set.address.0[0] = 224), 1);
    assert_eq!(refused(&|set| set.address.0[3] = 5), 1);
    assert_eq!(refused(&|set| set.address_offset = 2), 1);
    assert_eq!(refused(&|set| set.nhosts = 0), 1);
    assert_eq!(refused(&|set| set.nhosts = 256), 1);
    assert_eq!(refused(&|set| set.clock_host = 4), 1);
    assert_eq!(refused(&|set| set.hold_interval = 0), 1);
    assert_eq!(refused(&|set| set.hold_interval = 256), 1);
    assert_eq!(refused(&|set| set.clock_tick = Units(0)), 1);
    assert_eq!(refused(&|set| set.clock_tick = Units((1 << 32) + 1)), 1);
    assert_eq!(refused(&|set| set.clock_tick = Units(1 << 32)), 0);
    assert_eq!(refused(&|set| set.time = -1), 1);
    assert_eq!(refused(&|set| set.time = DAY_MS), 1);
    assert_eq!(refused(&|set| set.date = Date(0x4000 | 1056)), 1);
    assert_eq!(refused(&|set| set.link_count = 0), 1);
    assert_eq!(refused(&|set| set.link_count = 9), 1);
    assert_eq!(refused(&|set| set.date = Date(0x8000 | 2988)), 0);
    assert_eq!(refused(&|set| set.clock_host = 3), 0);
}

#[test]
fn setting_afresh_leaves_the_other_places() {
    let mut host = Host::fresh(program::SETTINGS);
    let used = entry(1, 1, 1);
    host.run = vec![used; 3 * PLACES];
    host.number = 1;
    host.clock.clock = Units(i64::MIN);
    host.set_afresh().unwrap();
    assert_eq!(host.run[PLACES..PLACES + 4], fresh_table());
    assert!(host.run[..PLACES].iter().all(|entry| *entry == used));
    assert!(host.run[PLACES + 4..].iter().all(|entry| *entry == used));
    assert_eq!(host.clock.date, Date::FIRST.awaited());
}
