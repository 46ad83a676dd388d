//! The crystal clock: a reading is CLOCK plus the count of a counter of 1,000 Hz.

use hello::{date, Address, Answer, Counter, Host, Layout, Reading, Room, Settings};
use hello::{LONGEST_MESSAGE, UNITS_PER_MS};

const DAY: i64 = 86_400_000;
/// CLOCK-TICK of a counter of 16 bits, in ms.
const TICK: i64 = 65_536;
const HOLD_INTERVAL: u16 = 10;
const LAYOUT: Layout = Layout {
    address_offset: 1,
    nhosts: 2,
};

/// The day of January 1972, while a master's date is awaited.
fn january(day: u16) -> u16 {
    date(1972, 1, day).unwrap() | 0x8000
}

/// A host of two, that many ms after midnight of 2 January, with a crystal clock.
fn with_crystal<T>(time: i64, run: impl FnOnce(Host) -> T) -> T {
    let settings = Settings {
        clock_tick: TICK * UNITS_PER_MS,
        hold_interval: HOLD_INTERVAL,
        time,
        date: date(1972, 1, 2).unwrap(),
        ..Settings::new(Address::new(192, 0, 2, 1), LAYOUT)
    };
    let mut room = Room::new(1, LAYOUT.nhosts);
    assert_eq!(room.host(0).initialize(settings), Ok(()));
    run(room.host(0))
}

/// CLOCK in ms.
fn clock_ms(host: &Host) -> i64 {
    host.clock.clock / UNITS_PER_MS
}

/// A message of a host with that address, with TSP 0, which it sends at 0 ms of its clock.
fn message_of(address: Address) -> Vec<u8> {
    let mut room = Room::new(1, LAYOUT.nhosts);
    let mut host = room.host(0);
    let answer = host.initialize(Settings::new(address, LAYOUT));
    assert_eq!(answer, Ok(()));
    host.send(1, Counter::LINE_CLOCK)
        .expect("a send that is done")
}

#[test]
fn a_reading_adds_the_count_and_keeps_clock() {
    with_crystal(1_000, |mut host| {
        for count in [0, 1, u16::MAX] {
            let reading = Reading {
                time: 1_000 + i64::from(count),
                date: january(2),
            };
            assert_eq!(host.read(Counter::of(count)), Ok(reading));
            assert_eq!(clock_ms(&host), 1_000);
        }
    })
}

#[test]
fn a_mark_adds_the_tick_and_uses_the_second_count() {
    for overflow in [1, u8::MAX] {
        with_crystal(1_000, |mut host| {
            let counter = Counter {
                overflow,
                ..Counter::overflowed(65_535, 7)
            };
            let reading = Reading {
                time: 1_000 + TICK + 7,
                date: january(2),
            };
            assert_eq!(host.read(counter), Ok(reading));
            assert_eq!(clock_ms(&host), 1_000 + TICK);
        })
    }
}

#[test]
fn without_a_mark_the_second_count_is_not_looked_at() {
    with_crystal(1_000, |mut host| {
        let counter = Counter {
            again: 9,
            ..Counter::of(5)
        };
        assert_eq!(host.read(counter).map(|returned| returned.time), Ok(1_005));
    })
}

#[test]
fn a_reading_over_midnight_moves_the_date_and_loads_hold() {
    with_crystal(DAY - 10, |mut host| {
        let returned = |time, date| Ok(Reading { time, date });
        assert_eq!(host.read(Counter::of(10)), returned(DAY, january(2)));
        assert_eq!(host.clock.hold, 0);
        assert_eq!(host.read(Counter::of(11)), returned(1, january(3)));
        assert_eq!((clock_ms(&host), host.clock.hold), (-10, HOLD_INTERVAL));
        // The next tick comes at the overflow.
        assert_eq!(host.tick(0), Ok(()));
        assert_eq!(clock_ms(&host), TICK - 10);
    })
}

#[test]
fn a_reading_below_zero_moves_the_date_back() {
    with_crystal(0, |mut host| {
        host.clock.clock = -65_535 * UNITS_PER_MS;
        let returned = |time, date| Ok(Reading { time, date });
        assert_eq!(host.read(Counter::of(u16::MAX)), returned(0, january(2)));
        assert_eq!(
            host.read(Counter::of(5)),
            returned(DAY - 65_530, january(1))
        );
        assert_eq!(host.clock.hold, HOLD_INTERVAL);
    })
}

#[test]
fn clock_may_stand_65_535_ms_below_zero() {
    with_crystal(0, |mut host| {
        host.clock.clock = -65_535 * UNITS_PER_MS;
        assert_eq!(host.second(), Ok(()));
        host.clock.clock -= 1;
        assert_eq!(host.second(), Err(Answer::OutOfRange));
    })
}

#[test]
fn a_tick_of_more_than_65_536_ms_is_refused() {
    with_crystal(0, |mut host| {
        assert_eq!(host.tick(0), Ok(()));
        host.settings.clock_tick += 1;
        assert_eq!(host.tick(0), Err(Answer::Setting));
    })
}

#[test]
fn tick_adjust_and_set_test_midnight_on_the_sum() {
    with_crystal(DAY - TICK - 10, |mut host| {
        assert_eq!(host.tick(11), Ok(()));
        assert_eq!((clock_ms(&host), host.clock.date), (-10, january(3)));
        assert_eq!(host.adjust(10), Ok(()));
        assert_eq!(clock_ms(&host), -10);
        assert_eq!(host.adjust(9), Ok(()));
        assert_eq!((clock_ms(&host), host.clock.date), (DAY - 10, january(2)));
    });
    with_crystal(500, |mut host| {
        assert_eq!(host.set(-600, 100), Ok(()));
        assert_eq!((clock_ms(&host), host.clock.date), (-100, january(2)));
        assert_eq!(host.set(0, 99), Ok(()));
        assert_eq!((clock_ms(&host), host.clock.date), (DAY - 100, january(1)));
    })
}

#[test]
fn sends_and_self_reports_read_the_sum() {
    with_crystal(1_000, |mut host| {
        let message = host.send(1, Counter::of(234)).expect("a send that is done");
        assert_eq!(message[24..28], 1_234u32.to_be_bytes());
        assert_eq!(host.self_report(Counter::overflowed(9, 8)), Ok(()));
        assert_eq!(host.table()[0].time, 1_000 + TICK + 8);
        assert_eq!(clock_ms(&host), 1_000 + TICK);
    })
}

#[test]
fn refusals_without_a_reading_leave_the_clock() {
    with_crystal(DAY - 1, |mut host| {
        let (before, marked) = (*host.clock, Counter::overflowed(1, 1));
        let refused = host.send_into(1, marked, &mut [0; 31]);
        assert_eq!(refused, Err(Answer::ShortBuffer));
        assert_eq!(host.act(1, marked, &[]), Err(Answer::IpForm));
        assert_eq!(host.act(2, marked, &[]), Err(Answer::OutOfRange));
        assert_eq!(*host.clock, before);
        let sent = host.send_into(1, marked, &mut [0; LONGEST_MESSAGE]);
        assert_eq!((sent, clock_ms(&host)), (Ok(32), TICK - 1));
    })
}

#[test]
fn answers_10_and_11_keep_what_the_reading_did() {
    let far = Address::new(198, 51, 100, 1);
    let neighbor = Address::new(192, 0, 2, 2);
    with_crystal(1_000, |mut host| {
        host.links.all[0].neighbor = neighbor;
        let (marked, packet) = (Counter::overflowed(0, 5), message_of(neighbor));
        assert_eq!(host.act(1, marked, &packet), Err(Answer::DelayNotValid));
        assert_eq!(clock_ms(&host), 1_000 + TICK);
        assert_eq!(host.links.all[0].tsp, -(1_000 + TICK + 5) as i16);
    });
    with_crystal(DAY - 5, |mut host| {
        let answer = host.receive(1, Counter::of(6), &message_of(far));
        assert_eq!(answer, Err(Answer::NoHost));
        assert_eq!((clock_ms(&host), host.clock.date), (-5, january(3)));
    })
}
