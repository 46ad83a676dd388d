//! The crystal clock: readings of CLOCK plus a count.

use super::random::{self, Random};
use super::*;

fn counter(count: u16) -> Counter {
    Counter {
        count,
        ..Counter::LINE_CLOCK
    }
}

fn marked(count: u16, again: u16) -> Counter {
    Counter {
        count,
        overflow: 1,
        again,
    }
}

/// A host with the crystal's own CLOCK-TICK, its CLOCK at some milliseconds.
fn crystal(clock_ms: i64, counter: Counter) -> Host {
    let mut settings = program::SETTINGS;
    settings.clock_tick = Units::from_ms(65_536);
    let mut host = Host::fresh(settings);
    host.set_reading(clock_ms);
    host.counter = counter;
    host
}

/// CLOCK in milliseconds, DATE and HOLD.
fn clock_of(host: &Host) -> (i64, Date, u16) {
    (
        host.clock.clock.whole_ms(),
        host.clock.date,
        host.clock.hold,
    )
}

const TODAY: Date = Date(0x8000 | 1056);
const TOMORROW: Date = Date(0x8000 | 1088);
const YESTERDAY: Date = Date(0x8000 | 13_311);

#[test]
fn a_reading_is_the_sum() {
    let mut host = crystal(1_000, counter(65_535));
    host.clock.clock = Units(1_000 * 65_536 + 65_535);
    let before = host.clone();
    let returned = Reading {
        time: 66_535,
        date: TODAY,
    };
    assert_eq!(host.read(), Ok(returned));
    assert_eq!(host, before);
}

#[test]
fn a_reading_of_exactly_one_day_stays() {
    let mut host = crystal(DAY_MS - 5, counter(5));
    assert_eq!(host.read().unwrap().time, DAY_MS);
    assert_eq!(clock_of(&host), (DAY_MS - 5, TODAY, 0));
}

#[test]
fn a_count_over_midnight_moves_the_date_on() {
    let mut host = crystal(DAY_MS - 5, counter(6));
    let returned = Reading {
        time: 1,
        date: TOMORROW,
    };
    assert_eq!(host.read(), Ok(returned));
    assert_eq!(clock_of(&host), (-5, TOMORROW, 1));
    assert_eq!(host.read(), Ok(returned));
    assert_eq!(clock_of(&host), (-5, TOMORROW, 1));
}

#[test]
fn one_unit_over_midnight_is_over() {
    let mut host = crystal(0, counter(5));
    host.clock.clock = Units((DAY_MS - 5) * 65_536 + 1);
    assert_eq!(host.read().unwrap().time, 0);
    assert_eq!(host.clock.clock, Units(-5 * 65_536 + 1));
}

#[test]
fn a_sum_below_zero_moves_the_date_back() {
    let mut host = crystal(-5, counter(4));
    let returned = Reading {
        time: DAY_MS - 1,
        date: YESTERDAY,
    };
    assert_eq!(host.read(), Ok(returned));
    assert_eq!(clock_of(&host), (DAY_MS - 5, YESTERDAY, 1));
    let mut host = crystal(-5, counter(5));
    assert_eq!(host.read().unwrap().time, 0);
    assert_eq!(clock_of(&host), (-5, TODAY, 0));
}

#[test]
fn clock_may_stand_below_zero() {
    let mut host = crystal(-65_535, counter(65_535));
    assert_eq!(host.read().unwrap().time, 0);
    assert_eq!(clock_of(&host), (-65_535, TODAY, 0));
    host.clock.clock = Units(-65_535 * 65_536 - 1);
    let before = host.clone();
    assert_eq!(host.read(), Err(Refusal::Lent));
    assert_eq!(host, before);
}

#[test]
fn with_the_mark_the_second_count_is_used() {
    for overflow in [1, 2, 255] {
        let mut host = crystal(1_000, marked(65_535, 7));
        host.counter.overflow = overflow;
        assert_eq!(host.read().unwrap().time, 1_000 + 65_536 + 7);
        assert_eq!(clock_of(&host), (66_536, TODAY, 0));
    }
    let mut host = crystal(1_000, counter(3));
    host.counter.again = 9;
    assert_eq!(host.read().unwrap().time, 1_003);
}

#[test]
fn the_mark_at_the_limit() {
    let mut host = crystal(DAY_MS, marked(0, 65_535));
    assert_eq!(host.read().unwrap().time, 65_536 + 65_535);
    assert_eq!(clock_of(&host), (65_536, TOMORROW, 1));
    let mut host = crystal(DAY_MS - 65_536, marked(65_535, 0));
    assert_eq!(host.read().unwrap().time, DAY_MS);
    assert_eq!(clock_of(&host), (DAY_MS, TODAY, 0));
    let mut host = crystal(-65_535, marked(0, 0));
    assert_eq!(host.read().unwrap().time, 1);
    assert_eq!(clock_of(&host), (1, TODAY, 0));
}

#[test]
fn midnight_is_tested_once_behind_the_marked_tick() {
    let mut host = crystal(-65_535, marked(0, 65_535));
    assert_eq!(host.read().unwrap().time, 65_536);
    assert_eq!(clock_of(&host), (1, TODAY, 0));
}

#[test]
fn tick_adjust_and_set_test_the_sum() {
    let runs: [fn(&mut Host) -> Done; 3] = [Host::tick, Host::adjust, |host| host.set(100)];
    for run in runs {
        let mut host = crystal(DAY_MS, marked(1, 500));
        host.settings.clock_tick = Units(1);
        run(&mut host).unwrap();
        assert_eq!(clock_of(&host), (0, TOMORROW, 1));
        let mut host = crystal(-3, marked(2, 500));
        host.settings.clock_tick = Units(1);
        run(&mut host).unwrap();
        assert_eq!(clock_of(&host), (DAY_MS - 3, YESTERDAY, 1));
    }
    let mut host = crystal(-3, counter(2));
    host.set(1_000).unwrap();
    assert_eq!(clock_of(&host), (997, TODAY, 1));
}

#[test]
fn a_send_reads_before_it_uses_the_date() {
    let mut host = crystal(DAY_MS - 5, counter(105));
    host.links[0].keep_alive = 2;
    host.links[0].tsp = 1_000;
    let mut short = [0xEE; 31];
    let before = host.clone();
    assert_eq!(host.send(1, &mut short), Err(Refusal::ShortBuffer));
    assert_eq!((&host, short), (&before, [0xEE; 31]));
    let message = host.message(1);
    assert_eq!(message[22..24], TOMORROW.0.to_be_bytes());
    assert_eq!(message[24..28], 100_u32.to_be_bytes());
    assert_eq!(message[28..30], 1_100_u16.to_be_bytes());
    assert_eq!(clock_of(&host), (-5, TOMORROW, 1));
}

#[test]
fn a_self_report_stores_the_sum() {
    let mut host = crystal(1_000, marked(9, 77));
    host.self_report().unwrap();
    assert_eq!(host.run[0].updated, 66_613);
    assert_eq!(clock_of(&host), (66_536, TODAY, 0));
}

#[test]
fn hold_that_the_reading_loads_counts_in_step_4() {
    let mut host = crystal(DAY_MS - 5, counter(105));
    host.links[0].neighbor = ROUTER;
    let message = router_message(heading(100, 100), &[]);
    assert_eq!(host.arrival(1, &message), Err(Refusal::DelayNotValid));
    assert_eq!(clock_of(&host), (-5, TOMORROW, 1));
    assert_eq!((host.links[0].keep_alive, host.links[0].tsp), (4, 0));
}

#[test]
fn an_arrival_without_a_host_keeps_the_reading() {
    let mut host = crystal(DAY_MS - 5, marked(0, 105));
    let message = message_from(Address([192, 0, 3, 9]), heading(0, 1), &[]);
    assert_eq!(host.arrival(1, &message), Err(Refusal::NoHost));
    assert_eq!(clock_of(&host), (65_531, TOMORROW, 1));
}

#[test]
fn a_refused_arrival_does_not_read() {
    let mut host = crystal(DAY_MS - 5, marked(0, 105));
    let looped = message_from(host.settings.address, heading(0, 1), &[]);
    let before = host.clone();
    assert_eq!(host.arrival(1, &looped), Err(Refusal::LoopedLine));
    assert_eq!(host.act(1, &looped), Err(Refusal::LoopedLine));
    assert_eq!(host, before);
}

#[test]
fn the_clock_hosts_set_takes_the_count_of_the_reading() {
    let mut host = crystal(10_000, marked(60_000, 500));
    host.links[0].neighbor = ROUTER;
    host.settings.clock_host = 1;
    // The reading is 76,036, whose low 16 bits the packet sends back.
    let message = router_message(heading(46_036, 10_500), &[]);
    host.arrival(1, &message).unwrap();
    assert_eq!(host.run[1].offset, -30_000);
    assert_eq!(clock_of(&host), (45_536, TODAY, 1));
    // CLOCK goes below zero, but the sum does not.
    let mut host = crystal(29_600, counter(500));
    host.links[0].neighbor = ROUTER;
    host.settings.clock_host = 1;
    host.arrival(1, &router_message(heading(100, 30_100), &[]))
        .unwrap();
    assert_eq!(clock_of(&host), (-400, TODAY, 1));
    assert_eq!(host.read().unwrap().time, 100);
}

#[test]
fn setting_afresh_puts_the_starting_time_in_clock() {
    let mut host = crystal(5, marked(9, 9));
    host.settings.time = DAY_MS - 1;
    host.set_afresh().unwrap();
    assert_eq!(clock_of(&host), (DAY_MS - 1, TODAY, 0));
}

/// With zeros handed in and CLOCK in the day, reading changes nothing.
#[test]
fn a_line_clock_is_as_it_was() {
    let mut random = Random(4);
    for _ in 0..1_000 {
        let mut host = random::host(&mut random);
        host.counter = Counter::LINE_CLOCK;
        host.set_reading(random.between(0, DAY_MS));
        let before = host.clone();
        let returned = Reading {
            time: before.clock.clock.whole_ms(),
            date: before.clock.date,
        };
        assert_eq!(host.read(), Ok(returned));
        assert_eq!(host, before);
        host.self_report().unwrap();
        host.message(1);
        assert_eq!(host.clock, before.clock);
        host.set(-128).unwrap();
        assert_eq!(host.clock.clock, before.clock.clock);
        assert_eq!(host.clock.hold, before.clock.hold);
    }
}

/// After any call that reads or alters CLOCK, the sum is in the day.
#[test]
fn the_sum_ends_in_the_day() {
    let mut random = Random(5);
    for _ in 0..2_000 {
        let mut host = random::host(&mut random);
        let counter = host.counter;
        let used = match random.below(4) {
            0 => host.tick().map(|()| counter.count),
            1 => host.adjust().map(|()| counter.count),
            2 => host.set(random.next() as i32).map(|()| counter.count),
            _ if counter.overflow == 0 => host.read().map(|_| counter.count),
            _ => host.read().map(|_| counter.again),
        };
        let sum = host.clock.clock.0 + i64::from(used.unwrap()) * 65_536;
        assert!((0..=UNITS_OF_DAY).contains(&sum));
        assert!(host.clock.in_range());
    }
}
