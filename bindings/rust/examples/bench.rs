//! An exercise in one file, run by the class bench: the half-delay error.
//!
//! Ben's clock is 500 ms ahead of Ada's. A message from Ada to Ben takes no time, one back 101 ms. In
//! the first round they hear of each other; what Ada gets in the second is believed. Her OFFSET for
//! Ben is then 449: off by half of the way there and back.
//!
//! Run with `cargo run --example bench`.

use hello::bench_file::{End, Event, File};
use hello::{Address, Answer, Bench, ClassTable, Counter, Layout, Settings, UNITS_PER_MS};

/// The hosts' numbers, which are their ids too.
const ADA: u8 = 0;
const BEN: u8 = 1;

/// The cable, whose ends are Ada's link 1 and Ben's, and two slots for what is on its way.
const CABLE: u8 = 0;
const TO_BEN: u8 = 0;
const TO_ADA: u8 = 1;

/// The class has two hosts; host 192.0.2.1 has id 0.
const LAYOUT: Layout = Layout {
    address_offset: 1,
    nhosts: 2,
};

/// A host with a crystal clock, starting at `time` ms.
fn host(id: u8, time: i64) -> Settings {
    Settings {
        clock_tick: 65_536 * UNITS_PER_MS,
        time,
        ..Settings::new(Address::new(192, 0, 2, 1 + id), LAYOUT)
    }
}

/// The host at an end of the cable sends at `count` ms of the exercise, and the message arrives so
/// many later.
fn message(end: u8, slot: u8, count: u16, takes: u16) -> [Event; 2] {
    let send = Event::Send {
        cable: CABLE,
        end,
        slot,
        counter: Counter::of(count),
    };
    let arrival = Event::Arrival {
        slot,
        counter: Counter::of(count + takes),
    };
    [send, arrival]
}

fn exercise() -> File {
    let mut events = vec![
        Event::SelfReport(ADA, Counter::of(0)),
        Event::SelfReport(BEN, Counter::of(0)),
    ];
    for start in [0, 101] {
        events.extend(message(ADA, TO_BEN, start, 0));
        events.extend(message(BEN, TO_ADA, start, 101));
    }
    let [ada, ben] = [ADA, BEN].map(|host| End { host, link: 1 });
    File {
        hosts: vec![host(ADA, 40_000), host(BEN, 40_500)],
        cables: vec![[ada, ben]],
        events,
    }
}

fn main() -> Result<(), Answer> {
    let file = exercise();
    let mut bench = Bench::new(file.octets()?, ClassTable::new(LAYOUT.nhosts));
    bench.set_up()?;

    // Up to Ben's first message, which is on its way in its slot.
    assert_eq!(bench.run(5)?, 5);
    let packet = bench.packet(TO_ADA.into()).expect("Ben has sent");
    assert_eq!((packet.cable, packet.end), (CABLE, BEN));

    // All that is left; another allowance, and it would end alike.
    assert_eq!(bench.run(usize::MAX)?, file.events.len() - 5);
    assert!(bench.answers().into_iter().all(Answer::is_done));
    let learned = bench.table(ADA.into())[usize::from(BEN)];
    assert_eq!((learned.delay, learned.offset), (101, 449));

    println!(
        "{} events, and Ada has for Ben: DELAY {} ms, OFFSET {} ms.",
        bench.done(),
        learned.delay,
        learned.offset
    );
    Ok(())
}
