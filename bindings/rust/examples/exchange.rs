//! An exchange of two hosts: how A learns DELAY and OFFSET of B.
//!
//! B's clock is 500 ms ahead of A's. A sends at 40,000 by its clock; B gets it at 40,530 by its
//! own, and answers at 45,530; A gets the answer at 45,081. So the way there and back took 81 ms,
//! and A takes B to be 489 ms ahead.
//!
//! Run with `cargo run --example exchange`.

use hello::{Address, Answer, Counter, Entry, Found, Host, Layout, Room, Seen, Settings};

/// The hosts' numbers in the room, which are their ids too.
const A: usize = 0;
const B: usize = 1;

/// Both hosts have one link, number 1.
const LINK: usize = 1;

/// Both have a line clock, which ticks each ms.
const LINE_CLOCK: Counter = Counter::LINE_CLOCK;

/// The address of host `number`: 192.0.2.1 and 192.0.2.2.
fn address(number: usize) -> Address {
    Address::new(192, 0, 2, 1 + number as u8)
}

/// The class has two hosts; host 192.0.2.1 has id 0.
const LAYOUT: Layout = Layout {
    address_offset: 1,
    nhosts: 2,
};

/// The settings of host `number`, its clock starting at `time` ms.
fn settings(number: usize, time: i64) -> Settings {
    Settings {
        time,
        ..Settings::new(address(number), LAYOUT)
    }
}

/// Ticks until the host's clock reads `time` ms.
fn wait_until(mut host: Host, time: i64) -> Result<(), Answer> {
    while host.read(LINE_CLOCK)?.time < time {
        host.tick(0)?;
    }
    assert_eq!(host.read(LINE_CLOCK)?.time, time);
    Ok(())
}

/// Takes a message that arrives now: looks at it, then acts on it. What it says.
fn take(mut host: Host, message: &[u8]) -> Result<Seen, Answer> {
    let seen = host.inspect(LINK, message)?;
    host.act(LINK, LINE_CLOCK, message)?;
    Ok(seen)
}

fn main() -> Result<(), Answer> {
    let mut room = Room::new(2, LAYOUT.nhosts);
    room.host(A).initialize(settings(A, 39_900))?;
    room.host(B).initialize(settings(B, 40_400))?;

    // B introduces itself, so that A knows its neighbor.
    let introduction = room.host(B).send(LINK, LINE_CLOCK)?;
    wait_until(room.host(A), 39_930)?;
    let seen = take(room.host(A), &introduction)?;
    let expected = Seen {
        source: address(B),
        time: 40_400,
        tsp: 0, // B has heard nobody yet
        nhosts: 0,
    };
    assert_eq!(seen, expected);
    assert_eq!(room.host(A).links.all[0].neighbor, address(B));

    wait_until(room.host(A), 40_000)?;
    let question = room.host(A).send(LINK, LINE_CLOCK)?;
    wait_until(room.host(B), 40_530)?;
    assert_eq!(take(room.host(B), &question)?.time, 40_000);
    assert_eq!(room.host(B).links.all[0].tsp, -530);

    wait_until(room.host(B), 45_530)?;
    room.host(B).self_report(LINE_CLOCK)?;
    let reply = room.host(B).send(LINK, LINE_CLOCK)?;
    wait_until(room.host(A), 45_081)?;
    let seen = take(room.host(A), &reply)?;
    assert_eq!((seen.time, seen.tsp, seen.nhosts), (45_530, 45_000, 2));

    // DELAY 81 counts as the least one, 100; OFFSET is 449 + 81 / 2.
    let learned = room.host(A).table()[B];
    let expected = Entry {
        delay: 100,
        offset: 489,
        ttl: 120,
        pid: LINK as u8,
        here: 0,
        time: 45_081,
    };
    assert_eq!(learned, expected);
    let found = room.host(A).lookup(address(B))?;
    assert_eq!(found, Found { id: B, pid: 1 });

    println!(
        "A has for B: DELAY {} ms, OFFSET {} ms.",
        learned.delay, learned.offset
    );
    Ok(())
}
