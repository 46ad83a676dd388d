//! Rules that are seen at full calls only: what a send says of a route, how an entry ages, what a
//! lookup returns, and how a packet is inspected and acted on.

use hello::{
    Address, Answer, Counter, Entry, Found, Host, Layout, LinkSetting, Room, Seen, Settings,
};

const LINE_CLOCK: Counter = Counter::LINE_CLOCK;

/// A route by that link.
fn route(delay: i64, ttl: u16, pid: u8) -> Entry {
    Entry {
        delay,
        offset: 7,
        ttl,
        pid,
        here: 0,
        time: 0,
    }
}

/// Host 192.0.2.1 among four, with two broadcast links, and that entry for id 2.
fn with_host<T>(entry: Entry, run: impl Fn(Host) -> T) -> T {
    let layout = Layout {
        address_offset: 1,
        nhosts: 4,
    };
    let mut settings = Settings::new(Address::new(192, 0, 2, 1), layout);
    settings.links[..2].fill(LinkSetting::broadcast(Address::new(192, 0, 2, 255)));
    settings.link_count = 2;
    let mut room = Room::new(1, layout.nhosts);
    let mut host = room.host(0);
    assert_eq!(host.initialize(settings), Ok(()));
    host.table_mut()[2] = entry;
    run(host)
}

/// DELAY and OFFSET of id 2 in a message of the link.
fn advertised(entry: Entry, link: usize) -> (u16, u16) {
    let message =
        with_host(entry, |mut host| host.send(link, LINE_CLOCK)).expect("a send that is done");
    let word = |at: usize| u16::from_be_bytes([message[at], message[at + 1]]);
    (word(40), word(42))
}

#[test]
fn a_link_is_not_told_of_its_own_routes() {
    assert_eq!(advertised(route(500, 60, 1), 1), (30_000, 7));
    assert_eq!(advertised(route(500, 60, 1), 2), (500, 7));
    assert_eq!(advertised(route(500, 60, 2), 1), (500, 7));
    assert_eq!(advertised(route(0, 60, 0), 1), (0, 7));
}

#[test]
fn an_entry_goes_down_when_its_ttl_ends() {
    let later = |entry| {
        with_host(entry, |mut host| {
            assert_eq!(host.second(), Ok(()));
            host.table()[2]
        })
    };
    assert_eq!(later(route(500, 2, 1)), route(500, 1, 1));
    assert_eq!(later(route(500, 1, 1)), route(30_000, 120, 1));
    assert_eq!(later(route(500, 0, 1)), route(500, 0, 1));
    assert_eq!(later(route(30_000, 1, 1)), route(30_000, 0, 1));
}

#[test]
fn a_lookup_tells_id_and_link() {
    let found = |entry| with_host(entry, |mut host| host.lookup(Address::new(192, 0, 2, 3)));
    assert_eq!(found(route(500, 60, 1)), Ok(Found { id: 2, pid: 1 }));
    assert_eq!(found(route(29_999, 60, 8)), Ok(Found { id: 2, pid: 8 }));
    assert_eq!(found(route(30_000, 60, 1)), Err(Answer::HostDown));
}

/// The two hosts of a room, 192.0.2.1 and 192.0.2.2, each with one point-to-point link.
const A: usize = 0;
const B: usize = 1;

fn address(number: usize) -> Address {
    Address::new(192, 0, 2, 1 + number as u8)
}

/// That room, and a message of B with TSP 65,534, which A has not heard yet.
fn room_and_message() -> (Room, Vec<u8>) {
    let layout = Layout {
        address_offset: 1,
        nhosts: 2,
    };
    let mut room = Room::new(2, layout.nhosts);
    for number in [A, B] {
        let settings = Settings::new(address(number), layout);
        assert_eq!(room.host(number).initialize(settings), Ok(()));
    }
    let mut b = room.host(B);
    let link = &mut b.links.all[0];
    (link.neighbor, link.keep_alive, link.tsp) = (address(A), 1, -2);
    let message = b.send(1, LINE_CLOCK).expect("a send that is done");
    (room, message)
}

/// All that a host keeps.
fn kept(room: &mut Room, number: usize) -> impl PartialEq + std::fmt::Debug {
    let host = room.host(number);
    (*host.clock, *host.links, host.table().to_vec())
}

#[test]
fn an_inspection_tells_and_changes_nothing() {
    let (mut room, mut message) = room_and_message();
    let before = kept(&mut room, A);
    let seen = Seen {
        source: address(B),
        time: 0,
        tsp: 65_534,
        nhosts: 2,
    };
    assert_eq!(room.host(A).inspect(1, &message), Ok(seen));
    message[25] ^= 1;
    let damaged = room.host(A).inspect(1, &message);
    assert_eq!(damaged, Err(Answer::HelloChecksum));
    assert_eq!(kept(&mut room, A), before);
}

#[test]
fn calls_may_come_between_inspection_and_action() {
    let (mut room, message) = room_and_message();
    let mut a = room.host(A);
    let carries_both = a.settings.with_marks([B as u8]);
    assert_eq!(a.initialize(carries_both), Ok(()));
    assert!(a.inspect(1, &message).is_ok());
    assert_eq!(a.set(200, 0), Ok(()));
    assert_eq!(a.act(1, LINE_CLOCK, &message), Ok(()));
    assert_eq!(a.links.all[0].tsp, -200);
    // Its delay is not valid while HOLD runs, and its source may become the host's own address.
    assert!(a.inspect(1, &message).is_ok());
    assert_eq!(a.act(1, LINE_CLOCK, &message), Err(Answer::DelayNotValid));
    a.settings.address = address(B);
    assert_eq!(a.act(1, LINE_CLOCK, &message), Err(Answer::LoopedLine));
}

#[test]
fn an_arrival_is_the_pair_and_the_action_alone() {
    let (room, message) = room_and_message();
    let [mut complete, mut pair, mut alone] = [room.clone(), room.clone(), room];
    assert_eq!(complete.host(A).receive(1, LINE_CLOCK, &message), Ok(()));
    assert!(pair.host(A).inspect(1, &message).is_ok());
    for acting in [&mut pair, &mut alone] {
        assert_eq!(acting.host(A).act(1, LINE_CLOCK, &message), Ok(()));
        assert_eq!(kept(acting, A), kept(&mut complete, A));
    }
}

/// The DATE word of days that there are, and of days that there are not.
#[test]
fn dates_of_the_calendar() {
    assert_eq!(hello::date(1972, 1, 1), Some(hello::FIRST_DATE));
    assert_eq!(hello::date(1984, 2, 28), Some(2956));
    assert_eq!(hello::date(1984, 2, 29), Some(2988));
    assert_eq!(hello::date(2003, 12, 31), Some(13_311));
    for (year, month, day) in [
        (1971, 12, 31),
        (2004, 1, 1),
        (1985, 2, 29),
        (1985, 4, 31),
        (1984, 13, 1),
        (1984, 0, 1),
        (1984, 1, 0),
        (1984, 1, 32),
    ] {
        assert_eq!(hello::date(year, month, day), None);
    }
}
