//! The net table of a class: the tutor's calls, and what they are to its hosts.

use hello::nets::{self, NetAdded};
use hello::{Address, Answer, ClassTable, Counter, Entry, Found, Host, Layout, Link, LinkSetting};
use hello::{Net, Place, Room, Row, Settings, PLACES, ROWS};

const LINE_CLOCK: Counter = Counter::LINE_CLOCK;

const LAYOUT: Layout = Layout {
    address_offset: 1,
    nhosts: 4,
};

/// Three nets, of class A, B and C.
const A: Net = Net::new(10, 0, 0);
const B: Net = Net::new(128, 1, 0);
const C: Net = Net::new(192, 0, 9);

/// Host 192.0.2.1 has id 0.
fn address(id: u8) -> Address {
    Address::new(192, 0, 2, 1 + id)
}

fn row(net: Net, id: u8) -> Row {
    Row { net, id }
}

/// A room of two hosts, each of which has reported itself.
fn room() -> Room {
    let mut room = Room::new(2, LAYOUT.nhosts);
    for number in 0..2 {
        let mut host = room.host(number);
        let settings = Settings::new(address(number as u8), LAYOUT);
        assert_eq!(host.initialize(settings), Ok(()));
        assert_eq!(host.self_report(LINE_CLOCK), Ok(()));
    }
    room
}

#[test]
fn rows_keep_their_order_and_are_numbered_from_1() {
    let mut table = ClassTable::new(4);
    assert_eq!(table.add(A, 3), Ok(1));
    assert_eq!(table.add(B, 0), Ok(2));
    assert_eq!(table.add(A, 1), Ok(3));
    assert_eq!(table.rows(), [row(A, 3), row(B, 0), row(A, 1)]);
    assert_eq!(table.change(2, 2), Ok(()));
    assert_eq!(table.rows(), [row(A, 3), row(B, 2), row(A, 1)]);
    assert_eq!(table.remove(1), Ok(()));
    assert_eq!(table.rows(), [row(B, 2), row(A, 1)]);
    assert_eq!(table.add(C, 0), Ok(3));
    assert_eq!(table.remove(3), Ok(()));
    assert_eq!(table.remove(2), Ok(()));
    assert_eq!(table.rows(), [row(B, 2)]);
    assert!(table.net.rows[1..]
        .iter()
        .all(|slot| *slot == Row::default()));
    assert_eq!(table.initialize(200), Ok(()));
    assert_eq!(table, ClassTable::new(200));
}

#[test]
fn the_tutors_refusals_come_in_their_order() {
    let mut table = ClassTable::new(4);
    for id in [4, 255, 256, 1 << 32, usize::MAX] {
        assert_eq!(table.add(A, id), Err(Answer::Setting));
    }
    for number in [0, 1, 33, usize::MAX] {
        assert_eq!(table.remove(number), Err(Answer::NoRow));
        // 22 before 1.
        assert_eq!(table.change(number, 4), Err(Answer::NoRow));
    }
    for number in 1..=ROWS {
        assert_eq!(table.add(B, 3), Ok(number));
    }
    let full = table;
    // 21 before 1, and 12 before all.
    assert_eq!(table.add(B, 4), Err(Answer::TableFull));
    assert_eq!(table.change(32, 4), Err(Answer::Setting));
    assert_eq!(table.initialize(0), Err(Answer::Setting));
    assert_eq!(table.initialize(256), Err(Answer::Setting));
    assert_eq!(table, full);
    table.nhosts = 3;
    let bad = table;
    let refused = NetAdded { answer: 12, row: 0 };
    assert_eq!(nets::add(&mut table, B, 9), refused);
    assert_eq!(table.remove(0), Err(Answer::OutOfRange));
    assert_eq!(table.change(0, 9), Err(Answer::OutOfRange));
    // Initializing makes no test of the table; refused, it keeps even a bad one.
    assert_eq!(table.initialize(0), Err(Answer::Setting));
    assert_eq!(table, bad);
    assert_eq!(table.initialize(PLACES), Ok(()));
    assert_eq!(table, ClassTable::new(PLACES));
}

/// Tables that 12 refuses.
fn bad_tables() -> Vec<ClassTable> {
    let mut tables = vec![
        ClassTable::new(0),
        ClassTable::new(256),
        ClassTable::new(usize::MAX),
    ];
    for count in [33, usize::MAX] {
        let mut table = ClassTable::new(4);
        table.net.count = count;
        tables.push(table);
    }
    // An id not below NHOSTS, in the first row, in the last, and after a row of net zero.
    for place in [0, 1, 31] {
        let mut table = ClassTable::new(4);
        table.net.count = 32;
        table.net.rows[place] = row(A, 4);
        tables.push(table);
    }
    tables
}

#[test]
fn every_call_of_a_host_refuses_a_bad_table() {
    let mut room = room();
    let packet = room.host(1).send(1, LINE_CLOCK).expect("a message");
    let good = room.net_table;
    for bad in bad_tables() {
        room.net_table = bad;
        let mut host = room.host(0);
        let settings = *host.settings;
        assert_eq!(host.initialize(settings), Err(Answer::OutOfRange));
        assert_eq!(host.tick(0), Err(Answer::OutOfRange));
        assert_eq!(host.adjust(0), Err(Answer::OutOfRange));
        assert_eq!(host.set(500, 0), Err(Answer::OutOfRange));
        assert_eq!(host.read(LINE_CLOCK), Err(Answer::OutOfRange));
        assert_eq!(host.second(), Err(Answer::OutOfRange));
        assert_eq!(host.self_report(LINE_CLOCK), Err(Answer::OutOfRange));
        assert_eq!(host.send(1, LINE_CLOCK), Err(Answer::OutOfRange));
        assert_eq!(host.inspect(1, &packet), Err(Answer::OutOfRange));
        assert_eq!(host.act(1, LINE_CLOCK, &packet), Err(Answer::OutOfRange));
        assert_eq!(
            host.receive(1, LINE_CLOCK, &packet),
            Err(Answer::OutOfRange)
        );
        assert_eq!(host.open_walk(1, &packet), Err(Answer::OutOfRange));
        assert_eq!(host.step(LINE_CLOCK), Err(Answer::OutOfRange));
        assert_eq!(host.lookup(address(0)), Err(Answer::OutOfRange));
    }
    // What is after the rows is not looked at.
    room.net_table = good;
    room.net_table.net.rows[0] = row(A, 255);
    assert_eq!(room.host(0).tick(0), Ok(()));
}

#[test]
fn a_host_of_another_nhosts_is_refused_with_1() {
    let mut room = room();
    assert_eq!(room.net_table.initialize(5), Ok(()));
    let mut host = room.host(0);
    let wider = Settings {
        layout: Layout {
            nhosts: 5,
            ..LAYOUT
        },
        ..*host.settings
    };
    let same = *host.settings;
    assert_eq!(host.initialize(same), Err(Answer::Setting));
    assert_eq!(host.tick(0), Err(Answer::Setting));
    assert_eq!(host.lookup(address(0)), Err(Answer::Setting));
    assert_eq!(host.step(LINE_CLOCK), Err(Answer::Setting));
    assert_eq!(host.initialize(wider), Ok(()));
    assert_eq!(host.tick(0), Ok(()));
}

#[test]
fn all_hosts_use_the_one_table() {
    let mut room = room();
    let there = Address::new(10, 7, 8, 9);
    let looked = |room: &mut Room| [0, 1].map(|number| room.host(number).lookup(there));
    let own = |id| Ok(Found { id, pid: 0 });
    assert_eq!(looked(&mut room), [Err(Answer::NoHost); 2]);
    assert_eq!(room.net_table.add(A, 0), Ok(1));
    assert_eq!(looked(&mut room), [own(0), Err(Answer::HostDown)]);
    assert_eq!(room.net_table.change(1, 1), Ok(()));
    assert_eq!(looked(&mut room), [Err(Answer::HostDown), own(1)]);
    assert_eq!(room.net_table.remove(1), Ok(()));
    assert_eq!(looked(&mut room), [Err(Answer::NoHost); 2]);
    // A row of net zero matches all; those after it are never reached.
    assert_eq!(room.net_table.add(Net::default(), 0), Ok(1));
    assert_eq!(room.net_table.add(A, 1), Ok(2));
    assert_eq!(looked(&mut room), [own(0), Err(Answer::HostDown)]);
}

/// A host whose broadcast link has a neighbor of another net, and a packet without a table.
fn abroad() -> (Room, Vec<u8>) {
    let mut room = Room::new(1, LAYOUT.nhosts);
    let mut settings = Settings::new(address(0), LAYOUT);
    settings.links[0] = LinkSetting::broadcast(Address::new(10, 7, 8, 9));
    assert_eq!(room.host(0).initialize(settings), Ok(()));
    let mut other = Room::new(1, LAYOUT.nhosts);
    let mut host = other.host(0);
    let answer = host.initialize(Settings::new(address(1), LAYOUT));
    assert_eq!(answer, Ok(()));
    host.links.all[0] = Link::default();
    let packet = host.send(1, LINE_CLOCK).expect("a message");
    (room, packet)
}

/// The ids whose entries are up.
fn up(host: &Host) -> Vec<usize> {
    let is_up = |(_, entry): &(usize, &Entry)| entry.delay < 30_000;
    let up = host.table().iter().enumerate().filter(is_up);
    up.map(|(id, _)| id).collect()
}

#[test]
fn a_walk_uses_the_table_of_the_box_that_looks_it_up() {
    let (mut room, packet) = abroad();
    assert_eq!(room.net_table.add(A, 1), Ok(1));
    assert_eq!(room.host(0).open_walk(1, &packet), Ok(Place::Step(1)));
    for step in 1..5 {
        let next = room.host(0).step(LINE_CLOCK);
        assert_eq!(next, Ok(Some(Place::Step(step + 1))));
    }
    // The tutor knows no 16. Box 5 finds the new id; the lines keep it.
    assert_eq!(room.net_table.change(1, 3), Ok(()));
    let next = room.host(0).step(LINE_CLOCK);
    let first = Place::Line { host: 3, line: 'a' };
    assert_eq!(next, Ok(Some(first)));
    assert_eq!(room.net_table.remove(1), Ok(()));
    while room.host(0).walk.is_open() {
        room.host(0).step(LINE_CLOCK).expect("a step that is done");
    }
    assert_eq!(up(&room.host(0)), [3]);
    // So does the arrival made with that table, and without the row there is none.
    let (mut arrived, packet) = abroad();
    assert_eq!(
        arrived.host(0).act(1, LINE_CLOCK, &packet),
        Err(Answer::NoHost)
    );
    assert_eq!(arrived.net_table.add(A, 3), Ok(1));
    assert_eq!(arrived.host(0).act(1, LINE_CLOCK, &packet), Ok(()));
    assert_eq!(arrived.host(0).table(), room.host(0).table());
}

#[test]
fn another_nhosts_in_mid_walk() {
    let (mut room, packet) = abroad();
    assert_eq!(room.host(0).open_walk(1, &packet), Ok(Place::Step(1)));
    assert_eq!(room.net_table.initialize(5), Ok(()));
    // A step gives 1 and the walk stays; other calls give 16.
    assert_eq!(room.host(0).step(LINE_CLOCK), Err(Answer::Setting));
    assert_eq!(room.host(0).tick(0), Err(Answer::InWalk));
    // 12 comes before both.
    room.net_table.net.count = 33;
    assert_eq!(room.host(0).step(LINE_CLOCK), Err(Answer::OutOfRange));
    assert_eq!(room.host(0).tick(0), Err(Answer::OutOfRange));
    // Put right, it goes on.
    assert_eq!(room.net_table.initialize(4), Ok(()));
    let next = room.host(0).step(LINE_CLOCK);
    assert_eq!(next, Ok(Some(Place::Step(2))));
    // Initializing with the new NHOSTS frees the host.
    assert_eq!(room.net_table.initialize(5), Ok(()));
    let mut host = room.host(0);
    let mut wider = *host.settings;
    wider.layout.nhosts = 5;
    assert_eq!(host.initialize(wider), Ok(()));
    assert_eq!(host.tick(0), Ok(()));
}
