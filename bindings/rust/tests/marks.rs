//! Several hosts at one: the marks of settings and entries.

use hello::{Address, Answer, Counter, Entry, Host, Layout, Link, Marks, Room, Settings};

const LINE_CLOCK: Counter = Counter::LINE_CLOCK;

const LAYOUT: Layout = Layout {
    address_offset: 1,
    nhosts: 6,
};

/// Host 192.0.2.1 has id 0, its neighbor 192.0.2.2 id 1.
fn address(id: u8) -> Address {
    Address::new(192, 0, 2, 1 + id)
}

/// The settings of the host of that own id, at which those ids live too.
fn settings(id: u8, marks: &[u8]) -> Settings {
    Settings {
        time: 40_000,
        ..Settings::new(address(id), LAYOUT).with_marks(marks.iter().copied())
    }
}

/// A room of one host with those settings.
fn room(settings: Settings) -> Room {
    let mut room = Room::new(1, LAYOUT.nhosts);
    assert_eq!(room.host(0).initialize(settings), Ok(()));
    room
}

/// The marks of a host's entries.
fn marks(host: &Host) -> Vec<u8> {
    host.table().iter().map(|entry| entry.here).collect()
}

/// A fresh entry with a mark.
fn fresh(here: u8) -> Entry {
    Entry {
        delay: 30_000,
        here,
        ..Entry::default()
    }
}

#[test]
fn an_id_has_its_bit() {
    let all = [0, 1, 63, 64, 127, 128, 191, 192, 254, 255];
    let words = Marks::of(all).words;
    assert_eq!(
        words,
        [1 | 2 | 1 << 63, 1 | 1 << 63, 1 | 1 << 63, 1 | 3 << 62]
    );
    assert_eq!(Marks::of(all).ids().collect::<Vec<u8>>(), all);
    let mut some = Marks::of([3, 200]);
    assert!(some.has(3) && some.has(200) && !some.has(72));
    some.unmark(200);
    assert_eq!(some, Marks::of([3]));
}

#[test]
fn the_own_id_alone_is_marked_unless_told() {
    let of = |address, address_offset| {
        let layout = Layout {
            address_offset,
            nhosts: 255,
        };
        Settings::new(address, layout).marks
    };
    assert_eq!(of(Address::new(192, 0, 2, 5), 1), Marks::of([4]));
    assert_eq!(of(Address::new(128, 0, 2, 5), 5), Marks::of([0]));
    assert_eq!(of(Address::new(127, 0, 2, 5), 1), Marks::of([1]));
    // No id: initialize refuses it with 1.
    assert_eq!(of(Address::new(192, 0, 2, 5), 6), Marks::default());
}

#[test]
fn initialize_writes_the_marks() {
    let mut room = Room::new(1, LAYOUT.nhosts);
    room.entries_mut().fill(Entry {
        here: 7,
        ..Entry::default()
    });
    let mut host = room.host(0);
    assert_eq!(host.initialize(settings(0, &[3, 4])), Ok(()));
    assert_eq!(host.table(), [1, 0, 0, 1, 1, 0].map(fresh));
    // Places past NHOSTS keep theirs.
    assert!(room.entries()[6..].iter().all(|entry| entry.here == 7));
}

#[test]
fn wrong_marks_are_refused_with_1() {
    let mut without_own = settings(0, &[3]);
    without_own.marks.unmark(0);
    let none = Settings {
        marks: Marks::default(),
        ..settings(0, &[])
    };
    let mut wrong = vec![without_own, none];
    wrong.extend([6, 7, 63, 64, 128, 254, 255].map(|id| settings(0, &[id])));
    let mut room = room(settings(0, &[5]));
    let mut host = room.host(0);
    for settings in wrong {
        assert_eq!(host.initialize(settings), Err(Answer::Setting));
        let here = |id: usize| u8::from(settings.marks.has(id as u8));
        let kept = host.table().to_vec();
        // Where the entries' marks are the settings', every call gives 1.
        (0..6).for_each(|id| host.table_mut()[id].here = here(id));
        let before = (*host.settings, host.table().to_vec());
        *host.settings = settings;
        assert_eq!(host.tick(0), Err(Answer::Setting));
        assert_eq!(host.read(LINE_CLOCK), Err(Answer::Setting));
        assert_eq!(host.self_report(LINE_CLOCK), Err(Answer::Setting));
        assert_eq!(host.send(1, LINE_CLOCK), Err(Answer::Setting));
        assert_eq!(host.receive(1, LINE_CLOCK, &[]), Err(Answer::Setting));
        assert_eq!(host.step(LINE_CLOCK), Err(Answer::Setting));
        assert_eq!(host.table(), before.1);
        *host.settings = before.0;
        host.table_mut().copy_from_slice(&kept);
    }
    assert_eq!(host.tick(0), Ok(()));
}

#[test]
fn an_entry_with_another_mark_is_refused_with_12() {
    let mut room = room(settings(0, &[3]));
    let mut host = room.host(0);
    for (id, here) in [(0, 0), (3, 0), (3, 2), (3, 255), (1, 1), (5, 1), (5, 2)] {
        let kept = host.table()[id];
        host.table_mut()[id].here = here;
        assert_eq!(host.tick(0), Err(Answer::OutOfRange), "{id} {here}");
        assert_eq!(host.second(), Err(Answer::OutOfRange));
        assert_eq!(host.self_report(LINE_CLOCK), Err(Answer::OutOfRange));
        assert_eq!(host.lookup(address(1)), Err(Answer::OutOfRange));
        assert_eq!(host.open_walk(1, &[]), Err(Answer::OutOfRange));
        // 12 comes before 1.
        host.settings.hold_interval = 0;
        assert_eq!(host.tick(0), Err(Answer::OutOfRange));
        host.settings.hold_interval = 1;
        host.table_mut()[id] = kept;
        assert_eq!(host.tick(0), Ok(()));
    }
    // The same where it is the settings that have changed; initialize does not ask.
    *host.settings = settings(0, &[3, 4]);
    assert_eq!(host.tick(0), Err(Answer::OutOfRange));
    assert_eq!(host.initialize(settings(0, &[3, 4])), Ok(()));
    assert_eq!(host.tick(0), Ok(()));
    // Past NHOSTS no mark is looked at.
    room.entries_mut()[6].here = 9;
    assert_eq!(room.host(0).tick(0), Ok(()));
}

#[test]
fn a_self_report_covers_every_marked_id() {
    let mut room = room(settings(0, &[2, 3, 5]));
    let mut host = room.host(0);
    // Held down, and live by a link with less than 100 more: both are passed over.
    host.table_mut()[2].ttl = 60;
    let near = Entry {
        delay: 99,
        ttl: 7,
        pid: 1,
        ..fresh(1)
    };
    host.table_mut()[3] = near;
    let counter = Counter::of(17);
    assert_eq!(host.self_report(counter), Ok(()));
    let reported = Entry {
        delay: 0,
        ttl: 120,
        time: 40_017,
        ..fresh(1)
    };
    let waiting = Entry {
        ttl: 60,
        ..fresh(1)
    };
    assert_eq!(
        host.table(),
        [reported, fresh(0), waiting, near, fresh(0), reported]
    );
}

#[test]
fn one_reading_serves_all_marked_ids() {
    let mut settings = settings(0, &[1, 2, 3, 4, 5]);
    settings.clock_tick = 65_536 * hello::UNITS_PER_MS;
    let mut room = room(settings);
    let mut host = room.host(0);
    let counter = Counter::overflowed(65_535, 3);
    assert_eq!(host.self_report(counter), Ok(()));
    assert!(host
        .table()
        .iter()
        .all(|entry| entry.time == 40_000 + 65_536 + 3));
    assert_eq!(host.clock.clock, (40_000 + 65_536) * hello::UNITS_PER_MS);
}

/// A message of the neighbor, at which the ids 1 and 4 live; it has heard the host, and reports that DELAY
/// of host 3.
fn message(delay: i64) -> Vec<u8> {
    let mut room = room(settings(1, &[4]));
    let mut host = room.host(0);
    assert_eq!(host.self_report(LINE_CLOCK), Ok(()));
    host.table_mut()[3] = Entry {
        delay,
        offset: -5,
        ttl: 9,
        ..fresh(0)
    };
    host.links.all[0] = Link {
        neighbor: address(0),
        keep_alive: 1,
        tsp: -300,
    };
    host.send(1, LINE_CLOCK).expect("a send that is done")
}

#[test]
fn marks_stay_through_the_calls() {
    let mut room = room(settings(0, &[2, 3]));
    let mut host = room.host(0);
    let wanted = [1, 0, 1, 1, 0, 0];
    host.links.all[0].neighbor = address(1);
    // A link may update a marked entry, host 3's here, and both of the neighbor's are learned.
    assert_eq!(host.receive(1, LINE_CLOCK, &message(700)), Ok(()));
    let [_, first, _, marked, other, _] = host.table() else {
        panic!("six entries");
    };
    assert_eq!((first.delay, other.delay), (300, 300));
    assert_eq!((first.offset, other.offset), (150, 150));
    assert_eq!((marked.delay, marked.pid), (1_000, 1));
    assert_eq!(marks(&host), wanted);
    // Line (b) takes it down, and a second an entry whose TTL ends.
    assert_eq!(host.receive(1, LINE_CLOCK, &message(30_000)), Ok(()));
    assert_eq!((host.table()[3].delay, host.table()[3].ttl), (30_000, 120));
    host.table_mut()[0] = Entry {
        ttl: 1,
        delay: 0,
        ..fresh(1)
    };
    assert_eq!(host.second(), Ok(()));
    assert_eq!((host.table()[0].delay, host.table()[0].ttl), (30_000, 120));
    assert_eq!(host.self_report(LINE_CLOCK), Ok(()));
    assert!(host.send(1, LINE_CLOCK).is_ok());
    assert_eq!(host.set(900, 0), Ok(()));
    assert_eq!(host.adjust(0), Ok(()));
    assert_eq!(marks(&host), wanted);
}

#[test]
fn marks_stay_through_a_walk() {
    let mut room = room(settings(0, &[2, 3]));
    let mut host = room.host(0);
    host.links.all[0].neighbor = address(1);
    for (returned, kept) in [(700, 1_000), (30_000, 30_000)] {
        let mut next = host.open_walk(1, &message(returned)).ok();
        while next.is_some() {
            next = host.step(LINE_CLOCK).expect("a step that is done");
            assert_eq!(marks(&host), [1, 0, 1, 1, 0, 0]);
        }
        assert_eq!(host.table()[3].delay, kept);
    }
    // In the middle of one, other marks are refused with 12, before 16 and 1.
    assert!(host.open_walk(1, &message(700)).is_ok());
    host.settings.marks.mark(5);
    assert_eq!(host.step(LINE_CLOCK), Err(Answer::OutOfRange));
    assert_eq!(host.tick(0), Err(Answer::OutOfRange));
    host.settings.marks.unmark(5);
    assert!(host.step(LINE_CLOCK).is_ok());
}

#[test]
fn a_packet_of_a_marked_address_is_no_loop() {
    let packet = message(700);
    let mut room = room(settings(0, &[1]));
    let mut host = room.host(0);
    // Its source, 192.0.2.2, lives here by the marks; 9 compares LOCAL-ADDRESS alone.
    assert!(host.inspect(1, &packet).is_ok());
}
