//! A walk through an arrival, one box at a time.

use hello::{
    Address, Answer, ClassTable, Clock, Counter, Entry, Host, Layout, Link, LinkSetting, Links,
    Place, Room, Settings, State, Walk, LONGEST_MESSAGE, UNITS_PER_MS,
};

const LINE_CLOCK: Counter = Counter::LINE_CLOCK;

/// Host 192.0.2.1 has id 0, its neighbor 192.0.2.2 id 1.
fn address(id: u8) -> Address {
    Address::new(192, 0, 2, 1 + id)
}

/// The settings of the host of that id among four, whose clock host is the neighbor.
fn settings(id: u8) -> Settings {
    let layout = Layout {
        address_offset: 1,
        nhosts: 4,
    };
    Settings {
        clock_host: 1,
        time: 40_000,
        ..Settings::new(address(id), layout)
    }
}

/// A room of one host with those settings.
fn room(settings: Settings) -> Room {
    let mut room = Room::new(1, settings.layout.nhosts);
    assert_eq!(room.host(0).initialize(settings), Ok(()));
    room
}

/// A message of the neighbor, with its table where it knows the host and with a TSP where it heard
/// it.
fn message(known: bool, heard: bool) -> Vec<u8> {
    let mut room = room(settings(1));
    let mut host = room.host(0);
    assert_eq!(host.tick(0), Ok(()));
    assert_eq!(host.self_report(LINE_CLOCK), Ok(()));
    host.table_mut()[2] = Entry {
        delay: 700,
        offset: -5,
        ttl: 9,
        pid: 0,
        here: 0,
        time: 0,
    };
    host.links.all[0] = Link {
        neighbor: if known {
            address(0)
        } else {
            Address::default()
        },
        keep_alive: u8::from(heard),
        tsp: -300,
    };
    host.send(1, LINE_CLOCK).expect("a send that is done")
}

/// What a call leaves: the clock, the links and the table.
fn left(host: &Host) -> (Clock, Links, Vec<Entry>) {
    (*host.clock, *host.links, host.table().to_vec())
}

/// Walks to the end; the answer, and the places as they are shown.
fn walk(host: &mut Host, packet: &[u8], counter: Counter) -> (Answer, Vec<String>) {
    let mut places = Vec::new();
    let mut next = match host.open_walk(1, packet) {
        Ok(place) => Some(place),
        Err(refusal) => return (refusal, places),
    };
    let mut counter = counter;
    while let Some(place) = next {
        assert!(host.walk.is_open());
        places.push(place.to_string());
        next = match host.step(counter) {
            Ok(next) => next,
            Err(refusal) => return (refusal, places),
        };
        // A later box does not look at it.
        counter = Counter::overflowed(9, 99);
    }
    assert_eq!(*host.walk, Walk::CLOSED);
    (Answer::Done, places)
}

/// A host that is prepared, once acted on the packet and once walked.
fn both(
    settings: Settings,
    prepare: impl Fn(&mut Host),
    packet: &[u8],
    counter: Counter,
) -> (Answer, Vec<String>) {
    let mut acted = room(settings);
    prepare(&mut acted.host(0));
    let mut walked = acted.clone();
    let answer = acted.host(0).act(1, counter, packet);
    let (end, places) = walk(&mut walked.host(0), packet, counter);
    assert_eq!(answer, end.ok());
    assert_eq!(left(&acted.host(0)), left(&walked.host(0)));
    (end, places)
}

fn knows_its_neighbor(host: &mut Host) {
    host.links.all[0].neighbor = address(1);
}

const STEPS: [&str; 5] = ["step 1", "step 2", "step 3", "step 4", "step 5"];

#[test]
fn a_walk_ends_as_the_arrival_does() {
    let packet = message(true, true);
    let (answer, places) = both(settings(0), knows_its_neighbor, &packet, LINE_CLOCK);
    assert_eq!(answer, Answer::Done);
    assert_eq!(places[..5], STEPS);
    let lines = [
        "host 0, line a",
        "host 1, line a",
        "host 1, line b",
        "host 1, line c",
        "host 1, line d",
        "host 2, line a",
        "host 2, line b",
        "host 2, line c",
        "host 3, line a",
    ];
    assert_eq!(places[5..], lines);
    // A neighbor that is new.
    let (answer, _) = both(settings(0), |_| {}, &packet, LINE_CLOCK);
    assert_eq!(answer, Answer::Done);
    // A crystal clock whose reading is past midnight and loads HOLD.
    let late = Settings {
        time: 86_399_990,
        clock_tick: 65_536 * UNITS_PER_MS,
        ..settings(0)
    };
    for counter in [Counter::of(20), Counter::overflowed(3, 7)] {
        let (answer, _) = both(late, |_| {}, &packet, counter);
        assert_eq!(answer, Answer::Done);
        let (answer, _) = both(late, knows_its_neighbor, &packet, counter);
        assert_eq!(answer, Answer::DelayNotValid);
    }
    // A packet without a table.
    let short = message(false, true);
    let (answer, places) = both(settings(0), knows_its_neighbor, &short, LINE_CLOCK);
    assert_eq!(answer, Answer::Done);
    assert_eq!(places[5], "host 1, line a");
    assert_eq!(places.last().map(String::as_str), Some("host 1, line d"));
}

#[test]
fn ten_and_eleven_end_a_walk() {
    let unheard = message(true, false);
    let (answer, places) = both(settings(0), knows_its_neighbor, &unheard, LINE_CLOCK);
    assert_eq!(answer, Answer::DelayNotValid);
    assert_eq!(places, STEPS[..4]);
    // The NEIGHBOR-ADDRESS of a broadcast link has no id.
    let mut broadcast = settings(0);
    broadcast.links[0] = LinkSetting::broadcast(Address::new(192, 0, 3, 1));
    let short = message(false, true);
    let (answer, places) = both(broadcast, |_| {}, &short, LINE_CLOCK);
    assert_eq!(answer, Answer::NoHost);
    assert_eq!(places, STEPS);
    let mut room = room(settings(0));
    let mut host = room.host(0);
    knows_its_neighbor(&mut host);
    assert_eq!(
        walk(&mut host, &unheard, LINE_CLOCK).0,
        Answer::DelayNotValid
    );
    assert!(!host.walk.is_open());
    assert_eq!(host.step(LINE_CLOCK), Err(Answer::NoWalk));
    assert_eq!(host.tick(0), Ok(()));
}

#[test]
fn an_open_walk_refuses_the_other_calls() {
    let packet = message(true, true);
    let mut room = room(settings(0));
    let mut host = room.host(0);
    assert_eq!(host.step(LINE_CLOCK), Err(Answer::NoWalk));
    assert_eq!(host.open_walk(1, &packet), Ok(Place::Step(1)));
    let (before, walk) = (left(&host), *host.walk);
    assert_eq!(host.tick(0), Err(Answer::InWalk));
    assert_eq!(host.adjust(0), Err(Answer::InWalk));
    assert_eq!(host.set(500, 0), Err(Answer::InWalk));
    assert_eq!(host.read(LINE_CLOCK), Err(Answer::InWalk));
    assert_eq!(host.second(), Err(Answer::InWalk));
    assert_eq!(host.self_report(LINE_CLOCK), Err(Answer::InWalk));
    assert_eq!(host.send(1, LINE_CLOCK), Err(Answer::InWalk));
    assert_eq!(host.inspect(1, &packet), Err(Answer::InWalk));
    assert_eq!(host.act(1, LINE_CLOCK, &packet), Err(Answer::InWalk));
    assert_eq!(host.receive(1, LINE_CLOCK, &packet), Err(Answer::InWalk));
    assert_eq!(host.open_walk(1, &packet), Err(Answer::InWalk));
    assert_eq!(host.lookup(address(1)), Err(Answer::InWalk));
    // 12 comes before 16, and 16 before 1.
    assert_eq!(host.inspect(2, &packet), Err(Answer::OutOfRange));
    host.settings.hold_interval = 0;
    assert_eq!(host.tick(0), Err(Answer::InWalk));
    assert_eq!(host.step(LINE_CLOCK), Err(Answer::Setting));
    assert_eq!((left(&host), *host.walk), (before, walk));
    host.settings.hold_interval = 1;
    assert_eq!(host.step(LINE_CLOCK), Ok(Some(Place::Step(2))));
}

#[test]
fn setting_afresh_drops_a_walk() {
    let packet = message(true, true);
    let mut room = room(settings(0));
    let mut host = room.host(0);
    assert_eq!(host.open_walk(1, &packet), Ok(Place::Step(1)));
    let unfit = Settings {
        hold_interval: 0,
        ..settings(0)
    };
    assert_eq!(host.initialize(unfit), Err(Answer::Setting));
    assert!(host.walk.is_open());
    assert_eq!(host.initialize(settings(0)), Ok(()));
    assert_eq!(*host.walk, Walk::CLOSED);
    assert_eq!(host.tick(0), Ok(()));
    // It looks at nothing of the walk.
    *host.walk = Walk {
        opened: 255,
        link: 9,
        ..Walk::CLOSED
    };
    assert_eq!(host.tick(0), Err(Answer::OutOfRange));
    assert_eq!(host.step(LINE_CLOCK), Err(Answer::OutOfRange));
    assert_eq!(host.initialize(settings(0)), Ok(()));
    assert_eq!(*host.walk, Walk::CLOSED);
}

#[test]
fn what_a_walk_holds_is_tested() {
    let packet = message(true, true);
    let mut room = room(settings(0));
    let mut host = room.host(0);
    knows_its_neighbor(&mut host);
    assert_eq!(host.open_walk(1, &packet), Ok(Place::Step(1)));
    while *host.walk
        != (Walk {
            line: 3,
            ..*host.walk
        })
    {
        host.step(LINE_CLOCK).expect("a step that is done");
    }
    let (walk, copy) = (*host.walk, *host.copy);
    let refused = [
        Walk { link: 2, ..walk },
        Walk { step: 4, ..walk },
        Walk { step: 0, ..walk },
        Walk { line: 5, ..walk },
        Walk { id: 4, ..walk },
        Walk {
            length: walk.length - 1,
            ..walk
        },
        Walk {
            length: u16::MAX,
            ..walk
        },
        Walk {
            reading: -1,
            ..walk
        },
        Walk {
            reading: 86_400_001,
            ..walk
        },
        Walk { delay: 99, ..walk },
        Walk {
            delay: 30_000,
            ..walk
        },
    ];
    for changed in refused {
        *host.walk = changed;
        assert_eq!(
            host.step(LINE_CLOCK),
            Err(Answer::OutOfRange),
            "{changed:?}"
        );
        assert_eq!(host.tick(0), Err(Answer::OutOfRange));
        // A walk that is closed is not looked at.
        *host.walk = Walk {
            opened: 0,
            ..changed
        };
        assert_eq!(host.second(), Ok(()));
    }
    *host.walk = walk;
    host.copy[40] ^= 1;
    assert_eq!(host.step(LINE_CLOCK), Err(Answer::OutOfRange));
    *host.copy = copy;
    assert!(host.step(LINE_CLOCK).is_ok());
}

#[test]
fn the_copy_has_room_for_the_longest_message() {
    let packet = message(true, true);
    let settings = settings(0);
    let mut room = room(settings);
    let Host { clock, links, .. } = room.host(0);
    let (mut clock, mut links, mut entries) = (*clock, *links, room.entries().to_vec());
    for (length, answer) in [(LONGEST_MESSAGE - 1, 12), (LONGEST_MESSAGE, 0)] {
        let (walk, copy) = (&mut Walk::default(), &mut vec![7; length]);
        let table = ClassTable::new(4);
        let mut state = State {
            settings: &settings,
            table: &table,
            number: 0,
            clock: &mut clock,
            links: &mut links,
            walk,
            copy,
            entries: &mut entries,
        };
        let opened = state.open_walk(1, &packet);
        assert_eq!(opened.answer, answer);
        assert_eq!(walk.is_open(), answer == 0);
        assert_eq!(copy.starts_with(&packet), answer == 0);
        assert!(copy[packet.len()..].iter().all(|octet| *octet == 7));
    }
}
