//! One numbered step at a time.

use super::random::{self, Random};
use super::*;
use crate::packet::MOST_OCTETS;
use crate::settings::CLOCK_SETTING_OFF;
use crate::walk::{LINE_A, LINE_B, LINE_C, LINE_D};

/// The most boxes of a walk: five steps, and four lines for each id.
const MOST_BOXES: usize = 5 + 4 * 255;

fn at_step(step: u8) -> Result<Option<Place>, Refusal> {
    Ok(Some(Place::at_step(step)))
}

fn at_line(line: u8, id: u8) -> Result<Option<Place>, Refusal> {
    Ok(Some(Place::at_line(line, id)))
}

/// The numbers of a walk.
fn numbers(walk: &Walk) -> [i64; 10] {
    [
        walk.open.into(),
        walk.link.into(),
        walk.step.into(),
        walk.line.into(),
        walk.id.into(),
        walk.count.into(),
        walk.reading.into(),
        walk.delay.into(),
        walk.offset.into(),
        walk.length.into(),
    ]
}

/// A walk with any numbers and octets.
fn any_walk(random: &mut Random) -> Walk {
    let mut walk = Walk {
        open: random.next() as u8,
        link: random.next() as u8,
        step: random.next() as u8,
        line: random.next() as u8,
        id: random.next() as u8,
        count: random.next() as u16,
        reading: random.next() as i32,
        delay: random.next() as i16,
        offset: random.next() as i16,
        length: random.next() as u16,
        packet: [0; MOST_OCTETS],
    };
    walk.packet.fill_with(|| random.next() as u8);
    walk
}

/// The host's walk for a packet on link 1, opened.
fn opened(mut host: Host, packet: &[u8]) -> Host {
    assert_eq!(host.open_walk(1, packet), Ok(()));
    host
}

/// Steps through the boxes before a place.
fn go_to(host: &mut Host, place: Place) {
    while host.step().unwrap().unwrap() != place {}
}

/// Every call but the step and setting afresh, with its answer's number.
pub fn other_calls(host: &mut Host, packet: &[u8]) -> [u8; 12] {
    let address = host.settings.address;
    [
        answer(&host.tick()),
        answer(&host.adjust()),
        answer(&host.set(5)),
        answer(&host.read()),
        answer(&host.second()),
        answer(&host.self_report()),
        answer(&host.send(1, &mut [0; MOST_OCTETS])),
        answer(&host.inspect(1, packet)),
        answer(&host.act(1, packet)),
        answer(&host.arrival(1, packet)),
        answer(&host.lookup(address)),
        answer(&host.open_walk(1, packet)),
    ]
}

// The boxes.

#[test]
fn opening_copies_the_packet_and_changes_nothing_else() {
    let mut random = Random(6);
    let mut host = host_with_router();
    host.walk = any_walk(&mut random);
    host.walk.open = 0;
    let before = host.clone();
    let packet = router_message(heading(1, 1), &[(1, 2); 4]);
    assert_eq!(host.open_walk(1, &packet), Ok(()));
    assert_eq!(numbers(&host.walk), [1, 1, 1, 0, 0, 0, 0, 0, 0, 48]);
    assert_eq!(host.walk.packet[..48], packet);
    assert_eq!(host.walk.packet[48..], before.walk.packet[48..]);
    host.walk = before.walk;
    assert_eq!(host, before);
}

#[test]
fn each_box_makes_its_own_changes() {
    let mut host = host_with_router();
    host.settings.clock_host = 1;
    host.set_reading(1_000);
    let dated = Heading {
        date: Date(2956),
        ..heading(61_000, 60_980)
    };
    let mut host = opened(host, &router_message(dated, &[]));
    let mut expected = host.clone();

    host.counter = Counter {
        count: 7,
        overflow: 3,
        again: 60_000,
    };
    expected.counter = host.counter;
    assert_eq!(host.step(), at_step(2));
    expected.clock.clock = Units(1_000 * 65_536 + 1);
    (expected.walk.count, expected.walk.reading) = (60_000, 61_000);
    expected.walk.step = 2;
    assert_eq!(host, expected);

    assert_eq!(host.step(), at_step(3));
    expected.links[0].keep_alive = 4;
    expected.walk.step = 3;
    assert_eq!(host, expected);

    host.links[0].tsp = 9;
    assert_eq!(host.step(), at_step(4));
    (expected.walk.delay, expected.walk.offset) = (20, 10);
    expected.walk.step = 4;
    assert_eq!(host, expected);

    assert_eq!(host.step(), at_step(5));
    expected.walk.step = 5;
    assert_eq!(host, expected);

    assert_eq!(host.step(), at_line(LINE_A, 1));
    expected.walk.delay = 100;
    (expected.walk.step, expected.walk.id) = (6, 1);
    assert_eq!(host, expected);

    assert_eq!(host.step(), at_line(LINE_B, 1));
    assert_eq!(host.step(), at_line(LINE_C, 1));
    expected.walk.line = 2;
    assert_eq!(host, expected);

    assert_eq!(host.step(), at_line(LINE_D, 1));
    expected.run[1] = Entry {
        delay: 100,
        offset: 10,
        ttl: 120,
        pid: 1,
        updated: 61_000,
        here: 0,
    };
    expected.walk.line = 3;
    assert_eq!(host, expected);

    assert_eq!(host.step(), Ok(None));
    expected.clock.date = Date(2956);
    expected.clock.delta = Units::from_ms(10);
    expected.walk.close();
    assert_eq!(host, expected);
    assert_eq!(host.step(), Err(Refusal::NoWalk));
    assert_eq!(host, expected);
}

#[test]
fn lines_lead_to_the_next_id() {
    let mut host = host_with_router();
    host.settings.clock_host = 3;
    host.run[0] = living_here(entry(200, 120, 2));
    host.run[1] = entry(500, 120, 1);
    host.run[2] = entry(MAX_DELAY, 5, 1);
    let hosts = [(1, 0), (29_900, 0), (0, 0), (0, 0)];
    let mut host = opened(host, &router_message(heading(0, 1), &hosts));
    go_to(&mut host, Place::at_line(LINE_A, 0));
    let places = [
        at_line(LINE_A, 1),
        at_line(LINE_B, 1),
        at_line(LINE_A, 2),
        at_line(LINE_B, 2),
        at_line(LINE_A, 3),
        at_line(LINE_B, 3),
        at_line(LINE_C, 3),
        at_line(LINE_D, 3),
        Ok(None),
        Err(Refusal::NoWalk),
    ];
    for place in places {
        assert_eq!(host.step(), place);
    }
    assert_eq!(host.run[0], living_here(entry(200, 120, 2)));
    assert_eq!(host.run[1], entry(MAX_DELAY, 120, 1));
    assert_eq!(host.run[2], entry(MAX_DELAY, 5, 1));
    assert_eq!((host.run[3].delay, host.run[3].pid), (100, 1));
}

#[test]
fn a_new_neighbour_is_stored_at_box_4() {
    let host = Host::fresh(program::SETTINGS);
    let mut host = opened(host, &router_message(heading(0, 0), &[]));
    go_to(&mut host, Place::at_step(4));
    assert_eq!(host.links[0].neighbor, Address::ZERO);
    assert_eq!(host.step(), at_step(5));
    assert_eq!((host.links[0].neighbor, host.walk.delay), (ROUTER, 30_000));
}

#[test]
fn box_4_does_nothing_on_broadcast() {
    let mut settings = program::SETTINGS;
    settings.links[0] = LinkKind::Broadcast(Address([192, 0, 2, 3]));
    let mut host = opened(Host::fresh(settings), &router_message(heading(450, 0), &[]));
    host.clock.hold = 9;
    go_to(&mut host, Place::at_step(4));
    assert_eq!((host.walk.delay, host.walk.offset), (0, 450));
    let before = host.clone();
    assert_eq!(host.step(), at_step(5));
    host.walk.step = 4;
    assert_eq!(host, before);
    assert_eq!(host.step(), at_step(5));
    assert_eq!(host.step(), at_line(LINE_A, 2));
}

#[test]
fn ten_and_eleven_end_the_walk() {
    let not_valid = router_message(heading(5, 0), &[]);
    let mut host = opened(host_with_router(), &not_valid);
    go_to(&mut host, Place::at_step(4));
    assert_eq!(host.step(), Err(Refusal::DelayNotValid));
    assert_eq!(numbers(&host.walk), [0; 10]);
    assert_eq!(host.walk.packet[..32], not_valid);
    assert_eq!(host.step(), Err(Refusal::NoWalk));

    let nobody = message_from(Address([192, 0, 3, 9]), heading(5, 0), &[]);
    let mut host = opened(host_with_router(), &nobody);
    go_to(&mut host, Place::at_step(5));
    assert_eq!(host.step(), Err(Refusal::NoHost));
    assert_eq!(numbers(&host.walk), [0; 10]);
    assert_eq!(host.links[0].neighbor, Address([192, 0, 3, 9]));
    assert_eq!(host.step(), Err(Refusal::NoWalk));
}

#[test]
fn later_boxes_keep_the_count_of_box_1() {
    let mut host = host_with_router();
    host.settings.clock_host = 1;
    host.set_reading(29_600);
    host.counter.count = 500;
    let mut host = opened(host, &router_message(heading(100, 30_100), &[]));
    host.step().unwrap();
    host.counter = Counter {
        count: 0,
        overflow: 1,
        again: 0,
    };
    go_to(&mut host, Place::at_line(LINE_D, 1));
    assert_eq!(host.clock.clock, Units::from_ms(29_600));
    assert_eq!(host.step(), Ok(None));
    assert_eq!(host.clock.clock, Units::from_ms(-400));
    assert_eq!(host.clock.date, Date::FIRST.awaited());
}

#[test]
fn line_d_is_nothing_where_the_id_is_not_the_clock_host() {
    for clock_host in [0, CLOCK_SETTING_OFF] {
        let hosts = [(0, 20_000); 4];
        let mut host = host_with_router();
        host.settings.clock_host = clock_host;
        let mut host = opened(host, &router_message(heading(0, 1), &hosts));
        go_to(&mut host, Place::at_line(LINE_A, 2));
        host.walk.line = LINE_D;
        let mut expected = host.clone();
        assert_eq!(host.step(), at_line(LINE_A, 3));
        expected.walk.go_to(Place::at_line(LINE_A, 3));
        assert_eq!(host, expected);
    }
}

// Refusals.

#[test]
fn the_other_calls_are_refused_while_a_walk_is_open() {
    let packet = router_message(heading(0, 1), &[(0, 0); 4]);
    let mut host = host_with_router();
    assert!(!other_calls(&mut host, &packet).contains(&16));
    let mut host = opened(host_with_router(), &packet);
    loop {
        for open in [1, 255] {
            host.walk.open = open;
            let before = host.clone();
            assert_eq!(other_calls(&mut host, &packet), [16; 12]);
            assert_eq!(host, before);
        }
        if host.step() == Ok(None) {
            break;
        }
    }
    assert!(!other_calls(&mut host, &packet).contains(&16));
}

#[test]
fn sixteen_comes_right_after_twelve() {
    let packet = router_message(heading(0, 1), &[]);
    let mut host = opened(host_with_router(), &packet);
    host.settings.hold_interval = 0;
    assert_eq!(other_calls(&mut host, &[]), [16; 12]);
    assert_eq!(host.send(1, &mut []), Err(Refusal::WalkOpen));
    assert_eq!(host.open_walk(2, &packet), Err(Refusal::Lent));
    assert_eq!(host.step(), Err(Refusal::Settings));
    host.clock.hold = 256;
    assert_eq!(other_calls(&mut host, &[]), [12; 12]);
    assert_eq!(host.step(), Err(Refusal::Lent));
}

#[test]
fn a_step_with_no_walk_open_gives_twelve_one_seventeen() {
    let mut host = host_with_router();
    host.walk.step = 3;
    host.settings.hold_interval = 0;
    host.clock.hold = 256;
    let mut refused = |change: fn(&mut Host)| {
        change(&mut host);
        let before = host.clone();
        let outcome = host.step();
        assert_eq!(host, before);
        answer(&outcome)
    };
    assert_eq!(refused(|_| ()), 12);
    assert_eq!(refused(|host| host.clock.hold = 0), 1);
    assert_eq!(refused(|host| host.settings.hold_interval = 1), 17);
}

#[test]
fn opening_is_refused_in_rising_order() {
    let mut host = host_with_router();
    let looped = message_from(host.settings.address, heading(0, 0), &[]);
    let other_layout = router_message(heading(0, 0), &[(0, 0); 5]);
    let before = host.clone();
    for (link, packet, number) in [
        (0, &looped, 12),
        (2, &looped, 12),
        (1, &vec![], 3),
        (1, &ip_packet(2_000), 6),
        (1, &other_layout, 8),
        (1, &looped, 9),
    ] {
        assert_eq!(answer(&host.open_walk(link, packet)), number);
        assert_eq!(host, before);
    }
    host.settings.hold_interval = 0;
    assert_eq!(host.open_walk(1, &looped), Err(Refusal::Settings));
}

/// The answers of a read and of a step to a walk held at a place.
fn held(place: Place, change: impl Fn(&mut Host)) -> (u8, u8) {
    let mut host = host_with_router();
    host.settings.clock_host = 2;
    let hosts = [(29_000, 0), (29_899, 0), (0, 0), (900, 0)];
    host.walk.packet.fill(0xEE);
    let mut host = opened(host, &router_message(heading(0, 1), &hosts));
    host.step().unwrap();
    host.walk.go_to(place);
    host.walk.delay = 100;
    change(&mut host);
    let before = host.clone();
    let read = answer(&host.read());
    assert_eq!(host, before);
    let stepped = answer(&host.step());
    assert!(stepped == 0 || host == before);
    (read, stepped)
}

#[test]
fn a_held_place_is_one() {
    for step in 0..=255 {
        let numbers = if (1..=6).contains(&step) {
            (16, 0)
        } else {
            (12, 12)
        };
        assert_eq!(held(Place::at_step(step), |_| ()), numbers);
    }
    for line in 0..=255 {
        let numbers = if line <= LINE_D { (16, 0) } else { (12, 12) };
        assert_eq!(held(Place::at_line(line, 2), |_| ()), numbers);
        let unlooked = |host: &mut Host| (host.walk.line, host.walk.id) = (line, 255);
        assert_eq!(held(Place::at_step(3), unlooked), (16, 0));
    }
}

#[test]
fn a_held_link_is_one_of_the_hosts() {
    for (link, numbers) in [(0, (12, 12)), (1, (16, 0)), (2, (12, 12)), (255, (12, 12))] {
        let change = |host: &mut Host| host.walk.link = link;
        assert_eq!(held(Place::at_step(2), change), numbers);
    }
    let nine = |host: &mut Host| {
        host.settings.link_count = 9;
        host.walk.link = 9;
    };
    assert_eq!(held(Place::at_step(2), nine), (12, 12));
    let eight = |host: &mut Host| {
        host.settings.link_count = 9;
        host.walk.link = 8;
    };
    assert_eq!(held(Place::at_step(2), eight), (16, 1));
}

#[test]
fn a_held_packet_is_a_good_one() {
    let refused = |change: fn(&mut Host)| held(Place::at_step(1), change);
    assert_eq!(refused(|host| host.walk.packet[48] = 0), (16, 0));
    assert_eq!(refused(|host| host.walk.packet[47] ^= 1), (12, 12));
    assert_eq!(refused(|host| host.walk.packet[8] ^= 1), (12, 12));
    for length in [0, 47, 49, 1_052, 1_053, 65_535] {
        let change = |host: &mut Host| host.walk.length = length;
        assert_eq!(held(Place::at_step(1), change), (12, 12));
    }
    // By the settings of the call, and on the held link.
    assert_eq!(refused(|host| host.settings.nhosts = 5), (12, 12));
    assert_eq!(refused(|host| host.settings.address_offset = 0), (12, 12));
    assert_eq!(refused(|host| host.settings.address = ROUTER), (12, 12));
    let on_broadcast = |host: &mut Host| {
        host.settings.address = ROUTER;
        host.settings.marks = marks_of([0, 1]);
        host.run[1].here = 1;
        host.settings.links[0] = LinkKind::Broadcast(ROUTER);
    };
    assert_eq!(refused(on_broadcast), (16, 0));
}

#[test]
fn a_held_reading_is_in_the_day() {
    for reading in [-1, i32::MIN, 86_400_001, i32::MAX] {
        let change = |host: &mut Host| host.walk.reading = reading;
        assert_eq!(held(Place::at_step(1), change), (16, 0));
        for step in 2..=5 {
            assert_eq!(held(Place::at_step(step), change), (12, 12));
        }
        for line in LINE_A..=LINE_D {
            assert_eq!(held(Place::at_line(line, 2), change), (12, 12));
        }
    }
    let change = |host: &mut Host| host.walk.reading = 86_400_000;
    assert_eq!(held(Place::at_step(2), change), (16, 0));
}

#[test]
fn a_held_id_is_below_nhosts() {
    for line in LINE_A..=LINE_D {
        assert_eq!(held(Place::at_line(line, 3), |_| ()), (16, 0));
        assert_eq!(held(Place::at_line(line, 4), |_| ()), (12, 12));
        assert_eq!(held(Place::at_line(line, 255), |_| ()), (12, 12));
    }
}

#[test]
fn line_c_would_store_a_delay_in_range() {
    for (id, delay, at_c) in [
        (1, 100, (16, 0)),
        (1, 101, (12, 12)),
        (2, 100, (16, 0)),
        (2, 99, (12, 12)),
        (2, 29_999, (16, 0)),
        (2, 30_000, (12, 12)),
        (2, -1, (12, 12)),
        (3, -800, (16, 0)),
        (3, -801, (12, 12)),
    ] {
        let change = |host: &mut Host| host.walk.delay = delay;
        assert_eq!(held(Place::at_line(LINE_C, id), change), at_c);
        for line in [LINE_A, LINE_B, LINE_D] {
            assert_eq!(held(Place::at_line(line, id), change), (16, 0));
        }
    }
}

#[test]
fn a_closed_walk_may_hold_anything() {
    let mut random = Random(7);
    for _ in 0..200 {
        let mut host = host_with_router();
        host.walk = any_walk(&mut random);
        host.walk.open = 0;
        let walk = host.walk;
        assert!(host.read().is_ok());
        assert_eq!(host.step(), Err(Refusal::NoWalk));
        assert_eq!(host.walk, walk);
    }
}

#[test]
fn setting_afresh_drops_the_walk() {
    let packet = router_message(heading(0, 1), &[]);
    let mut host = opened(host_with_router(), &packet);
    host.walk.step = 77;
    let before = host.clone();
    host.settings.hold_interval = 0;
    assert_eq!(host.set_afresh(), Err(Refusal::Settings));
    host.settings = before.settings;
    host.number = 1;
    assert_eq!(host.set_afresh(), Err(Refusal::Lent));
    host.number = 0;
    assert_eq!(host, before);
    assert_eq!(host.set_afresh(), Ok(()));
    assert_eq!(numbers(&host.walk), [0; 10]);
    assert_eq!(host.walk.packet, before.walk.packet);
    assert!(host.read().is_ok());
}

// The claim: a walk run to its end is the arrival.

/// Walks to the end, with other counters behind the first box; the answer and
/// how many boxes it took.
fn walk_through(host: &mut Host, random: &mut Random, packet: &[u8]) -> (Done, usize) {
    for boxes in 1..=MOST_BOXES {
        if random.one_in(20) {
            let before = host.clone();
            assert_eq!(other_calls(host, packet), [16; 12]);
            assert_eq!(*host, before);
        }
        let outcome = host.step();
        host.counter = random::counter(random);
        match outcome {
            Ok(Some(place)) => {
                let held = (host.walk.step, host.walk.line, host.walk.id);
                assert_eq!(held, (place.step, place.line, place.id));
            }
            Ok(None) => return (Ok(()), boxes),
            Err(refusal) => return (Err(refusal), boxes),
        }
    }
    panic!("the walk has no end");
}

#[test]
fn a_walk_is_the_arrival() {
    let mut random = Random(8);
    let mut seen = [0; 28];
    for _ in 0..3_000 {
        let mut host = random::host(&mut random);
        host.walk = any_walk(&mut random);
        host.walk.open = 0;
        let link = 1 + random.below(host.settings.link_count);
        let packet = random::packet(&mut random, &host, link);
        let mut whole = host.clone();
        let outcome = whole.arrival(link, &packet);
        seen[usize::from(answer(&outcome))] += 1;
        let mut walked = host.clone();
        let opened = walked.open_walk(link, &packet);
        if opened.is_err() {
            assert_eq!((opened, &walked), (outcome, &host));
            continue;
        }
        let (end, _) = walk_through(&mut walked, &mut random, &packet);
        assert_eq!(end, outcome);
        assert_eq!(walked.clock, whole.clock);
        assert_eq!(walked.links, whole.links);
        assert_eq!(walked.run, whole.run);
        assert_eq!(numbers(&walked.walk), [0; 10]);
        assert_eq!(walked.walk.packet[..packet.len()], packet);
        assert_eq!(walked.step(), Err(Refusal::NoWalk));
    }
    let seen_often = (0..28).filter(|number| seen[*number] > 3);
    assert_eq!(
        seen_often.collect::<Vec<_>>(),
        [0, 3, 4, 5, 6, 7, 8, 9, 10, 11]
    );
}

#[test]
fn the_longest_walk() {
    let mut settings = program::SETTINGS;
    (settings.nhosts, settings.clock_host) = (255, 100);
    let mut host = Host::fresh(settings);
    host.links[0].neighbor = ROUTER;
    let packet = router_message(heading(0, 1), &[(0, 0); 255]);
    assert_eq!(packet.len(), MOST_OCTETS);
    let mut host = opened(host, &packet);
    let (end, boxes) = walk_through(&mut host, &mut Random(9), &packet);
    assert_eq!((end, boxes), (Ok(()), 5 + 3 * 255 + 1));
    assert!(host.run.iter().all(|entry| entry.delay == 100));
}

/// A walk that nobody opened: each box answers, and leaves a clock, links and
/// entries that are in range.
#[test]
fn a_nonsense_walk_does_no_harm() {
    let mut random = Random(10);
    let mut boxes = [0; 7];
    for _ in 0..3_000 {
        let mut host = random::host(&mut random);
        let link = 1 + random.below(host.settings.link_count);
        let packet = random::packet(&mut random, &host, link);
        if host.open_walk(link, &packet).is_err() {
            continue;
        }
        let any = any_walk(&mut random);
        host.walk = Walk {
            open: any.open | 1,
            step: random.below(8) as u8,
            line: random.below(5) as u8,
            id: random.below(host.settings.nhosts + 1) as u8,
            count: any.count,
            reading: random.between(-1, DAY_MS + 1) as i32,
            delay: random.pick(&[any.delay, 0, 100, 30_000]),
            offset: any.offset,
            ..host.walk
        };
        loop {
            let before = host.clone();
            let outcome = host.step();
            host.counter = random::counter(&mut random);
            assert!(host.clock.in_range());
            assert!(host.links.iter().all(Link::in_range));
            assert!(host.run.iter().all(Entry::in_range));
            match outcome {
                Ok(Some(place)) => boxes[usize::from(place.step)] += 1,
                Err(Refusal::Lent) => {
                    assert_eq!((host.walk, host.run), (before.walk, before.run));
                    break;
                }
                _ => break,
            }
        }
    }
    assert!(boxes[2..].iter().all(|boxes| *boxes > 100));
}
