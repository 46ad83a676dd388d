//! What set-up and run refuse: 18, 19, then 12.

use super::*;

// 18.

fn form(file: &[u8]) -> (u8, u8) {
    Class::used(file.to_vec()).refused()
}

#[test]
fn sections_touch_and_end_with_the_file() {
    let good = octets(&pair(&[tick(0), tick(1)]));
    assert_eq!(Class::used(good.clone()).set_up(), Ok(()));
    for length in [0, 1, 19, 20, good.len() - 1] {
        assert_eq!(form(&good[..length]), (18, 18));
    }
    let long = [&good[..], &[0]].concat();
    assert_eq!(form(&long), (18, 18));
    let changed = |field: Field, change: fn(u64) -> u64| {
        let mut file = good.clone();
        let number = layout::number(&file, field);
        put(&mut file, field, change(number));
        form(&file)
    };
    for field in [
        header::SEATS,
        header::CABLES,
        header::EVENTS,
        header::CABLES_START,
        header::EVENTS_START,
    ] {
        assert_eq!(changed(field, |number| number + 1), (18, 18));
        assert_eq!(changed(field, |number| number - 1), (18, 18));
        assert_eq!(changed(field, |number| number + (1 << 31)), (18, 18));
        assert_eq!(changed(field, |_| u32::MAX.into()), (18, 18));
    }
}

#[test]
fn starts_of_empty_sections_are_tested() {
    for field in [header::CABLES_START, header::EVENTS_START] {
        for start in [0, 19, 21] {
            let mut file = write::head(0, 0, 0);
            put(&mut file, field, start);
            assert_eq!(form(&file), (18, 18));
        }
    }
    let mut class = Class::used(write::head(0, 0, 0));
    assert_eq!(class.set_up(), Ok(()));
    assert_eq!(class.run(5), Ok(0));
}

#[test]
fn there_are_up_to_16_seats_32_cables_and_2048_events() {
    let seats: Vec<_> = (0..17).map(|_| seat_settings(0)).collect();
    let with = |number: usize, cables: usize, events: usize| {
        let file = octets(&File {
            seats: seats[..number].to_vec(),
            cables: vec![cable_of([(0, 1), (0, 2)]); cables],
            events: vec![tick(0); events],
        });
        answer(&Class::used(file).set_up())
    };
    assert_eq!(with(16, 32, 2_048), 0);
    assert_eq!(with(17, 32, 2_048), 18);
    assert_eq!(with(16, 33, 2_048), 18);
    assert_eq!(with(16, 32, 2_049), 18);
    assert_eq!((CABLES, EVENTS, TRAYS), (32, 2_048, 32));
}

// 19.

/// The answer to a file of the pair's with one seat record changed.
fn with_seat(change: impl Fn(&mut Vec<u8>)) -> u8 {
    let file = pair(&[tick(0)]);
    let mut records = vec![write::head(2, 1, 1)];
    records.push(write::seat_record(&file.seats[0]));
    let mut changed = write::seat_record(&file.seats[1]);
    change(&mut changed);
    records.push(changed);
    records.push(write::cable_record(&file.cables[0]));
    records.push(write::event_record(&file.events[0]));
    numbers_of(records.concat())
}

/// The answer to a file, the same by set-up and run.
fn numbers_of(file: Vec<u8>) -> u8 {
    let mut class = Class::new(&pair(&[tick(0)]));
    class.file = file;
    let (set_up, run) = class.refused();
    assert_eq!(set_up, run);
    set_up
}

#[test]
fn settings_are_those_that_1_lets_pass() {
    let with = |field: Field, number: u64| with_seat(|record| put(record, field, number));
    assert_eq!(with_seat(|_| ()), 0);
    assert_eq!(with(seat::LOCAL_ADDRESS, 0xE000_0202), 19);
    assert_eq!(with(seat::ADDRESS_OFFSET, 3), 19);
    assert_eq!(with(seat::CLOCK_HOST, 4), 19);
    assert_eq!(with(seat::CLOCK_HOST, 3), 0);
    assert_eq!(with(seat::HOLD_INTERVAL, 0), 19);
    assert_eq!(with(seat::HOLD_INTERVAL, 256), 19);
    assert_eq!(with(seat::DATE, 0), 19);
    assert_eq!(with(seat::TIME, 86_399_999), 0);
    assert_eq!(with(seat::TIME, 86_400_000), 19);
    assert_eq!(with(seat::CLOCK_TICK, 0), 19);
    assert_eq!(with(seat::CLOCK_TICK, 1 << 32), 0);
    assert_eq!(with(seat::CLOCK_TICK, (1 << 32) + 1), 19);
    assert_eq!(with(seat::CLOCK_TICK, 1 << 63), 19);
    assert_eq!(with(seat::CLOCK_TICK, u64::MAX), 19);
    assert_eq!(with(seat::LINK_COUNT, 0), 19);
    assert_eq!(with(seat::LINK_COUNT, 8), 0);
    assert_eq!(with(seat::LINK_COUNT, 9), 19);
    // NHOSTS is the table's.
    for nhosts in [0, 3, 5, 255, 256, 260] {
        assert_eq!(with(seat::NHOSTS, nhosts), 19);
    }
}

#[test]
fn marks_and_switches_are_0_or_1() {
    let with = |at: usize, octet: u8| with_seat(|record| record[at] = octet);
    let mark = |id: usize| seat::MARKS.at + id;
    let switch = |link: usize| seat::LINKS.at + (link - 1) * seat::LINK_SIZE + seat::SWITCH.at;
    for (id, octet, number) in [
        (1, 0, 19),
        (1, 1, 0),
        (1, 2, 19),
        (0, 1, 0),
        (0, 2, 19),
        (3, 255, 19),
        (4, 1, 19),
        (254, 1, 19),
        (255, 1, 19),
        (255, 2, 19),
    ] {
        assert_eq!(with(mark(id), octet), number, "{id} {octet}");
    }
    assert_eq!(with(switch(1), 1), 0);
    for (link, octet, number) in [(1, 2, 19), (2, 255, 19), (3, 2, 0), (8, 255, 0)] {
        assert_eq!(with(switch(link), octet), number, "{link} {octet}");
    }
}

#[test]
fn a_cable_ends_at_links_that_are_there() {
    let with = |ends: [(usize, usize); 2]| {
        let mut file = pair(&[tick(0)]);
        file.cables.push(cable_of(ends));
        numbers_of(octets(&file))
    };
    assert_eq!(with([(0, 2), (1, 1)]), 0);
    for (seat, link) in [(2, 1), (255, 1), (0, 0), (0, 3), (1, 9), (1, 255)] {
        assert_eq!(with([(seat, link), (1, 1)]), 19, "{seat} {link}");
        assert_eq!(with([(1, 1), (seat, link)]), 19, "{seat} {link}");
    }
    // At one seat, on one link, on links that have one: no fault of the file.
    assert_eq!(with([(0, 1), (0, 2)]), 0);
    assert_eq!(with([(0, 1), (0, 1)]), 0);
    assert_eq!(with([(0, 1), (1, 2)]), 0);
    let mut file = pair(&[tick(0)]);
    file.seats[0].links[0] = LinkKind::Broadcast(ROUTER);
    assert_eq!(numbers_of(octets(&file)), 0);
}

/// The answer to the pair's file with one event, some of its fields changed.
fn with_event(event: Event, changes: &[(Field, u64)]) -> u8 {
    let mut file = octets(&pair(&[event]));
    let start = file.len() - event::SIZE;
    for (field, number) in changes {
        put(&mut file[start..], *field, *number);
    }
    numbers_of(file)
}

#[test]
fn an_event_names_what_is_there() {
    let second = Event::Second { seat: 1 };
    let adjust = Event::Adjust { seat: 1, count: 1 };
    for event in [tick(1), adjust, set(1, -1), second, self_report(1)] {
        assert_eq!(with_event(event, &[]), 0);
        assert_eq!(with_event(event, &[(event::SEAT, 2)]), 19);
        assert_eq!(with_event(event, &[(event::SEAT, 255)]), 19);
    }
    for (field, most) in [(event::CABLE, 0), (event::END, 1), (event::TRAY, 31)] {
        assert_eq!(with_event(send(0, 0, 0), &[(field, most)]), 0);
        assert_eq!(with_event(send(0, 0, 0), &[(field, most + 1)]), 19);
        assert_eq!(with_event(send(0, 0, 0), &[(field, 255)]), 19);
    }
    assert_eq!(with_event(arrival(31), &[]), 0);
    assert_eq!(with_event(arrival(32), &[]), 19);
    for kind in 0..=255 {
        let number = if (1..=7).contains(&kind) { 0 } else { 19 };
        assert_eq!(with_event(send(0, 0, 0), &[(event::KIND, kind)]), number);
    }
    // The last of many, which no allowance of this run reaches.
    let mut events = vec![tick(0); 50];
    events.push(tick(2));
    assert_eq!(numbers_of(octets(&pair(&events))), 19);
}

#[test]
fn unused_fields_of_an_event_are_not_looked_at() {
    let not_here = [
        (event::SEAT, 255),
        (event::CABLE, 255),
        (event::END, 255),
        (event::TRAY, 255),
        (event::MARK, 255),
        (event::COUNT, 65_535),
        (event::AGAIN, 65_535),
        (event::AMOUNT, 1 << 31),
    ];
    let but = |used: &[usize]| -> Vec<(Field, u64)> {
        let unused = (0..not_here.len()).filter(|place| !used.contains(place));
        unused.map(|place| not_here[place]).collect()
    };
    let second = Event::Second { seat: 1 };
    let adjust = Event::Adjust { seat: 1, count: 1 };
    for event in [tick(1), adjust, set(1, 1), second] {
        assert_eq!(with_event(event, &but(&[0])), 0);
    }
    assert_eq!(with_event(self_report(1), &but(&[0, 4])), 0);
    assert_eq!(with_event(send(0, 1, 2), &but(&[1, 2, 3, 4])), 0);
    assert_eq!(with_event(arrival(2), &but(&[3, 4])), 0);
    // The mark for counter overflow, where it is used.
    for event in [self_report(1), send(0, 1, 2), arrival(2)] {
        assert_eq!(with_event(event, &[(event::MARK, 1)]), 0);
        assert_eq!(with_event(event, &[(event::MARK, 2)]), 19);
    }
}

// 12, and the order.

#[test]
fn entries_are_lent_with_every_seats_places() {
    let mut class = Class::new(&pair(&[tick(0)]));
    class.entries.truncate(2 * PLACES - 1);
    assert_eq!(class.refused(), (12, 12));
    let mut class = Class::new(&pair(&[tick(0)]));
    class.entries.truncate(2 * PLACES);
    assert_eq!(class.refused(), (0, 0));
    let mut class = Class::new(&File::read(&write::head(0, 0, 0), &program::NET).unwrap());
    class.entries.clear();
    assert_eq!(class.refused(), (0, 0));
}

#[test]
fn a_trays_cable_is_in_the_file() {
    let good = Class::new(&pair(&[tick(0)]));
    let with = |change: fn(&mut Tray)| {
        let mut class = good.clone();
        class.bench.trays[31].filled = 2;
        change(&mut class.bench.trays[31]);
        class.refused()
    };
    assert_eq!(with(|tray| tray.cable = 0), (0, 0));
    assert_eq!(with(|tray| tray.cable = 1), (0, 12));
    assert_eq!(with(|tray| tray.cable = usize::MAX), (0, 12));
    assert_eq!(with(|tray| tray.end = 1), (0, 0));
    assert_eq!(with(|tray| tray.end = 2), (0, 12));
    assert_eq!(with(|tray| tray.length = MOST_OCTETS), (0, 0));
    assert_eq!(with(|tray| tray.length = MOST_OCTETS + 1), (0, 12));
    // Of an unfilled tray nothing is looked at.
    let unfilled = |tray: &mut Tray| (tray.filled, tray.cable, tray.end) = (0, 9, 9);
    assert_eq!(with(unfilled), (0, 0));
    // Refused with nothing allowed, too, and with nothing altered.
    let mut class = good.clone();
    (class.bench.trays[0].filled, class.bench.trays[0].cable) = (1, 1);
    let before = class.clone();
    assert_eq!(class.run(0), Err(Refusal::Lent));
    assert_eq!(class.run(1), Err(Refusal::Lent));
    assert!(class == before);
}

#[test]
fn no_more_events_are_done_than_there_are() {
    let mut class = Class::new(&pair(&[tick(0); 3]));
    for (done, number) in [(3, 0), (4, 12), (2_048, 12), (usize::MAX, 12)] {
        class.bench.done = done;
        let before = class.clone();
        assert_eq!(answer(&class.run(1)), number);
        assert!(class == before);
    }
    assert_eq!(class.set_up(), Ok(()));
}

#[test]
fn the_order_is_18_19_12() {
    let mut bad = pair(&[tick(0), tick(2)]);
    let mut class = Class::new(&pair(&[tick(0)]));
    class.file = octets(&bad);
    class.entries.truncate(2 * PLACES - 1);
    class.bench.done = 9;
    class.bench.trays[0] = Tray {
        filled: 1,
        cable: 7,
        ..Tray::EMPTY
    };
    class.net.count = 33;
    assert_eq!(class.refused(), (19, 19));
    class.file.push(0);
    assert_eq!(class.refused(), (18, 18));
    bad.events.pop();
    class.file = octets(&bad);
    assert_eq!(class.refused(), (12, 12));
    class.net = program::NET;
    assert_eq!(class.refused(), (12, 12));
    // NHOSTS unlike the table's is 19, whatever else the table is.
    class.net.nhosts = 0;
    assert_eq!(class.refused(), (19, 19));
}

#[test]
fn a_bad_table_is_12_last() {
    let mut class = Class::new(&pair(&[tick(0)]));
    class.net.count = 33;
    assert_eq!(class.refused(), (12, 12));
    class.net.count = 2;
    class.net.rows[1].host = 4;
    assert_eq!(class.refused(), (12, 12));
    class.net.count = 1;
    assert_eq!(class.refused(), (0, 0));
    // No seat is there to be compared with its NHOSTS.
    let mut class = Class::used(write::head(0, 0, 0));
    class.net.nhosts = 0;
    assert_eq!(class.refused().0, 12);
}

#[test]
fn no_seat_is_altered_where_a_later_one_is_refused() {
    let mut file = pair(&[tick(0), arrival(0)]);
    file.seats[1].hold_interval = 0;
    let mut class = Class::used(octets(&file));
    let before = class.clone();
    assert_eq!(class.set_up(), Err(Refusal::FileRecord));
    assert!(class == before);
    assert_eq!(class.run(2), Err(Refusal::FileRecord));
    assert!(class == before);
}
