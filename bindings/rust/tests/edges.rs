//! The ends of what the safe calls take: empty slices, numbers far out of range.

use hello::{
    Address, Answer, ClassTable, Clock, Counter, Entry, Layout, LinkSetting, Links, Room, Settings,
};
use hello::{State, Walk, HOSTS, LONGEST_MESSAGE, PLACES, UNITS_PER_MS};

const LINE_CLOCK: Counter = Counter::LINE_CLOCK;

/// The table of a class of four.
const TABLE: ClassTable = ClassTable::new(4);

/// Good settings of host 192.0.2.1 among four.
fn settings() -> Settings {
    let layout = Layout {
        address_offset: 1,
        nhosts: 4,
    };
    Settings::new(Address::new(192, 0, 2, 1), layout)
}

/// A room of hosts, of which the last is initialized.
fn room(hosts: usize) -> Room {
    let mut room = Room::new(hosts, 4);
    let answer = room.host(hosts - 1).initialize(settings());
    assert_eq!(answer, Ok(()));
    room
}

#[test]
fn empty_slices_are_answered() {
    assert_eq!(hello::packet(&[]), Answer::IpForm.number());
    assert_eq!(hello::checksum(&[]), 0xFFFF);
    assert_eq!(hello::checksum_plain(&[]), 0xFFFF);

    let mut room = room(1);
    let mut host = room.host(0);
    assert_eq!(
        host.send_into(1, LINE_CLOCK, &mut []),
        Err(Answer::ShortBuffer)
    );
    assert_eq!(host.inspect(1, &[]), Err(Answer::IpForm));
    assert_eq!(host.act(1, LINE_CLOCK, &[]), Err(Answer::IpForm));
    assert_eq!(host.receive(1, LINE_CLOCK, &[]), Err(Answer::IpForm));
    assert_eq!(host.open_walk(1, &[]), Err(Answer::IpForm));

    let (clock, links) = (&mut Clock::default(), &mut Links::default());
    let walk = &mut Walk::default();
    let mut state = State {
        settings: &settings(),
        table: &TABLE,
        number: 0,
        clock,
        links,
        walk,
        copy: &mut [],
        entries: &mut [],
    };
    assert_eq!(state.tick(0), Answer::OutOfRange.number());
}

#[test]
fn numbers_far_out_of_range_are_answered() {
    let mut entries = vec![Entry::default(); HOSTS * PLACES];
    for number in [HOSTS, usize::MAX] {
        let (clock, links) = (&mut Clock::default(), &mut Links::default());
        let walk = &mut Walk::default();
        let mut state = State {
            settings: &settings(),
            table: &TABLE,
            number,
            clock,
            links,
            walk,
            copy: &mut [],
            entries: &mut entries,
        };
        assert_eq!(state.initialize(), Answer::OutOfRange.number());
    }
    let mut room = room(HOSTS);
    let mut host = room.host(HOSTS - 1);
    for link in [0, 2, 9, usize::MAX] {
        assert_eq!(host.send(link, LINE_CLOCK), Err(Answer::OutOfRange));
        assert_eq!(host.inspect(link, &[]), Err(Answer::OutOfRange));
        assert_eq!(host.act(link, LINE_CLOCK, &[]), Err(Answer::OutOfRange));
        assert_eq!(host.receive(link, LINE_CLOCK, &[]), Err(Answer::OutOfRange));
        assert_eq!(host.open_walk(link, &[]), Err(Answer::OutOfRange));
    }
}

#[test]
fn settings_far_out_of_range_are_answered() {
    let mut room = room(1);
    let mut host = room.host(0);
    let mut broken = [settings(); 4];
    broken[0].layout.nhosts = usize::MAX;
    broken[1].link_count = usize::MAX;
    broken[2].links[0].broadcast = 2;
    broken[3].clock_tick = i64::MIN;
    for settings in broken {
        assert_eq!(host.initialize(settings), Err(Answer::Setting));
    }
    assert_eq!(*host.settings, self::settings());
    host.settings.layout.nhosts = usize::MAX;
    assert_eq!(host.table().len(), PLACES);
}

#[test]
fn lent_values_far_out_of_range_are_answered() {
    let mut room = room(1);
    let mut host = room.host(0);
    for value in [i64::MIN, -65_535 * UNITS_PER_MS - 1, i64::MAX] {
        host.clock.clock = value;
        assert_eq!(host.tick(0), Err(Answer::OutOfRange));
        assert_eq!(host.clock.clock, value);
    }
}

#[test]
fn octets_behind_a_message_and_other_places_stay() {
    let mut room = room(2);
    let (others, own) = room.entries().split_at(PLACES);
    assert!(others.iter().all(|entry| *entry == Entry::default()));
    assert!(own[4..].iter().all(|entry| *entry == Entry::default()));
    assert!(own[..4].iter().all(|entry| entry.delay == 30_000));

    let mut buffer = [0xAA; 40];
    assert_eq!(room.host(1).send_into(1, LINE_CLOCK, &mut buffer), Ok(32));
    assert_eq!(buffer[32..], [0xAA; 8]);
}

#[test]
fn a_host_that_is_not_set_is_refused() {
    let mut room = room(2);
    let mut host = room.host(0);
    assert_eq!(host.tick(0), Err(Answer::OutOfRange));
    assert_eq!(host.read(LINE_CLOCK), Err(Answer::OutOfRange));
    assert_eq!(host.table().len(), 0);
}

#[test]
fn the_longest_message_is_sent_whole() {
    let mut room = Room::new(1, PLACES);
    let mut host = room.host(0);
    let mut wide = settings();
    wide.layout.nhosts = PLACES;
    wide.links[0] = LinkSetting::broadcast(Address::new(192, 0, 2, 2));
    assert_eq!(host.initialize(wide), Ok(()));
    assert_eq!(
        host.send(1, LINE_CLOCK).map(|message| message.len()),
        Ok(LONGEST_MESSAGE)
    );
    assert_eq!(LONGEST_MESSAGE, 1_052);
}

#[test]
fn answers_have_their_numbers() {
    for answer in Answer::ALL {
        assert_eq!(Answer::of(answer.number()), Some(answer));
    }
    assert_eq!(Answer::of(255), None);
}
