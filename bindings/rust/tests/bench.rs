//! The class bench: files set up and run.

use hello::bench::{BenchState, HostState, Packet, Progress, Ran, SLOT_LENGTH};
use hello::bench_file::{End, Event, File, MOST_EVENTS, SLOTS};
use hello::{Address, Answer, Bench, ClassTable, Counter, Entry, Layout, Net, Room, Settings};
use hello::{LONGEST_MESSAGE, PLACES, UNITS_PER_MS};

const LAYOUT: Layout = Layout {
    address_offset: 1,
    nhosts: 3,
};

/// Host 192.0.2.1 has id 0, and a line clock that ticks each 10 ms; a host has two links.
fn settings(id: u8) -> Settings {
    Settings {
        clock_tick: 10 * UNITS_PER_MS,
        time: 40_000 + 500 * i64::from(id),
        link_count: 2,
        ..Settings::new(Address::new(192, 0, 2, 1 + id), LAYOUT)
    }
}

fn end(host: u8, link: u8) -> End {
    End { host, link }
}

fn send(cable: u8, end: u8, slot: u8) -> Event {
    Event::Send {
        cable,
        end,
        slot,
        counter: Counter::LINE_CLOCK,
    }
}

fn arrival(slot: u8) -> Event {
    Event::Arrival {
        slot,
        counter: Counter::LINE_CLOCK,
    }
}

/// Three hosts in a line. The first two exchange messages, of which one is lost, one comes twice, and
/// one is overtaken; the third has its clock set in between.
fn exercise() -> File {
    let mut events: Vec<Event> = (0..3)
        .map(|host| Event::SelfReport(host, Counter::LINE_CLOCK))
        .collect();
    events.extend([send(0, 0, 0), Event::Tick(1, 0), arrival(0)]);
    events.extend([send(0, 1, 1), Event::Tick(0, 0), arrival(1)]);
    events.extend([send(0, 0, 0), arrival(0), arrival(0)]);
    events.extend([send(0, 1, 0)]);
    events.extend([send(0, 1, 5), send(0, 1, 31), arrival(31), arrival(5)]);
    events.extend([send(1, 0, 2), arrival(2), arrival(7)]);
    events.extend([Event::Set(2, -700, 0), send(1, 0, 3), arrival(3)]);
    events.extend([Event::Adjust(0, 0), Event::Second(0), Event::Second(2)]);
    File {
        hosts: (0..3).map(settings).collect(),
        cables: vec![[end(0, 1), end(1, 1)], [end(1, 2), end(2, 1)]],
        events,
    }
}

fn bench_of(file: &File) -> Bench {
    let mut bench = Bench::new(file.octets().unwrap(), ClassTable::new(LAYOUT.nhosts));
    assert_eq!(bench.set_up(), Ok(()));
    bench
}

/// The answers of the events, each made as a call of a room's host; the room that they leave.
fn by_calls(file: &File) -> (Vec<Answer>, Room) {
    let mut room = Room::new(file.hosts.len(), LAYOUT.nhosts);
    for (number, settings) in file.hosts.iter().enumerate() {
        assert_eq!(room.host(number).initialize(*settings), Ok(()));
    }
    let mut slots = vec![None; SLOTS];
    let answers = file.events.iter().map(|event| match *event {
        Event::Tick(host, count) => room.host(host.into()).tick(count),
        Event::Adjust(host, count) => room.host(host.into()).adjust(count),
        Event::Set(host, ms, count) => room.host(host.into()).set(ms, count),
        Event::Second(host) => room.host(host.into()).second(),
        Event::SelfReport(host, counter) => room.host(host.into()).self_report(counter),
        Event::Send {
            cable,
            end,
            slot,
            counter,
        } => {
            let [from, to] = [end, 1 - end].map(|end| file.cables[cable as usize][end as usize]);
            let sent = room.host(from.host.into()).send(from.link.into(), counter);
            sent.map(|packet| slots[slot as usize] = Some((to, packet)))
        }
        Event::Arrival { slot, counter } => match &slots[slot as usize] {
            Some((to, packet)) => {
                let mut host = room.host(to.host.into());
                host.receive(to.link.into(), counter, packet)
            }
            None => Err(Answer::IpForm),
        },
    });
    let answers = answers.map(|done| done.err().unwrap_or(Answer::Done));
    (answers.collect(), room)
}

/// All that two benches keep.
fn assert_same(one: &Bench, other: &Bench) {
    assert_eq!(one.done(), other.done());
    assert_eq!(one.answers(), other.answers());
    assert_eq!(one.hosts(), other.hosts());
    assert_eq!(one.entries(), other.entries());
    for slot in 0..SLOTS {
        assert_eq!(one.packet(slot), other.packet(slot));
    }
}

#[test]
fn a_run_is_its_calls() {
    let file = exercise();
    let mut bench = bench_of(&file);
    assert_eq!(bench.run(MOST_EVENTS), Ok(file.events.len()));
    let (answers, mut room) = by_calls(&file);
    assert_eq!(bench.answers(), answers);
    for number in 0..3 {
        let HostState { clock, links, walk } = bench.hosts()[number];
        assert_eq!(bench.table(number), room.host(number).table());
        let host = room.host(number);
        assert_eq!((clock, links, walk), (*host.clock, *host.links, *host.walk));
    }
    assert_eq!(bench.entries()[..3 * PLACES], *room.entries());
    // An empty slot, a message while HOLD runs, and a host that came up.
    let count = |answer| answers.iter().filter(|given| **given == answer).count();
    assert_eq!(
        (count(Answer::IpForm), count(Answer::DelayNotValid)),
        (1, 1)
    );
    assert_eq!(bench.table(1)[0].delay, 100);
}

#[test]
fn slots() {
    let mut bench = bench_of(&exercise());
    assert_eq!(bench.packet(0), None);
    assert_eq!(bench.run(4), Ok(4));
    let Some(Packet { cable, end, octets }) = bench.packet(0) else {
        panic!("the slot is empty");
    };
    assert_eq!((cable, end, octets.len()), (0, 0, 32));
    let sent = octets.to_vec();
    // An arrival leaves it, the next send replaces it.
    assert_eq!(bench.run(2), Ok(2));
    assert_eq!(bench.packet(0).unwrap().octets, sent);
    assert_eq!(bench.run(4), Ok(4));
    assert_ne!(bench.packet(0).unwrap().octets, sent);
}

#[test]
fn cut_in_two_it_ends_as_one() {
    let file = exercise();
    let mut complete = bench_of(&file);
    assert_eq!(complete.run(usize::MAX), Ok(file.events.len()));
    for cut in 0..=file.events.len() {
        let mut bench = bench_of(&file);
        assert_eq!(bench.run(cut), Ok(cut));
        assert_eq!(bench.done(), cut);
        assert_eq!(bench.answers(), complete.answers()[..cut]);
        assert_eq!(bench.run(MOST_EVENTS), Ok(file.events.len() - cut));
        assert_same(&bench, &complete);
    }
    // At the end no event is left.
    assert_eq!(complete.run(1), Ok(0));
}

#[test]
fn set_up_again() {
    let file = exercise();
    let mut bench = bench_of(&file);
    let fresh = bench.clone();
    assert_eq!(bench.run(20), Ok(20));
    assert_eq!(bench.set_up(), Ok(()));
    assert_eq!(bench.answers(), []);
    assert_eq!(bench.hosts(), fresh.hosts());
    assert_eq!(bench.entries(), fresh.entries());
    assert!((0..SLOTS).all(|slot| bench.packet(slot).is_none()));
}

#[test]
fn another_file_goes_on() {
    let file = exercise();
    let mut complete = bench_of(&file);
    assert_eq!(complete.run(usize::MAX), Ok(file.events.len()));
    let (first, second) = file.events.split_at(10);
    let part = |events: &[Event]| File {
        events: events.to_vec(),
        ..file.clone()
    };
    let mut bench = bench_of(&part(first));
    assert_eq!(bench.run(usize::MAX), Ok(10));
    bench.go_on_with(part(second).octets().unwrap());
    assert_eq!((bench.done(), bench.answers()), (0, vec![]));
    assert_eq!(bench.run(usize::MAX), Ok(second.len()));
    assert_eq!(bench.answers(), complete.answers()[10..]);
    assert_eq!(bench.hosts(), complete.hosts());
    assert_eq!(bench.entries(), complete.entries());
    // A file without the cable of a packet on its way is refused.
    let mut without = part(second);
    without.cables.pop();
    without.events.clear();
    bench.go_on_with(without.octets().unwrap());
    assert_eq!(bench.run(0), Err(Answer::OutOfRange));
}

/// What both calls answer to a file, of which nothing is changed.
fn refused(octets: Vec<u8>, net_table: ClassTable) -> Answer {
    let mut bench = Bench::new(octets, net_table);
    let before = bench.clone();
    let answer = bench.set_up().expect_err("the file is refused");
    assert_eq!(bench.run(1), Err(answer));
    assert_same(&bench, &before);
    answer
}

#[test]
fn refusals() {
    let table = ClassTable::new(LAYOUT.nhosts);
    let octets = exercise().octets().unwrap();
    assert_eq!(refused(vec![], table), Answer::Header);
    let longer = [&octets[..], &[0]].concat();
    assert_eq!(refused(longer, table), Answer::Header);
    let mut kind = octets.clone();
    let last = kind.len() - 14;
    kind[last] = 8;
    assert_eq!(refused(kind, table), Answer::Absent);
    assert_eq!(refused(octets.clone(), ClassTable::new(4)), Answer::Absent);
    // 19 comes before 12: a table of another NHOSTS, which is bad besides.
    assert_eq!(refused(octets.clone(), ClassTable::new(0)), Answer::Absent);
    let mut bad = table;
    assert_eq!(bad.add(Net::new(10, 0, 0), 2), Ok(1));
    bad.net.rows[0].id = 3;
    assert_eq!(refused(octets, bad), Answer::OutOfRange);
}

/// The plain calls borrow no more than the file needs, and one thing less.
#[test]
fn borrowed_too_short() {
    let octets = exercise().octets().unwrap();
    let events = exercise().events.len();
    let table = ClassTable::new(LAYOUT.nhosts);
    let lengths = [
        3,
        3 * LONGEST_MESSAGE,
        3 * PLACES,
        SLOTS * SLOT_LENGTH,
        events,
    ];
    for short in 0..=lengths.len() {
        let mut lengths = lengths;
        if let Some(length) = lengths.get_mut(short) {
            *length -= 1;
        }
        let right = if short < lengths.len() { 12 } else { 0 };
        let [hosts, copies, entries, slots, answers] = lengths;
        let mut hosts = vec![HostState::default(); hosts];
        let copies = vec![0; copies];
        let mut entries = vec![Entry::default(); entries];
        let mut slots = vec![0; slots];
        let mut answers = vec![0; answers];
        let mut progress = Progress::default();
        let mut state = BenchState {
            file: &octets,
            table: &table,
            hosts: &mut hosts,
            copies: &copies,
            entries: &mut entries,
            slots: &mut slots,
            answers: &mut answers,
            progress: &mut progress,
        };
        assert_eq!(state.set_up(), right);
        let ran = state.run(usize::MAX);
        let count = if right == 0 { events } else { 0 };
        let expected = Ran {
            answer: right,
            count,
        };
        assert_eq!((ran, progress.done), (expected, count));
    }
}
