//! The class bench.

use super::random::{self, Random};
use super::*;
use crate::bench::layout::{self, cable, event, header, put, seat, Field};
use crate::bench::write::{self, octets};
use crate::bench::{set_up, Bench, Cable, End, Event, File, Seat, Tray};
use crate::bench::{CABLES, EVENTS, TRAYS};
use crate::packet::MOST_OCTETS;

mod refusals;

const NONE: Counter = Counter::LINE_CLOCK;

/// A bench with all that its calls borrow.
#[derive(Clone, PartialEq, Debug)]
struct Class {
    file: Vec<u8>,
    net: NetTable,
    bench: Bench,
    entries: Vec<Entry>,
}

impl Class {
    /// Lent numbers that a set-up has to write over, or to leave.
    fn used(file: Vec<u8>) -> Class {
        let mut bench = Bench::ZERO;
        for seat in &mut bench.seats {
            seat.clock.clock = Units(i64::MIN);
            seat.links[7].keep_alive = 99;
            seat.walk.open = 1;
        }
        bench.trays.fill(Tray {
            filled: 1,
            cable: 99,
            end: 99,
            length: 99_999,
            packet: [0xEE; MOST_OCTETS],
        });
        bench.done = 99_999;
        bench.answers.fill(99);
        let used = Entry {
            here: 77,
            ..entry(1, 1, 1)
        };
        Class {
            file,
            net: program::NET,
            bench,
            entries: vec![used; HOSTS * PLACES],
        }
    }

    fn new(file: &File) -> Class {
        let mut class = Class::used(octets(file));
        assert_eq!(class.set_up(), Ok(()));
        class
    }

    fn set_up(&mut self) -> Done {
        set_up(&self.file, &self.net, &mut self.bench, &mut self.entries)
    }

    fn run(&mut self, allowance: usize) -> Result<usize, Refusal> {
        crate::bench::run(
            &self.file,
            &self.net,
            &mut self.bench,
            &mut self.entries,
            allowance,
        )
    }

    /// Runs all events; their answers.
    fn answers(&mut self) -> Vec<u8> {
        let left = self.run(EVENTS).unwrap();
        self.bench.answers[self.bench.done - left..self.bench.done].to_vec()
    }

    /// The answers of a set-up and of a run; refused, they alter nothing.
    fn refused(&self) -> (u8, u8) {
        let (mut set_up, mut run) = (self.clone(), self.clone());
        let outcomes = (set_up.set_up(), run.run(1));
        assert!(outcomes.0.is_ok() || set_up == *self);
        assert!(outcomes.1.is_ok() || run == *self);
        (answer(&outcomes.0), answer(&outcomes.1))
    }

    fn entry(&self, seat: usize, id: usize) -> Entry {
        self.entries[PLACES * seat + id]
    }
}

/// The settings of a seat of the class: its own id is its number, its clock
/// ticks by 30 ms, and it has two point-to-point links.
fn seat_settings(number: u8) -> Settings {
    Settings {
        clock_tick: Units::from_ms(30),
        link_count: 2,
        ..settings_at(Address([192, 0, 2, number + 1]))
    }
}

fn cable_of(ends: [(usize, usize); 2]) -> Cable {
    Cable {
        ends: ends.map(|(seat, link)| End { seat, link }),
    }
}

/// Two seats with a cable from link 1 of seat 0 to link 2 of seat 1.
fn pair(events: &[Event]) -> File {
    File {
        seats: vec![seat_settings(0), seat_settings(1)],
        cables: vec![cable_of([(0, 1), (1, 2)])],
        events: events.to_vec(),
    }
}

fn tick(seat: usize) -> Event {
    Event::Tick { seat, count: 0 }
}

fn set(seat: usize, ms: i32) -> Event {
    Event::Set { seat, ms, count: 0 }
}

fn self_report(seat: usize) -> Event {
    Event::SelfReport {
        seat,
        counter: NONE,
    }
}

fn send(cable: usize, end: usize, tray: usize) -> Event {
    Event::Send {
        cable,
        end,
        tray,
        counter: NONE,
    }
}

fn arrival(tray: usize) -> Event {
    Event::Arrival {
        tray,
        counter: NONE,
    }
}

// The layout.

/// Whether fields cover a record once, one behind the other.
fn cover(fields: &[Field], size: usize) -> bool {
    let end = fields.iter().try_fold(0, |at, field| {
        (field.at == at && field.octets > 0).then_some(at + field.octets)
    });
    end == Some(size)
}

#[test]
fn fields_cover_their_records() {
    let mut all = [
        vec![
            header::SEATS,
            header::CABLES,
            header::EVENTS,
            header::CABLES_START,
            header::EVENTS_START,
        ],
        vec![
            seat::LOCAL_ADDRESS,
            seat::ADDRESS_OFFSET,
            seat::CLOCK_HOST,
            seat::NHOSTS,
            seat::HOLD_INTERVAL,
            seat::DATE,
            seat::TIME,
            seat::CLOCK_TICK,
            seat::LINK_COUNT,
            seat::LINKS,
            seat::MARKS,
        ],
        vec![seat::SWITCH, seat::NEIGHBOR_ADDRESS],
        vec![cable::SEAT, cable::LINK],
        vec![
            event::KIND,
            event::SEAT,
            event::CABLE,
            event::END,
            event::TRAY,
            event::MARK,
            event::COUNT,
            event::AGAIN,
            event::AMOUNT,
        ],
    ];
    let sizes = [
        header::SIZE,
        seat::SIZE,
        seat::LINK_SIZE,
        cable::END_SIZE,
        event::SIZE,
    ];
    for (fields, size) in all.iter_mut().zip(sizes) {
        fields.sort_by_key(|field| field.at);
        assert!(cover(fields, size), "{fields:?} {size}");
    }
    assert_eq!((header::SIZE, cable::SIZE), (20, 2 * cable::END_SIZE));
    assert_eq!(seat::LINKS.octets, LINKS * seat::LINK_SIZE);
    assert_eq!(seat::MARKS.octets, MARKS);
}

#[test]
fn numbers_are_high_octet_first() {
    let field = Field { at: 1, octets: 3 };
    let mut record = [9; 5];
    put(&mut record, field, 0x0A_0B0C);
    assert_eq!(record, [9, 10, 11, 12, 9]);
    assert_eq!(layout::number(&record, field), 0x0A_0B0C);
    let file = octets(&pair(&[tick(0); 3]));
    let start = (20 + 2 * seat::SIZE) as u8 as usize;
    assert_eq!(file[..12], [0, 0, 0, 2, 0, 0, 0, 1, 0, 0, 0, 3]);
    assert_eq!(usize::from(file[15]), start);
}

/// A file with every kind of event and unlike seats.
fn large_file(random: &mut Random) -> (File, NetTable) {
    let first = random::host(random);
    let nhosts = first.settings.nhosts;
    let mut seats = vec![first.settings];
    for _ in 0..random.below(4) {
        let settings = random::host(random).settings;
        if settings.nhosts == nhosts {
            seats.push(settings);
        }
    }
    let mut any_end = || {
        let seat = random.below(seats.len());
        let link = 1 + random.below(seats[seat].link_count);
        End { seat, link }
    };
    let mut cables = Vec::new();
    for _ in 0..3 {
        let ends = [any_end(), any_end()];
        cables.push(Cable { ends });
    }
    let events = (0..60).map(|_| any_event(random, seats.len())).collect();
    let file = File {
        seats,
        cables,
        events,
    };
    (file, first.net)
}

fn any_event(random: &mut Random, seats: usize) -> Event {
    let seat = random.below(seats);
    let tray = random.pick(&[0, 1, 31]);
    let mut counter = random::counter(random);
    counter.overflow = counter.overflow.min(1);
    let count = counter.count;
    match random.below(10) {
        0 => Event::Tick { seat, count },
        1 => Event::Adjust { seat, count },
        2 => {
            let ms = random.pick(&[-128, 127, 500, i32::MIN, -1_000]);
            Event::Set { seat, ms, count }
        }
        3 => Event::Second { seat },
        4 => Event::SelfReport { seat, counter },
        5 | 6 => Event::Send {
            cable: random.below(3),
            end: random.below(2),
            tray,
            counter,
        },
        _ => Event::Arrival { tray, counter },
    }
}

#[test]
fn a_file_reads_as_it_was_written() {
    let mut random = Random(14);
    for _ in 0..100 {
        let (file, net) = large_file(&mut random);
        assert_eq!(File::read(&octets(&file), &net), Ok(file));
    }
    let none = File {
        seats: vec![],
        cables: vec![],
        events: vec![],
    };
    assert_eq!(octets(&none).len(), 20);
    assert_eq!(File::read(&octets(&none), &program::NET), Ok(none));
}

// Set-up.

#[test]
fn set_up_sets_each_seat_afresh() {
    let mut file = pair(&[tick(0)]);
    file.seats[0].time = 77;
    file.seats[1].date = Date(2956);
    file.seats[1].links[1] = LinkKind::Broadcast(ROUTER);
    let mut class = Class::used(octets(&file));
    let before = class.clone();
    assert_eq!(class.set_up(), Ok(()));
    let mut walk = before.bench.seats[0].walk;
    walk.close();
    let mut links = [Link::default(); LINKS];
    let clock = Clock::fresh(77, Date::FIRST);
    assert_eq!(class.bench.seats[0], Seat { clock, links, walk });
    links[1].neighbor = ROUTER;
    let clock = Clock::fresh(0, Date(2956));
    assert_eq!(class.bench.seats[1], Seat { clock, links, walk });
    assert!(class.bench.seats[2..] == before.bench.seats[2..]);
    assert!(class.bench.trays == [Tray::EMPTY; TRAYS]);
    assert_eq!(class.bench.done, 0);
    assert_eq!(class.bench.answers[..2], [0, 99]);
    assert_eq!(class.entries[..4], fresh_table());
    let other = [false, true, false, false].map(Entry::fresh);
    assert_eq!(class.entries[PLACES..PLACES + 4], other);
    assert_eq!(class.entries[4..PLACES], before.entries[4..PLACES]);
    assert_eq!(class.entries[PLACES + 4..], before.entries[PLACES + 4..]);
}

#[test]
fn a_mark_of_a_record_is_the_seats() {
    let mut file = pair(&[self_report(0)]);
    file.seats[0].marks = marks_of([0, 3]);
    let mut class = Class::new(&file);
    assert_eq!([0, 1, 2, 3].map(|id| class.entry(0, id).here), [1, 0, 0, 1]);
    assert_eq!(class.answers(), [0]);
    assert_eq!((class.entry(0, 3).delay, class.entry(0, 3).ttl), (0, 120));
    assert_eq!(class.entry(0, 2).delay, MAX_DELAY);
}

// A run.

/// A pair, 30 ms each way, messages in turn; each is sent into tray 0.
fn handshake() -> Vec<Event> {
    let mut events = vec![set(0, 1_000), set(1, 1_500)];
    events.extend([self_report(0), self_report(1)]);
    events.extend([Event::Second { seat: 0 }, Event::Second { seat: 1 }]);
    for message in 0..4 {
        events.push(send(0, message % 2, 0));
        events.extend([tick(0), tick(1), arrival(0)]);
    }
    events
}

#[test]
fn the_handshake() {
    let mut class = Class::new(&pair(&handshake()));
    // HOLD-INTERVAL is one second, which the set loaded and the second ended.
    assert_eq!(class.run(6), Ok(6));
    assert_eq!(class.bench.seats[0].clock.hold, 0);
    let neighbors = |class: &Class| {
        [
            class.bench.seats[0].links[0].neighbor,
            class.bench.seats[1].links[1].neighbor,
        ]
    };
    let addresses = [program::SETTINGS.address, ROUTER];
    // Messages 1 and 2 make the neighbours known.
    assert_eq!(class.run(4), Ok(4));
    assert_eq!(neighbors(&class), [Address::ZERO, addresses[0]]);
    assert_eq!(class.run(4), Ok(4));
    assert_eq!(neighbors(&class), [addresses[1], addresses[0]]);
    assert_eq!(class.entry(0, 1).delay, MAX_DELAY);
    assert_eq!(class.entry(1, 0).delay, MAX_DELAY);
    // Message 3 is the first that is believed, message 4 the second.
    assert_eq!(class.run(4), Ok(4));
    let at_1 = class.entry(1, 0);
    assert_eq!((at_1.delay, at_1.offset, at_1.pid), (100, -500, 2));
    assert_eq!(class.entry(0, 1).delay, MAX_DELAY);
    assert_eq!(class.run(99), Ok(4));
    let at_0 = class.entry(0, 1);
    assert_eq!((at_0.delay, at_0.offset, at_0.pid), (100, 500, 1));
    assert_eq!(class.bench.done, 22);
    assert_eq!(class.bench.answers[..22], [0; 22]);
}

#[test]
fn each_event_is_carried_out_once_and_in_order() {
    let events = [
        Event::Set {
            seat: 0,
            ms: 86_399_000,
            count: 0,
        },
        // The count brings the sum over midnight.
        Event::Tick {
            seat: 0,
            count: 1_000,
        },
        Event::Set {
            seat: 0,
            ms: -100,
            count: 1_000,
        },
        Event::Adjust {
            seat: 0,
            count: 1_000,
        },
        Event::Second { seat: 0 },
        Event::SelfReport {
            seat: 0,
            counter: Counter {
                count: 9,
                overflow: 1,
                again: 2_000,
            },
        },
    ];
    let day = 86_400_000;
    let expected = [
        (86_399_000 * 65_536, 0, 1, Date::FIRST),
        ((86_399_030 - day) * 65_536, 0, 1, Date(1088)),
        ((86_399_030 - day) * 65_536, -100 * 65_536, 1, Date(1088)),
        (-970 * 65_536 - 51_200, -6_502_400, 1, Date(1088)),
        (-970 * 65_536 - 51_200, -6_502_400, 0, Date(1088)),
        (-940 * 65_536 - 51_200, -6_502_400, 0, Date(1088)),
    ];
    let mut class = Class::new(&pair(&events));
    let other = class.bench.seats[1];
    for (place, (clock, delta, hold, date)) in expected.into_iter().enumerate() {
        assert_eq!(class.run(1), Ok(1));
        let left = Clock {
            clock: Units(clock),
            delta: Units(delta),
            hold,
            date: date.awaited(),
        };
        assert_eq!(class.bench.seats[0].clock, left);
        assert_eq!(class.bench.done, place + 1);
    }
    // -940 ms and a bit, and the second count.
    assert_eq!(class.entry(0, 0).updated, 1_059);
    assert_eq!(class.run(1), Ok(0));
    assert_eq!(class.bench.seats[1], other);
    assert_eq!(class.bench.answers[..7], [0, 0, 0, 0, 0, 0, 99]);
}

#[test]
fn an_allowance_ends_a_run() {
    let good = Class::new(&pair(&[tick(0); 5]));
    for (allowance, count) in [(0, 0), (1, 1), (4, 4), (5, 5), (6, 5), (usize::MAX, 5)] {
        let mut class = good.clone();
        assert_eq!(class.run(allowance), Ok(count));
        assert_eq!(class.bench.done, count);
        let clock = class.bench.seats[0].clock.clock;
        assert_eq!(clock, Units::from_ms(30 * count as i64));
    }
    let mut class = good.clone();
    assert_eq!(class.run(0), Ok(0));
    assert!(class == good);
}

#[test]
fn an_arrival_goes_to_the_far_end() {
    let mut file = pair(&[send(0, 0, 5), arrival(5), send(0, 1, 5), arrival(5)]);
    file.cables.insert(0, cable_of([(0, 2), (1, 1)]));
    file.events[0] = send(1, 0, 5);
    file.events[2] = send(1, 1, 5);
    let mut class = Class::new(&file);
    let keep_alive = |class: &Class| {
        [(0, 0), (0, 1), (1, 0), (1, 1)]
            .map(|(seat, link)| class.bench.seats[seat].links[link].keep_alive)
    };
    assert_eq!(class.run(1), Ok(1));
    let tray = class.bench.trays[5];
    assert_eq!(
        (tray.filled, tray.cable, tray.end, tray.length),
        (1, 1, 0, 32)
    );
    assert_eq!(tray.packet[12..16], program::SETTINGS.address.0);
    assert_eq!(class.run(1), Ok(1));
    assert_eq!(keep_alive(&class), [0, 0, 0, 4]);
    // Seat 1 knows its neighbour now: its table goes out.
    assert_eq!(class.run(2), Ok(2));
    let tray = class.bench.trays[5];
    assert_eq!(
        (tray.filled, tray.cable, tray.end, tray.length),
        (1, 1, 1, 48)
    );
    assert_eq!(keep_alive(&class), [4, 0, 0, 3]);
    assert_eq!(class.bench.answers[..4], [0; 4]);
    assert_eq!(class.bench.trays[4].filled, 0);
}

#[test]
fn a_packet_replaces_the_old_one() {
    // The second is shorter: the octets behind it stay.
    let mut file = pair(&[send(0, 1, 0), send(1, 0, 0)]);
    file.cables.push(cable_of([(0, 2), (1, 1)]));
    let mut class = Class::new(&file);
    class.bench.seats[1].links[1].neighbor = program::SETTINGS.address;
    assert_eq!(class.run(1), Ok(1));
    let first = class.bench.trays[0];
    assert_eq!((first.cable, first.end, first.length), (0, 1, 48));
    assert_eq!(class.run(1), Ok(1));
    let second = class.bench.trays[0];
    assert_eq!((second.cable, second.end, second.length), (1, 0, 32));
    assert_eq!(second.packet[12..16], program::SETTINGS.address.0);
    assert_eq!(second.packet[32..], first.packet[32..]);
}

#[test]
fn an_arrival_does_not_empty_its_tray() {
    let mut class = Class::new(&pair(&[send(0, 0, 0), arrival(0), arrival(0), arrival(0)]));
    assert_eq!(class.run(1), Ok(1));
    let tray = class.bench.trays[0];
    // The neighbour is new, then known, and the TSP is 0.
    assert_eq!(class.answers(), [0, 10, 10]);
    assert_eq!(class.bench.trays[0], tray);
}

#[test]
fn an_unfilled_tray_asks_no_seat() {
    let mut class = Class::new(&pair(&[tick(0), arrival(7), send(0, 0, 3), arrival(7)]));
    assert_eq!(class.run(1), Ok(1));
    for seat in &mut class.bench.seats {
        seat.clock.hold = 999;
        seat.walk.open = 1;
    }
    let before = class.clone();
    assert_eq!(class.run(1), Ok(1));
    assert_eq!(class.bench.answers[..2], [0, 3]);
    assert!(class.bench.seats == before.bench.seats);
    assert_eq!(class.entries, before.entries);
    class.bench.seats = Class::new(&pair(&[])).bench.seats;
    assert_eq!(class.answers(), [0, 3]);
    // A file without seats has trays too.
    let mut class = Class::new(&File {
        seats: vec![],
        cables: vec![],
        events: vec![arrival(31)],
    });
    assert_eq!(class.answers(), [3]);
}

#[test]
fn a_refused_send_leaves_its_tray() {
    let mut class = Class::new(&pair(&[send(0, 0, 2), send(0, 1, 2), arrival(2)]));
    assert_eq!(class.run(1), Ok(1));
    let tray = class.bench.trays[2];
    let hold = class.bench.seats[1].clock.hold;
    class.bench.seats[1].clock.hold = 256;
    assert_eq!(class.run(1), Ok(1));
    assert_eq!(class.bench.answers[..2], [0, 12]);
    assert_eq!(class.bench.trays[2], tray);
    class.bench.seats[1].clock.hold = hold;
    assert_eq!(class.answers(), [0]);
    assert_eq!(class.bench.seats[1].links[1].keep_alive, 4);
}

#[test]
fn refused_calls_are_kept_and_counted() {
    let mut class = Class::new(&pair(&[
        tick(0),
        tick(1),
        self_report(1),
        send(0, 0, 0),
        arrival(0),
        tick(0),
        Event::Second { seat: 1 },
        arrival(1),
    ]));
    class.bench.seats[1].clock.hold = 256;
    let seat = class.bench.seats[1];
    assert_eq!(class.run(7), Ok(7));
    assert_eq!(class.bench.answers[..8], [0, 12, 12, 0, 12, 0, 12, 0]);
    assert_eq!(class.bench.seats[1], seat);
    class.bench.seats[1].clock.hold = 0;
    assert_eq!(class.run(7), Ok(1));
    assert_eq!(class.bench.answers[..8], [0, 12, 12, 0, 12, 0, 12, 3]);
    // A walk that is open, an entry that is bad, a mark that is not the file's.
    type Change = fn(&mut Class);
    let changes: [(Change, u8); 3] = [
        (
            |class| {
                let packet = message_from(program::SETTINGS.address, heading(0, 0), &[]);
                class.bench.seats[1].walk.open(2, &packet);
            },
            16,
        ),
        (|class| class.entries[PLACES + 3].pid = 9, 12),
        (|class| class.entries[PLACES + 1].here = 0, 12),
    ];
    for (change, number) in changes {
        let mut class = Class::new(&pair(&[tick(0), tick(1), send(0, 0, 0), arrival(0)]));
        change(&mut class);
        assert_eq!(class.answers(), [0, number, 0, number]);
    }
}

#[test]
fn a_cable_back_to_the_seat_is_a_looped_line() {
    let mut file = pair(&[send(0, 0, 0), arrival(0)]);
    file.cables[0] = cable_of([(0, 1), (0, 2)]);
    assert_eq!(Class::new(&file).answers(), [0, 9]);
}

#[test]
fn a_trays_cable_is_that_of_the_present_file() {
    let mut file = pair(&[send(0, 0, 0), arrival(0)]);
    let mut class = Class::new(&file);
    assert_eq!(class.run(1), Ok(1));
    file.cables[0] = cable_of([(0, 2), (1, 1)]);
    class.file = octets(&file);
    assert_eq!(class.answers(), [0]);
    let links = class.bench.seats[1].links;
    assert_eq!((links[0].keep_alive, links[1].keep_alive), (4, 0));
}

#[test]
fn an_arrival_looks_up_the_lent_table() {
    let far = Address([192, 0, 3, 1]);
    let mut file = pair(&[send(0, 1, 0), arrival(0), send(0, 1, 0), arrival(0)]);
    file.seats[1].address = far;
    file.seats[1].marks = marks_of([0]);
    let mut class = Class::new(&file);
    assert_eq!(class.run(2), Ok(2));
    assert_eq!(class.bench.answers[..2], [0, 11]);
    class.bench.seats[0].links[0].neighbor = Address::ZERO;
    net::add(&mut class.net, [192, 0, 3], 2).unwrap();
    assert_eq!(class.answers(), [0, 0]);
}

/// A run cut in two, or in more, ends as one run, and is what the calls do.
#[test]
fn runs_join() {
    let mut random = Random(15);
    let mut seen = [0; 28];
    for _ in 0..150 {
        let (file, net) = large_file(&mut random);
        let mut whole = Class::used(octets(&file));
        whole.net = net;
        assert_eq!(whole.set_up(), Ok(()));
        let mut cut = whole.clone();
        assert_eq!(whole.run(file.events.len()), Ok(file.events.len()));
        let mut carried_out = 0;
        while carried_out < file.events.len() {
            let allowance = random.below(40);
            let left = file.events.len() - carried_out;
            assert_eq!(cut.run(allowance), Ok(allowance.min(left)));
            carried_out += allowance.min(left);
        }
        assert!(cut == whole);
        assert_eq!(by_hand(&file, net), whole.bench.answers[..carried_out]);
        for number in &whole.bench.answers[..carried_out] {
            seen[usize::from(*number)] += 1;
        }
    }
    let seen_often = (0..28).filter(|number| seen[*number] > 10);
    assert_eq!(seen_often.collect::<Vec<_>>(), [0, 3, 8, 9, 10, 11]);
}

/// The answers of a file's calls, each made on a host of its own.
fn by_hand(file: &File, net: NetTable) -> Vec<u8> {
    let fresh = |settings: &Settings| {
        let mut host = Host::fresh(*settings);
        host.net = net;
        host
    };
    let mut hosts: Vec<Host> = file.seats.iter().map(fresh).collect();
    let mut trays: Vec<Option<(Cable, usize, Vec<u8>)>> = vec![None; 32];
    let mut answers = Vec::new();
    for event in &file.events {
        let number = match *event {
            Event::Tick { seat, count } => {
                hosts[seat].counter.count = count;
                answer(&hosts[seat].tick())
            }
            Event::Adjust { seat, count } => {
                hosts[seat].counter.count = count;
                answer(&hosts[seat].adjust())
            }
            Event::Set { seat, ms, count } => {
                hosts[seat].counter.count = count;
                answer(&hosts[seat].set(ms))
            }
            Event::Second { seat } => answer(&hosts[seat].second()),
            Event::SelfReport { seat, counter } => {
                hosts[seat].counter = counter;
                answer(&hosts[seat].self_report())
            }
            Event::Send {
                cable,
                end,
                tray,
                counter,
            } => {
                let near = file.cables[cable].ends[end];
                hosts[near.seat].counter = counter;
                let message = hosts[near.seat].message(near.link);
                trays[tray] = Some((file.cables[cable], end, message));
                0
            }
            Event::Arrival { tray, counter } => match &trays[tray] {
                None => 3,
                Some((cable, end, message)) => {
                    let far = cable.ends[usize::from(*end == 0)];
                    hosts[far.seat].counter = counter;
                    answer(&hosts[far.seat].arrival(far.link, message))
                }
            },
        };
        answers.push(number);
    }
    answers
}
