//! Times a full bench file, run by the class bench in one call, beside the same calls made one by one.
//!
//! The file has 2,048 events of sixteen hosts of 255 ids, in a ring; its events are of the kinds, and in
//! the order, of a room that `./run` saves: each host has a second each second, sends on both links
//! every 5 s and reports itself every 10 s; a message arrives before the next second; crystals tick
//! every 66 s. Hosts are set afresh before each turn, which is not timed. Both ways must end alike.

#[path = "../figures.rs"]
#[allow(dead_code)]
mod figures;

use figures::{print_load, rounds};
use hello::bench_file::{End, Event, File, MOST_EVENTS, MOST_HOSTS, SLOTS};
use hello::{Address, Bench, ClassTable, Clock, Counter, Entry, Layout, Links, Settings, State};
use hello::{Walk, LONGEST_MESSAGE, PLACES, UNITS_PER_MS};
use std::hint::black_box;
use std::time::Instant;

const LAYOUT: Layout = Layout {
    address_offset: 1,
    nhosts: PLACES,
};

/// Which ids live at the hosts.
#[derive(Clone, Copy)]
enum Ids {
    /// Each host's own alone; the other 239 hosts are down.
    Own,
    /// All 255, at one host after the other in turn.
    All,
}

fn settings(number: usize, ids: Ids) -> Settings {
    let further: Vec<u8> = match ids {
        Ids::Own => Vec::new(),
        Ids::All => (0..PLACES)
            .filter(|id| id % MOST_HOSTS == number)
            .map(|id| id as u8)
            .collect(),
    };
    Settings {
        hold_interval: 10,
        clock_tick: 65_536 * UNITS_PER_MS,
        time: 28_800_000 + 500 * number as i64,
        link_count: 2,
        ..Settings::new(Address::new(192, 0, 2, 1 + number as u8), LAYOUT).with_marks(further)
    }
}

/// The cable from each host's link 2 to link 1 of the next.
fn cable(number: usize) -> [End; 2] {
    let end = |host: usize, link| End {
        host: (host % MOST_HOSTS) as u8,
        link,
    };
    [end(number, 2), end(number + 1, 1)]
}

/// The events of a second.
fn second(second: usize) -> Vec<Event> {
    let hosts = 0..MOST_HOSTS as u8;
    let at = |ms: usize| Counter::of(((1_000 * second + ms) % 65_536) as u16);
    let mut events: Vec<Event> = Vec::new();
    if second % 66 == 65 {
        events.extend(hosts.clone().map(|host| Event::Tick(host, at(0).count)));
    }
    for host in hosts.clone() {
        events.push(Event::Second(host));
        if second.is_multiple_of(10) {
            events.push(Event::SelfReport(host, at(0)));
        }
    }
    if second % 5 == 4 {
        let messages = hosts.flat_map(|cable| [0, 1].map(|end| (cable, end)));
        for (cable, end) in messages {
            let slot = (2 * cable + end) % SLOTS as u8;
            events.push(Event::Send {
                cable,
                end,
                slot,
                counter: at(0),
            });
            events.push(Event::Arrival {
                slot,
                counter: at(40),
            });
        }
    }
    events
}

fn exercise(ids: Ids) -> File {
    File {
        hosts: (0..MOST_HOSTS).map(|host| settings(host, ids)).collect(),
        cables: (0..MOST_HOSTS).map(cable).collect(),
        events: (0..).flat_map(second).take(MOST_EVENTS).collect(),
    }
}

/// What a program keeps that makes the calls itself.
struct Caller {
    file: File,
    table: ClassTable,
    clocks: Vec<Clock>,
    links: Vec<Links>,
    walks: Vec<Walk>,
    copy: Vec<u8>,
    run: Vec<Entry>,
    /// The packets on their way, with the length of each and the end to which it goes.
    slots: Vec<[u8; LONGEST_MESSAGE]>,
    labels: Vec<(usize, End)>,
    answers: Vec<u8>,
}

impl Caller {
    fn new(file: File) -> Caller {
        let nobody = End { host: 0, link: 0 };
        Caller {
            file,
            table: ClassTable::new(PLACES),
            clocks: vec![Clock::default(); MOST_HOSTS],
            links: vec![Links::default(); MOST_HOSTS],
            walks: vec![Walk::CLOSED; MOST_HOSTS],
            copy: vec![0; LONGEST_MESSAGE],
            run: vec![Entry::default(); MOST_HOSTS * PLACES],
            slots: vec![[0; LONGEST_MESSAGE]; SLOTS],
            labels: vec![(0, nobody); SLOTS],
            answers: vec![0; MOST_EVENTS],
        }
    }

    fn set_up(&mut self) {
        for (number, settings) in self.file.hosts.iter().enumerate() {
            let mut state = State {
                settings,
                table: &self.table,
                number,
                clock: &mut self.clocks[number],
                links: &mut self.links[number],
                walk: &mut self.walks[number],
                copy: &mut self.copy,
                entries: &mut self.run,
            };
            assert_eq!(state.initialize(), 0);
        }
    }

    fn run(&mut self) {
        for number in 0..self.file.events.len() {
            self.answers[number] = self.call(self.file.events[number]);
        }
    }

    fn call(&mut self, event: Event) -> u8 {
        let host = match event {
            Event::Tick(host, _)
            | Event::Adjust(host, _)
            | Event::Set(host, _, _)
            | Event::Second(host)
            | Event::SelfReport(host, _) => host,
            Event::Send { cable, end, .. } => {
                self.file.cables[usize::from(cable)][usize::from(end)].host
            }
            Event::Arrival { slot, .. } => self.labels[usize::from(slot)].1.host,
        };
        let host = usize::from(host);
        let Caller {
            file,
            table,
            clocks,
            links,
            walks,
            copy,
            run,
            slots,
            labels,
            ..
        } = self;
        let mut state = State {
            settings: &file.hosts[host],
            table,
            number: host,
            clock: &mut clocks[host],
            links: &mut links[host],
            walk: &mut walks[host],
            copy,
            entries: run,
        };
        match event {
            Event::Tick(_, count) => state.tick(count),
            Event::Adjust(_, count) => state.adjust(count),
            Event::Set(_, ms, count) => state.set(ms, count),
            Event::Second(_) => state.second(),
            Event::SelfReport(_, counter) => state.self_report(counter),
            Event::Send {
                cable,
                end,
                slot,
                counter,
            } => {
                let [from, to] = match (file.cables[usize::from(cable)], end) {
                    ([first, second], 0) => [first, second],
                    ([first, second], _) => [second, first],
                };
                let slot = usize::from(slot);
                let (link, buffer) = (from.link.into(), &mut slots[slot]);
                let sent = state.send(link, counter, buffer);
                if sent.answer == 0 {
                    labels[slot] = (sent.length, to);
                }
                sent.answer
            }
            Event::Arrival { slot, counter } => {
                let slot = usize::from(slot);
                let (length, to) = labels[slot];
                let (link, packet) = (to.link.into(), &slots[slot][..length]);
                match state.inspect(link, packet).answer {
                    0 => state.act(link, counter, packet),
                    refusal => refusal,
                }
            }
        }
    }

    /// Whether a bench ended alike.
    fn is_as(&self, bench: &Bench) -> bool {
        let hosts = bench.hosts().iter().enumerate();
        let answers = bench.answers().into_iter().map(|answer| answer.number());
        hosts.into_iter().all(|(number, host)| {
            (host.clock, host.links, host.walk)
                == (self.clocks[number], self.links[number], self.walks[number])
        }) && bench.entries() == self.run
            && answers.eq(self.answers.iter().copied())
    }
}

/// The microseconds that something takes.
fn time(timed: impl FnOnce()) -> f64 {
    let start = Instant::now();
    timed();
    start.elapsed().as_secs_f64() * 1e6
}

/// The quickest turn and the median one, by the bench and by calls.
struct Times {
    quickest: [f64; 2],
    median: [f64; 2],
}

/// The microseconds of a run by the bench and by calls, in turns.
fn measure(ids: Ids, turns: usize) -> Times {
    let file = exercise(ids);
    let mut bench = Bench::new(file.octets().unwrap(), ClassTable::new(PLACES));
    let mut caller = Caller::new(file);
    let mut times = [Vec::new(), Vec::new()];
    for _ in 0..turns {
        assert_eq!(bench.set_up(), Ok(()));
        caller.set_up();
        times[0].push(time(|| {
            assert_eq!(black_box(&mut bench).run(MOST_EVENTS), Ok(MOST_EVENTS));
        }));
        times[1].push(time(|| black_box(&mut caller).run()));
        assert!(caller.is_as(&bench));
    }
    times
        .iter_mut()
        .for_each(|times| times.sort_by(f64::total_cmp));
    Times {
        quickest: times.each_ref().map(|times| times[0]),
        median: times.each_ref().map(|times| times[turns / 2]),
    }
}

fn main() {
    let turns = rounds(201);
    print_load("before");
    println!("Of {turns} turns, microseconds for 2,048 events.\n");
    println!(
        "{:<32} {:>10} {:>10} {:>7}",
        "ids that live there", "bench", "calls", "ratio"
    );
    for (name, ids) in [("16, each host's own", Ids::Own), ("all 255", Ids::All)] {
        let Times { quickest, median } = measure(ids, turns);
        for (which, [bench, calls]) in [("quickest", quickest), ("median", median)] {
            println!(
                "{:<32} {bench:>10.1} {calls:>10.1} {:>7.2}",
                format!("{name}, {which}"),
                bench / calls
            );
        }
    }
    print_load("after");
}
