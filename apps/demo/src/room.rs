//! The room: hosts, cables, and the messages on their way.

use crate::drive::{Crystal, Drive, OVERFLOW};
use crate::host::{settings, Place};
use crate::laws::Rounds;
use crate::random::Random;
use crate::record::Record;
use demo::plan::{Cable, End, NetRow, Plan, SECOND, START};
use hello::bench_file::Event;
use hello::{Answer, Counter, Net, Reading};
use std::collections::BTreeMap;

/// A host sends on each link, and reports itself, at this interval in seconds.
const SEND_INTERVAL: i64 = 5;
const SELF_REPORT_INTERVAL: i64 = 10;

/// A message on its way to a link.
struct Message {
    to: End,
    octets: Vec<u8>,
    /// Its slot in the record.
    slot: u8,
}

/// What became of the messages.
#[derive(Default)]
pub struct Tally {
    pub sent: u64,
    pub lost: u64,
    /// Arrivals, by their answers.
    pub answers: BTreeMap<Answer, u64>,
}

pub struct Room {
    pub hosts: hello::Room,
    pub tally: Tally,
    pub rounds: Rounds,
    /// What drives each host's clock.
    pub drives: Vec<Drive>,
    /// The calls so far, as a bench file has them.
    pub record: Record,
    cables: Vec<Cable>,
    loss: u64,
    random: Random,
    /// Milliseconds since the start.
    now: i64,
    /// The ms of a step, which is a line clock's tick. Every send and arrival is at a multiple of it,
    /// so that each host's clock then reads the room's millisecond plus the host's own fixed number.
    step: i64,
    /// By the ms of arrival, then by order of sending.
    on_the_way: BTreeMap<(i64, u64), Message>,
}

impl Room {
    /// The room with all hosts freshly set.
    pub fn fresh(plan: &Plan) -> Room {
        let delays = plan.cables.iter().flat_map(|cable| cable.delay);
        let step = delays.fold(SECOND, greatest_common_divisor);
        let mut hosts = hello::Room::new(plan.clocks.len(), plan.ids());
        for NetRow { net, id } in &plan.rows {
            let [first, second, third] = *net;
            let added = hosts.net_table.add(Net::new(first, second, third), *id);
            added.expect("the table has room, and the id is below NHOSTS");
        }
        let mut drives = Vec::new();
        let mut all_settings = Vec::new();
        for (number, clock) in plan.clocks.iter().enumerate() {
            let (drive, tick) = if number < plan.crystals {
                (Drive::Crystal(Crystal::default()), OVERFLOW)
            } else {
                (Drive::Line, step)
            };
            let settings = settings(Place {
                number,
                ids: plan.ids(),
                guests: plan.guests(number).map(|id| id as u8).collect(),
                link_count: links_of(&plan.cables, number),
                tick,
                time: START + clock,
            });
            done(hosts.host(number).initialize(settings));
            all_settings.push(settings);
            drives.push(drive);
        }
        let rounds = Rounds::new(all_settings.iter().map(|host| host.link_count));
        Room {
            hosts,
            tally: Tally::default(),
            rounds,
            drives,
            record: Record::of(plan, all_settings),
            cables: plan.cables.clone(),
            loss: plan.loss,
            random: Random::seeded(plan.seed),
            now: 0,
            step,
            on_the_way: BTreeMap::new(),
        }
    }

    /// Runs the room until a number of ms after the start.
    pub fn run_until(&mut self, end: i64) {
        while self.now < end {
            self.step();
        }
    }

    /// Runs a room that is to be saved for as long as its record fits a file, until a number of ms after
    /// the start at most; for how many ms that is.
    pub fn fits_until(mut self, end: i64) -> i64 {
        let mut fitted = 0;
        while self.now < end {
            self.step();
            if !self.record.fits() {
                break;
            }
            fitted = self.now;
        }
        fitted
    }

    fn step(&mut self) {
        if self.now % SECOND == 0 {
            self.each_second(self.now / SECOND);
        }
        self.arrivals();
        if self.on_the_way.is_empty() {
            self.rounds.pause();
        }
        self.now += self.step;
        self.ticks();
    }

    /// The ticks of the clocks that are due now.
    fn ticks(&mut self) {
        for (number, drive) in self.drives.iter_mut().enumerate() {
            if let Some(count) = drive.tick(self.now) {
                done(self.hosts.host(number).tick(count));
                self.record.add(Event::Tick(number as u8, count));
            }
        }
    }

    /// What a host's clock reads now.
    pub fn read(&mut self, number: usize) -> Reading {
        let counter = self.counter(number);
        self.hosts.host(number).read(counter).expect(WELL_KEPT)
    }

    /// What a call of the host that reads its clock now is handed.
    fn counter(&mut self, number: usize) -> Counter {
        self.drives[number].counter(self.now)
    }

    /// What the hosts do once a second.
    fn each_second(&mut self, second: i64) {
        for number in 0..self.hosts.count() {
            done(self.hosts.host(number).second());
            self.record.add(Event::Second(number as u8));
            self.rounds.second(number);
            if second % SELF_REPORT_INTERVAL == 0 {
                let counter = self.counter(number);
                done(self.hosts.host(number).self_report(counter));
                self.record.add(Event::SelfReport(number as u8, counter));
                self.rounds.reported(number);
            }
        }
        for cable in 0..self.cables.len() {
            for end in 0..2 {
                self.send_in_turn(second, cable, end);
            }
        }
    }

    /// Sends from one end of a cable to the other if it is the host's second to send.
    fn send_in_turn(&mut self, second: i64, cable: usize, end: usize) {
        let Cable { ends, delay } = self.cables[cable];
        let (from, to) = (ends[end], ends[1 - end]);
        if (second + from.host as i64) % SEND_INTERVAL != 0 {
            return;
        }
        let counter = self.counter(from.host);
        let octets = self.hosts.host(from.host).send(from.link, counter);
        let octets = octets.expect(WELL_KEPT);
        self.tally.sent += 1;
        let slot = self.record.send(cable, end, counter);
        if self.random.happens(self.loss) {
            self.tally.lost += 1;
            self.record.free(slot);
        } else {
            let arrival = (self.now + delay[end], self.tally.sent);
            self.on_the_way
                .insert(arrival, Message { to, octets, slot });
        }
    }

    /// Gives the hosts all messages that arrive now.
    fn arrivals(&mut self) {
        while let Some(first) = self.on_the_way.first_entry() {
            if first.key().0 > self.now {
                return;
            }
            let message = first.remove();
            let answer = self.take(&message).err().unwrap_or(Answer::Done);
            if answer == Answer::Done {
                self.rounds.heard(message.to);
            }
            self.record.free(message.slot);
            *self.tally.answers.entry(answer).or_default() += 1;
        }
    }

    /// A host looks at a message and, where nothing refuses it, acts on it.
    fn take(&mut self, message: &Message) -> Result<(), Answer> {
        let Message { to, octets, slot } = message;
        let seen = self.hosts.host(to.host).inspect(to.link, octets);
        // A message that is refused is not read the clock for.
        let counter = match seen {
            Ok(_) => self.counter(to.host),
            Err(_) => Counter::LINE_CLOCK,
        };
        let slot = *slot;
        self.record.add(Event::Arrival { slot, counter });
        match seen {
            Ok(_) => self.hosts.host(to.host).act(to.link, counter, octets),
            Err(refusal) => Err(refusal),
        }
    }

    /// How many messages are on their way.
    pub fn on_the_way(&self) -> usize {
        self.on_the_way.len()
    }
}

/// Such calls are done.
const WELL_KEPT: &str = "the settings are good, and the room keeps the state after the last call";

fn done(result: Result<(), Answer>) {
    result.expect(WELL_KEPT);
}

/// How many cable ends are at the host.
fn links_of(cables: &[Cable], host: usize) -> usize {
    let ends = cables.iter().flat_map(|cable| cable.ends);
    ends.filter(|end| end.host == host).count()
}

fn greatest_common_divisor(a: i64, b: i64) -> i64 {
    if b == 0 {
        a
    } else {
        greatest_common_divisor(b, a % b)
    }
}
