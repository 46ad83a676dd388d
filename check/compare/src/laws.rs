//! The laws of liveness (docs/THEOREMS.md) in the reference alone. Random networks meet the conditions
//! of a law, and every table is compared with what the law says.

mod network;

use crate::random::Random;
use network::{End, Message, Network};
use reference::Entry;

/// A cable adds this many ms to a DELAY; after this many epochs a silent host is down.
const RISE: i64 = 100;
const GONE_EPOCHS: i64 = 299;

/// One of this number of arrivals is made box by box.
const WALKS: u64 = 3;

/// Conditions of the laws.
#[derive(Clone, Copy)]
struct Conditions {
    /// A message takes at most this many ms.
    way: i64,
    /// A host has at most this many seconds in a round, and at least this many in an epoch.
    round_seconds: usize,
    epoch_seconds: usize,
    /// No message overtakes another on its cable.
    in_order: bool,
    /// A host that does not report itself has its seconds in an epoch.
    own_seconds: bool,
}

const MET: Conditions = Conditions {
    way: 50,
    round_seconds: 59,
    epoch_seconds: 120,
    in_order: true,
    own_seconds: true,
};

/// Why the ids of a host fade.
#[derive(Clone, Copy, PartialEq)]
enum Absence {
    /// Nothing of it is heard.
    Silent,
    /// It is heard, and does not report itself.
    Unreported,
}

/// A law: it makes calls in a network, under its conditions.
type Law = fn(&mut Random, &mut Counts, Conditions) -> Result<(), String>;

/// Each condition by itself broken, with the law that then does not hold.
const BROKEN: [(&str, Law, Conditions); 6] = [
    ("ways of 51 ms", rounds, Conditions { way: 51, ..MET }),
    (
        "rounds of 90 seconds",
        rounds,
        Conditions {
            round_seconds: 90,
            ..MET
        },
    ),
    (
        "a message that overtakes",
        any_order,
        Conditions {
            in_order: false,
            ..MET
        },
    ),
    (
        "epochs of 60 seconds",
        silence,
        Conditions {
            epoch_seconds: 60,
            ..MET
        },
    ),
    (
        "epochs of 60 seconds without a self-report",
        unreported,
        Conditions {
            epoch_seconds: 60,
            ..MET
        },
    ),
    (
        "no seconds at the host without a self-report",
        unreported,
        Conditions {
            own_seconds: false,
            ..MET
        },
    ),
];

/// Networks in which a law with a broken condition has to fail.
const TRIES: usize = 300;

/// What was seen; a law whose claim never had to hold of anything is not tested.
#[derive(Default)]
pub struct Counts {
    pub calls: u64,
    networks: u64,
    rounds: u64,
    epochs: u64,
    right_tables: u64,
    longer_first: u64,
    sooner: u64,
    ghosts: u64,
    /// Entries of a host without a self-report that were still up, and those with the least DELAY.
    unreported: u64,
    least: u64,
    walks: u64,
    /// Networks given up, since a TSP was 0 by chance.
    given_up: u64,
    /// Each broken condition, and in which network its law failed.
    needed: Vec<(&'static str, Option<usize>)>,
}

impl Counts {
    pub fn print(&self) {
        println!(
            "laws of liveness: {} calls, {} networks, {} rounds, {} epochs, {} arrivals box by box",
            self.calls, self.networks, self.rounds, self.epochs, self.walks
        );
        println!(
            "  {} tables right, {} entries longer at first, {} before their round, {} up in silence; {} networks given up",
            self.right_tables, self.longer_first, self.sooner, self.ghosts, self.given_up
        );
        println!(
            "  {} entries of a host without a self-report up after an epoch, {} of them with the least DELAY",
            self.unreported, self.least
        );
        for (name, tries) in &self.needed {
            if let Some(tries) = tries {
                println!("  with {name} a law fails in network {tries}");
            }
        }
    }

    pub fn complaints(&self) -> Vec<String> {
        let seen = [
            (self.right_tables, "no table was ever right"),
            (self.longer_first, "no entry was ever longer at first"),
            (self.sooner, "no entry was ever up before its round"),
            (self.ghosts, "no entry of a silent host was ever still up"),
            (
                self.unreported,
                "no entry of a host without a self-report was ever still up",
            ),
            (
                self.least,
                "no DELAY was ever the least that the law allows",
            ),
            (self.walks, "no arrival was ever made box by box"),
        ];
        let missing = seen.iter().filter(|(count, _)| *count == 0);
        let unneeded = self.needed.iter().filter(|(_, tries)| tries.is_none());
        let unneeded = unneeded.map(|(name, _)| format!("laws: with {name} none fails"));
        let missing = missing.map(|(_, text)| format!("laws: {text}"));
        missing.chain(unneeded).collect()
    }
}

/// Makes at least this number of calls in networks of each law; which law is broken, and where.
pub fn run(seed: u64, calls: u64) -> Result<Counts, String> {
    let mut random = Random::new(seed);
    let mut counts = Counts::default();
    while counts.calls < calls {
        for law in [rounds, any_order, silence, unreported] {
            law(&mut random, &mut counts, MET)?;
        }
    }
    ten_hours(&mut random, &mut counts)?;
    for (name, law, conditions) in BROKEN {
        let mut none = Counts::default();
        let tries = (1..=TRIES).find(|_| law(&mut random, &mut none, conditions).is_err());
        counts.needed.push((name, tries));
    }
    Ok(counts)
}

/// A network under a law, with what the law needs to know.
struct Trial {
    network: Network,
    law: &'static str,
    conditions: Conditions,
    /// From each host, how many cables away each host is.
    distances: Vec<Vec<Option<usize>>>,
    /// Rounds that are over.
    rounds: usize,
    /// Seconds of each host in this round or epoch.
    seconds: Vec<usize>,
    /// Which links were heard, and which hosts reported themselves, in this round.
    heard: Vec<End>,
    reported: Vec<bool>,
    walks: u64,
}

impl Trial {
    fn new(law: &'static str, network: Network, conditions: Conditions) -> Trial {
        let hosts = 0..network.count();
        Trial {
            law,
            conditions,
            distances: hosts.map(|host| network.distances(host)).collect(),
            rounds: 0,
            seconds: vec![0; network.count()],
            heard: Vec::new(),
            reported: vec![false; network.count()],
            walks: 0,
            network,
        }
    }

    fn broken(&self, claim: &str, host: usize, id: usize) -> String {
        format!(
            "law broken at call {} of its network: {}: {claim}, at host {host} for id {id}: {:?}",
            self.network.calls,
            self.law,
            self.network.entry(host, id)
        )
    }

    /// How many cables away the host of an id is.
    fn distance(&self, host: usize, id: usize) -> Option<usize> {
        self.distances[host][self.network.home[id]?]
    }

    fn begin_round(&mut self) {
        self.network.mail.clear();
        self.heard.clear();
        self.seconds.fill(0);
        self.reported.fill(false);
    }

    fn second(&mut self, host: usize) {
        self.seconds[host] += 1;
        self.network.second(host);
    }

    fn self_report(&mut self, host: usize) {
        self.reported[host] = true;
        self.network.self_report(host);
    }

    fn arrive(&mut self, message: usize) -> End {
        let to = self.network.other_end(self.network.mail[message].from);
        let heard = if self.network.calls.is_multiple_of(WALKS) {
            self.walks += 1;
            self.network.walk(message)
        } else {
            self.network.arrive(message)
        };
        if heard {
            self.heard.push(to);
        }
        to
    }

    /// Every entry that is up is of a host, has 100 ms for each cable of some way there, and an OFFSET
    /// right to 50.5 ms a cable.
    fn sound(&self, host: usize) -> Result<(), String> {
        for id in 0..self.network.ids() {
            let entry = self.network.entry(host, id);
            if !entry.is_up() {
                continue;
            }
            let (Some(home), Some(distance)) = (self.network.home[id], self.distance(host, id))
            else {
                return Err(self.broken("an entry of no host is up", host, id));
            };
            if entry.delay % RISE != 0 || entry.delay < RISE * distance as i64 {
                return Err(self.broken("DELAY is not that of a way", host, id));
            }
            let truth = self.network.fixed[home] - self.network.fixed[host];
            let error = (i64::from(entry.offset) - truth).abs();
            if 2 * error > 101 * (entry.delay / RISE) {
                return Err(self.broken("OFFSET is off by more than 50.5 ms a cable", host, id));
            }
        }
        Ok(())
    }

    /// Hosts less than this number of cables away are in the table with the DELAY of a shortest way, and their
    /// PID leads along one.
    fn complete(&self, host: usize, cables: usize) -> Result<(), String> {
        for id in 0..self.network.ids() {
            let Some(distance) = self.distance(host, id).filter(|far| *far < cables) else {
                continue;
            };
            let entry = self.network.entry(host, id);
            if entry.delay != RISE * distance as i64 {
                return Err(self.broken("DELAY is not that of the shortest way", host, id));
            }
            let nearer = match entry.pid {
                0 => distance == 0,
                pid => {
                    let (next, _) = self.network.other_end((host, pid.into()));
                    self.distance(next, id).map(|far| far + 1) == Some(distance)
                }
            };
            if !nearer {
                return Err(self.broken("PID leads along no shortest way", host, id));
            }
        }
        Ok(())
    }

    /// The PID of each entry of a host leads to a host that has it up with at least 100 ms less.
    fn leads(&self, host: usize) -> Result<(), String> {
        for id in 0..self.network.ids() {
            let entry = self.network.entry(host, id);
            if entry.is_up() && entry.pid != 0 {
                let (next, _) = self.network.other_end((host, entry.pid.into()));
                if self.network.entry(next, id).delay + RISE > entry.delay {
                    return Err(self.broken("PID does not lead nearer", host, id));
                }
            }
        }
        Ok(())
    }
}

// ---- rounds: all send, then all hear

/// Tables have exactly the hosts nearer than the number of rounds, and an entry that is up never changes.
fn rounds(random: &mut Random, counts: &mut Counts, conditions: Conditions) -> Result<(), String> {
    let network = Network::random(random, 8);
    let mut trial = Trial::new("rounds", network, conditions);
    for _ in 0..3 + random.below(6) {
        if !one_round(random, &mut trial)? {
            counts.given_up += 1;
            break;
        }
        trial.rounds += 1;
        counts.rounds += 1;
        for host in 0..trial.network.count() {
            trial.complete(host, trial.rounds)?;
            for id in 0..trial.network.ids() {
                let near = trial
                    .distance(host, id)
                    .is_some_and(|far| far < trial.rounds);
                if trial.network.entry(host, id).is_up() != near {
                    return Err(trial.broken("up, or down, in the wrong round", host, id));
                }
            }
            counts.right_tables += 1;
        }
        trial.network.wait(random.between(0, 40_000));
    }
    finish(counts, &trial);
    Ok(())
}

/// One round; whether every cable was heard.
fn one_round(random: &mut Random, trial: &mut Trial) -> Result<bool, String> {
    trial.begin_round();
    let end_of_sends = trial.network.now + trial.conditions.way / 2;
    let last_arrival = trial.network.now + trial.conditions.way;
    let mut ends = trial.network.ends();
    ends.extend(trial.network.ends());
    shuffle(random, &mut ends);
    for from in ends {
        if trial.network.now < end_of_sends && random.one_in(3) {
            trial.network.wait(1);
        }
        others(random, trial)?;
        trial.network.send(from);
    }
    let arrivals_at = random.pick(&[end_of_sends, last_arrival]);
    trial.network.wait((arrivals_at - trial.network.now).max(0));
    let mut arrivals: Vec<usize> = (0..trial.network.mail.len()).collect();
    for _ in 0..random.below(arrivals.len() + 1) {
        arrivals.push(random.below(trial.network.mail.len()));
    }
    shuffle(random, &mut arrivals);
    for message in arrivals {
        others(random, trial)?;
        let (host, _) = trial.network.other_end(trial.network.mail[message].from);
        let before = trial.network.entries(host);
        trial.arrive(message);
        unchanged(trial, host, &before)?;
    }
    for host in 0..trial.network.count() {
        if !trial.reported[host] {
            report_unchanged(trial, host)?;
        }
    }
    let ends = trial.network.ends();
    Ok(ends.iter().all(|end| trial.heard.contains(end)))
}

/// A host's seconds and self-reports, among the other calls.
fn others(random: &mut Random, trial: &mut Trial) -> Result<(), String> {
    let host = random.below(trial.network.count());
    if random.one_in(4) {
        report_unchanged(trial, host)?;
    }
    for _ in 0..random.below(12) {
        if trial.seconds[host] < trial.conditions.round_seconds {
            let before = trial.network.entries(host);
            trial.second(host);
            unchanged(trial, host, &before)?;
        }
    }
    Ok(())
}

fn report_unchanged(trial: &mut Trial, host: usize) -> Result<(), String> {
    let before = trial.network.entries(host);
    trial.self_report(host);
    unchanged(trial, host, &before)
}

/// An entry that was up has the DELAY and PID that it had.
fn unchanged(trial: &Trial, host: usize, before: &[Entry]) -> Result<(), String> {
    for (id, old) in before.iter().enumerate() {
        let new = trial.network.entry(host, id);
        if old.is_up() && (new.delay, new.pid) != (old.delay, old.pid) {
            return Err(trial.broken("an entry that was up changed", host, id));
        }
    }
    trial.sound(host)
}

// ---- any order: no message overtakes another on its cable

/// At every moment an entry stays up, its DELAY never rises, and PIDs lead nearer; after k rounds the
/// hosts nearer than k cables have the DELAY of a shortest way.
fn any_order(
    random: &mut Random,
    counts: &mut Counts,
    conditions: Conditions,
) -> Result<(), String> {
    let network = Network::random(random, 8);
    let mut trial = Trial::new("any order", network, conditions);
    for _ in 0..3 + random.below(5) {
        if !one_ordered_round(random, &mut trial, counts)? {
            counts.given_up += 1;
            break;
        }
        trial.rounds += 1;
        counts.rounds += 1;
        for host in 0..trial.network.count() {
            trial.complete(host, trial.rounds)?;
            counts.right_tables += 1;
        }
        trial.network.wait(random.between(0, 40_000));
    }
    finish(counts, &trial);
    Ok(())
}

fn one_ordered_round(
    random: &mut Random,
    trial: &mut Trial,
    counts: &mut Counts,
) -> Result<bool, String> {
    trial.begin_round();
    let ends = trial.network.ends();
    // The number of the last message that arrived at each end.
    let mut last = vec![0; ends.len()];
    for _ in 0..8 * ends.len() {
        if random.one_in(3) {
            trial.network.wait(random.between(0, 3));
        }
        let host = random.below(trial.network.count());
        match random.below(4) {
            0 => {
                let before = trial.network.entries(host);
                trial.self_report(host);
                improved(trial, host, &before, counts)?;
            }
            1 if trial.seconds[host] < trial.conditions.round_seconds => {
                let before = trial.network.entries(host);
                trial.second(host);
                improved(trial, host, &before, counts)?;
            }
            2 => trial.network.send(random.pick(&ends)),
            _ => {
                let place = random.below(ends.len());
                if let Some(message) = in_order(random, trial, ends[place], last[place]) {
                    last[place] = message;
                    arrive_improved(trial, message, counts)?;
                }
            }
        }
    }
    for host in 0..trial.network.count() {
        if !trial.reported[host] {
            let before = trial.network.entries(host);
            trial.self_report(host);
            improved(trial, host, &before, counts)?;
        }
    }
    // What is still missing: each end hears the newest message of its cable.
    for attempt in 0..8 {
        for end in &ends {
            if attempt == 0 || !trial.heard.contains(end) {
                trial.network.send(trial.network.other_end(*end));
                arrive_improved(trial, trial.network.mail.len() - 1, counts)?;
                trial.network.send(*end);
                arrive_improved(trial, trial.network.mail.len() - 1, counts)?;
                trial.network.wait(1);
            }
        }
    }
    Ok(ends.iter().all(|end| trial.heard.contains(end)))
}

/// A message for an end that is still on its way and not older than the last that arrived.
fn in_order(random: &mut Random, trial: &Trial, to: End, last: usize) -> Option<usize> {
    let from = trial.network.other_end(to);
    let on_its_way = trial
        .network
        .mail
        .iter()
        .enumerate()
        .filter(|(number, message)| {
            (*number >= last || !trial.conditions.in_order)
                && message.from == from
                && message.ms + trial.conditions.way >= trial.network.now
        });
    let numbers: Vec<usize> = on_its_way.map(|(number, _)| number).collect();
    (!numbers.is_empty()).then(|| random.pick(&numbers))
}

fn arrive_improved(trial: &mut Trial, message: usize, counts: &mut Counts) -> Result<(), String> {
    let (host, _) = trial.network.other_end(trial.network.mail[message].from);
    let before = trial.network.entries(host);
    trial.arrive(message);
    improved(trial, host, &before, counts)
}

/// No entry went down or became longer, its PID changed only for 100 ms less, all PIDs lead nearer, and
/// what was settled stays.
fn improved(
    trial: &Trial,
    host: usize,
    before: &[Entry],
    counts: &mut Counts,
) -> Result<(), String> {
    for (id, old) in before.iter().enumerate() {
        let new = trial.network.entry(host, id);
        if old.is_up() && new.delay > old.delay {
            return Err(trial.broken("DELAY rose", host, id));
        }
        if old.is_up() && new.pid != old.pid && new.delay + RISE > old.delay {
            return Err(trial.broken("PID changed for less than 100 ms", host, id));
        }
        if !old.is_up() && new.is_up() {
            let distance = trial.distance(host, id).unwrap_or(0);
            counts.longer_first += u64::from(new.delay > RISE * distance as i64);
            counts.sooner += u64::from(trial.rounds < distance);
        }
    }
    trial.sound(host)?;
    trial.complete(host, trial.rounds)?;
    trial.leads(host)?;
    for link in 1..=trial.network.links(host) {
        trial.leads(trial.network.other_end((host, link)).0)?;
    }
    Ok(())
}

// ---- silence

/// After k epochs of 120 seconds an id of the silent host is down elsewhere, or has at least 100 (k + 1) ms.
fn silence(random: &mut Random, counts: &mut Counts, conditions: Conditions) -> Result<(), String> {
    fades(random, counts, conditions, Absence::Silent)
}

/// After k epochs an id of a host that does not report itself is down everywhere, or has at least 100 k ms.
fn unreported(
    random: &mut Random,
    counts: &mut Counts,
    conditions: Conditions,
) -> Result<(), String> {
    fades(random, counts, conditions, Absence::Unreported)
}

fn fades(
    random: &mut Random,
    counts: &mut Counts,
    conditions: Conditions,
    absence: Absence,
) -> Result<(), String> {
    let network = Network::random(random, 6);
    let law = match absence {
        Absence::Silent => "silence",
        Absence::Unreported => "unreported",
    };
    let mut trial = Trial::new(law, network, conditions);
    for _ in 0..3 {
        one_round(random, &mut trial)?;
        trial.network.wait(random.between(0, 1_000));
    }
    let absent = random.below(trial.network.count());
    for epoch in 1..=3 {
        one_epoch(random, &mut trial, absent, absence, 3);
        faded(&trial, absent, absence, epoch, counts)?;
        counts.epochs += 1;
    }
    finish(counts, &trial);
    Ok(())
}

/// Four hosts, each joined to each: after 299 epochs the silent one is down everywhere.
fn ten_hours(random: &mut Random, counts: &mut Counts) -> Result<(), String> {
    let network = Network::complete(random, 4);
    let mut trial = Trial::new("silence of ten hours", network, MET);
    for _ in 0..3 {
        one_round(random, &mut trial)?;
    }
    for epoch in 1..=GONE_EPOCHS {
        one_epoch(random, &mut trial, 0, Absence::Silent, 20);
        faded(&trial, 0, Absence::Silent, epoch, counts)?;
        counts.epochs += 1;
    }
    finish(counts, &trial);
    Ok(())
}

/// The hosts have their 120 seconds; messages of this epoch arrive in any order. The absent host is not
/// heard, or does not report itself. One of this number of calls is a send or an arrival.
fn one_epoch(
    random: &mut Random,
    trial: &mut Trial,
    absent: usize,
    absence: Absence,
    seldom: usize,
) {
    trial.begin_round();
    let ends = trial.network.ends();
    let ages = absence == Absence::Unreported && trial.conditions.own_seconds;
    let silent = absence == Absence::Silent;
    while (0..trial.network.count()).any(|host| {
        (ages || host != absent) && trial.seconds[host] < trial.conditions.epoch_seconds
    }) {
        let host = random.below(trial.network.count());
        if host == absent && silent && !random.one_in(10) {
            continue;
        }
        if !random.one_in(seldom) || ends.is_empty() {
            if host != absent || silent || ages {
                trial.second(host);
            }
        } else if random.one_in(2) {
            if host != absent || silent {
                trial.self_report(host);
            }
            trial.network.send(random.pick(&ends));
        } else if !trial.network.mail.is_empty() {
            let message = random.below(trial.network.mail.len());
            let Message { from, ms, .. } = &trial.network.mail[message];
            if !(silent && from.0 == absent) && trial.network.now - ms < 16_383 {
                trial.arrive(message);
            }
        }
        if random.one_in(200) {
            trial.network.wait(random.between(0, 50));
        }
    }
}

fn faded(
    trial: &Trial,
    absent: usize,
    absence: Absence,
    epoch: i64,
    counts: &mut Counts,
) -> Result<(), String> {
    let silent = absence == Absence::Silent;
    let least = RISE * if silent { epoch + 1 } else { epoch };
    for host in (0..trial.network.count()).filter(|host| !silent || *host != absent) {
        for id in 0..trial.network.ids() {
            let entry = trial.network.entry(host, id);
            if trial.network.home[id] == Some(absent) && entry.is_up() {
                if silent {
                    counts.ghosts += 1;
                } else {
                    counts.unreported += 1;
                    counts.least += u64::from(entry.delay == least);
                }
                if entry.delay < least {
                    return Err(trial.broken("DELAY is too small", host, id));
                }
            }
        }
    }
    Ok(())
}

fn finish(counts: &mut Counts, trial: &Trial) {
    counts.networks += 1;
    counts.walks += trial.walks;
    counts.calls += trial.network.calls;
}

fn shuffle<T>(random: &mut Random, all: &mut [T]) {
    for place in (1..all.len()).rev() {
        all.swap(place, random.below(place + 1));
    }
}
