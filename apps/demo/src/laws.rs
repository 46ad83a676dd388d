//! Total correctness (docs/THEOREMS.md, Liveness): which of its conditions a run met, and whether the
//! tables are as it says.

use crate::conditions;
use crate::room::Room;
use demo::plan::{Cable, End, Plan};
use hello::Entry;

/// A message takes at most this many ms, and a host has at most this many seconds in a round.
const QUICK_WAY: i64 = 50;
const ROUND_SECONDS: u64 = 59;

/// A cable adds this many ms to a DELAY, and at most this many half milliseconds to the error of an OFFSET.
const RISE: i64 = 100;
const HALF_MILLIS: i64 = 101;

/// The rounds of a run. A round is over when every host has reported itself, every link has heard a
/// message, and no message is on its way.
pub struct Rounds {
    hosts: Vec<InRound>,
    /// How many rounds are over.
    pub over: usize,
    /// The most seconds that a host had in a round.
    pub longest: u64,
}

/// What a host did in this round.
struct InRound {
    seconds: u64,
    reported: bool,
    /// Which links heard a message, link 1 first.
    heard: Vec<bool>,
}

impl Rounds {
    /// The first round, of hosts with these numbers of links.
    pub fn new(links: impl Iterator<Item = usize>) -> Rounds {
        let hosts = links.map(|links| InRound {
            seconds: 0,
            reported: false,
            heard: vec![false; links],
        });
        Rounds {
            hosts: hosts.collect(),
            over: 0,
            longest: 0,
        }
    }

    pub fn second(&mut self, host: usize) {
        self.hosts[host].seconds += 1;
        self.longest = self.longest.max(self.hosts[host].seconds);
    }

    pub fn reported(&mut self, host: usize) {
        self.hosts[host].reported = true;
    }

    /// A message arrived, and was answered 0.
    pub fn heard(&mut self, end: End) {
        self.hosts[end.host].heard[end.link - 1] = true;
    }

    /// No message is on its way: the round is over if nothing is missing.
    pub fn pause(&mut self) {
        let complete = |host: &InRound| host.reported && host.heard.iter().all(|heard| *heard);
        if self.hosts.iter().all(complete) {
            self.over += 1;
            for host in &mut self.hosts {
                host.seconds = 0;
                host.reported = false;
                host.heard.fill(false);
            }
        }
    }
}

/// A condition in words, and whether the run met it.
pub struct Condition {
    pub met: bool,
    pub text: String,
}

/// The conditions of total correctness.
pub fn conditions(plan: &Plan, rounds: &Rounds) -> Vec<Condition> {
    let longest_way = plan.cables.iter().flat_map(|cable| cable.delay).max();
    let longest_way = longest_way.unwrap_or(0);
    let width = width(plan);
    let broken = conditions::broken(plan);
    vec![
        Condition {
            met: broken.is_empty(),
            text: "the conditions of the bound (demand 3), above".to_string(),
        },
        Condition {
            met: longest_way <= QUICK_WAY,
            text: format!("a message takes at most {QUICK_WAY} ms; here at most {longest_way} ms"),
        },
        Condition {
            met: true,
            text: "no message overtakes another on its cable; here none can".to_string(),
        },
        Condition {
            met: rounds.longest <= ROUND_SECONDS,
            text: format!(
                "a round, in which every host reports itself and every link hears a message, has at most {ROUND_SECONDS} seconds; here at most {}",
                rounds.longest
            ),
        },
        Condition {
            met: rounds.over > width,
            text: format!(
                "there are more rounds than the network is wide; here {} rounds, and {width} cables",
                rounds.over
            ),
        },
    ]
}

/// How many entries of all tables are as total correctness says, and how many there are.
pub fn right_entries(plan: &Plan, room: &mut Room) -> (usize, usize) {
    let (mut right, mut all) = (0, 0);
    for number in 0..plan.clocks.len() {
        let distances = distances(&plan.cables, plan.clocks.len(), number);
        let host = room.hosts.host(number);
        for (id, entry) in host.table().iter().enumerate() {
            all += 1;
            right += usize::from(is_right(plan, &distances, number, id, entry));
        }
    }
    (right, all)
}

/// Whether an entry has the DELAY of a shortest way, a PID along one, and an OFFSET within 50.5 ms a cable.
fn is_right(plan: &Plan, distances: &[usize], number: usize, id: usize, entry: &Entry) -> bool {
    let home = plan.home(id);
    let distance = distances[home];
    let truth = plan.clocks[home] - plan.clocks[number];
    let error = (i64::from(entry.offset) - truth).abs();
    let next = match entry.pid {
        0 => number,
        pid => neighbor(&plan.cables, number, pid.into()),
    };
    let rest = self::distances(&plan.cables, plan.clocks.len(), next)[home];
    entry.delay == RISE * distance as i64
        && rest + usize::from(entry.pid != 0) == distance
        && 2 * error <= HALF_MILLIS * distance as i64
}

/// The most cables of a shortest way between two hosts.
fn width(plan: &Plan) -> usize {
    let hosts = plan.clocks.len();
    let from = |host| distances(&plan.cables, hosts, host).into_iter().max();
    (0..hosts).filter_map(from).max().unwrap_or(0)
}

/// How many cables away each host is, by a shortest way. Every room is connected.
fn distances(cables: &[Cable], hosts: usize, from: usize) -> Vec<usize> {
    let mut distances = vec![usize::MAX; hosts];
    distances[from] = 0;
    for distance in 0..hosts {
        for cable in cables {
            let [one, other] = cable.ends.map(|end| end.host);
            for (near, far) in [(one, other), (other, one)] {
                if distances[near] == distance && distances[far] == usize::MAX {
                    distances[far] = distance + 1;
                }
            }
        }
    }
    distances
}

/// The host at the other end of a link's cable.
fn neighbor(cables: &[Cable], host: usize, link: usize) -> usize {
    let other = cables.iter().find_map(|cable| {
        let [one, other] = cable.ends;
        match (one.host, one.link, other.host, other.link) {
            (from, by, to, _) if (from, by) == (host, link) => Some(to),
            (to, _, from, by) if (from, by) == (host, link) => Some(to),
            _ => None,
        }
    });
    other.unwrap_or(host)
}
