//! A network of the reference's hosts on cables, with one clock for all: what the laws of liveness speak of.

use crate::random::Random;
use reference::settings::{Marks, CLOCK_SETTING_OFF, MARKS};
use reference::{
    host, Address, Clock, Counter, Date, Entry, Link, LinkKind, Links, NetTable, Settings, Units,
    Walk, LINKS, PLACES,
};

/// A counter of 16 bits overflows after this many ms; a tick then adds as many.
const OVERFLOW: i64 = 65_536;

/// The time of day at the start, and the most that a clock is ahead or behind, in ms.
const START: i64 = 36_000_000;
const SPREAD: i64 = 8_192;

/// A host and a link of it, numbered from 1.
pub type End = (usize, usize);

/// A message of this round or epoch.
pub struct Message {
    pub from: End,
    /// When it was sent.
    pub ms: i64,
    pub octets: Vec<u8>,
}

struct Host {
    settings: Settings,
    clock: Clock,
    links: Links,
    walk: Walk,
}

pub struct Network {
    hosts: Vec<Host>,
    table: NetTable,
    run: Vec<Entry>,
    /// The other end of each link of each host.
    cables: Vec<Vec<End>>,
    /// The host that has each id.
    pub home: Vec<Option<usize>>,
    /// How far each host's clock is ahead of the network's.
    pub fixed: Vec<i64>,
    pub mail: Vec<Message>,
    /// Milliseconds since the start.
    pub now: i64,
    pub calls: u64,
}

impl Network {
    /// Random hosts and cables; most networks are connected.
    pub fn random(random: &mut Random, most_hosts: usize) -> Network {
        let count = 2 + random.below(most_hosts - 1);
        let mut cables = vec![Vec::new(); count];
        for host in 1..count {
            if !random.one_in(12) {
                let other = random.below(host);
                join(&mut cables, host, other);
            }
        }
        for _ in 0..random.below(count) {
            let (a, b) = (random.below(count), random.below(count));
            join(&mut cables, a, b);
        }
        Network::new(random, cables)
    }

    /// Every host is joined to every other.
    pub fn complete(random: &mut Random, count: usize) -> Network {
        let mut cables = vec![Vec::new(); count];
        for host in 1..count {
            for other in 0..host {
                join(&mut cables, host, other);
            }
        }
        Network::new(random, cables)
    }

    fn new(random: &mut Random, cables: Vec<Vec<End>>) -> Network {
        let count = cables.len();
        // Some ids are of no host, and a host may have several.
        let nhosts = count + random.below(4);
        let mut home: Vec<Option<usize>> = (0..count).map(Some).collect();
        for _ in count..nhosts {
            home.push((!random.one_in(2)).then(|| random.below(count)));
        }
        let fixed = (0..count).map(|_| random.between(-SPREAD, SPREAD));
        let mut network = Network {
            hosts: Vec::new(),
            table: NetTable::without_rows(nhosts),
            run: vec![Entry::fresh(false); count * PLACES],
            cables,
            home,
            fixed: fixed.collect(),
            mail: Vec::new(),
            now: 0,
            calls: 0,
        };
        for number in 0..count {
            network.add_host(number);
        }
        network
    }

    fn add_host(&mut self, number: usize) {
        let mut marks: Marks = [false; MARKS];
        for (id, home) in self.home.iter().enumerate() {
            marks[id] = *home == Some(number);
        }
        let settings = Settings {
            address: Address([192, 0, 2, number as u8 + 1]),
            address_offset: 1,
            nhosts: self.home.len(),
            marks,
            clock_host: CLOCK_SETTING_OFF,
            hold_interval: 1,
            clock_tick: Units::from_ms(OVERFLOW),
            time: START + self.fixed[number],
            date: Date::FIRST,
            link_count: self.cables[number].len().max(1),
            links: [LinkKind::PointToPoint; LINKS],
        };
        let mut host = Host {
            settings,
            clock: Clock::default(),
            links: [Link::default(); LINKS],
            walk: Walk::CLOSED,
        };
        let Host {
            clock, links, walk, ..
        } = &mut host;
        let set = host::set_afresh(
            &settings,
            &self.table,
            number,
            clock,
            links,
            walk,
            &mut self.run,
        );
        set.expect("the settings are good");
        self.hosts.push(host);
    }

    pub fn count(&self) -> usize {
        self.hosts.len()
    }

    pub fn ids(&self) -> usize {
        self.home.len()
    }

    /// The number of the last link of a host.
    pub fn links(&self, host: usize) -> usize {
        self.cables[host].len()
    }

    /// The other end of a link's cable.
    pub fn other_end(&self, (host, link): End) -> End {
        self.cables[host][link - 1]
    }

    /// Every end of a cable.
    pub fn ends(&self) -> Vec<End> {
        let of = |host: usize| (1..=self.links(host)).map(move |link| (host, link));
        (0..self.count()).flat_map(of).collect()
    }

    pub fn entry(&self, host: usize, id: usize) -> &Entry {
        &self.run[host * PLACES + id]
    }

    pub fn entries(&self, host: usize) -> Vec<Entry> {
        self.run[host * PLACES..][..self.ids()].to_vec()
    }

    /// How many cables lead from one host to another, by a shortest way.
    pub fn distances(&self, from: usize) -> Vec<Option<usize>> {
        let mut distances = vec![None; self.count()];
        distances[from] = Some(0);
        let mut near = vec![from];
        for distance in 1.. {
            let mut next = Vec::new();
            for host in near {
                for &(other, _) in &self.cables[host] {
                    if distances[other].is_none() {
                        distances[other] = Some(distance);
                        next.push(other);
                    }
                }
            }
            if next.is_empty() {
                break;
            }
            near = next;
        }
        distances
    }

    /// Lets some ms pass; each host ticks as its counter overflows.
    pub fn wait(&mut self, ms: i64) {
        let ticks = (self.now + ms) / OVERFLOW - self.now / OVERFLOW;
        self.now += ms;
        for _ in 0..ticks {
            for number in 0..self.count() {
                let Host {
                    settings,
                    clock,
                    links,
                    walk,
                } = &mut self.hosts[number];
                let count = (self.now % OVERFLOW) as u16;
                let ticked = host::tick(
                    settings,
                    &self.table,
                    number,
                    clock,
                    links,
                    walk,
                    &self.run,
                    count,
                );
                ticked.expect("a tick is not refused");
                self.calls += 1;
            }
        }
    }

    fn counter(&self) -> Counter {
        Counter {
            count: (self.now % OVERFLOW) as u16,
            ..Counter::LINE_CLOCK
        }
    }

    pub fn second(&mut self, number: usize) {
        self.calls += 1;
        let Host {
            settings,
            clock,
            links,
            walk,
        } = &mut self.hosts[number];
        let done = host::second(
            settings,
            &self.table,
            number,
            clock,
            links,
            walk,
            &mut self.run,
        );
        done.expect("a second is not refused");
    }

    pub fn self_report(&mut self, number: usize) {
        self.calls += 1;
        let counter = self.counter();
        let Host {
            settings,
            clock,
            links,
            walk,
        } = &mut self.hosts[number];
        let done = host::self_report(
            settings,
            &self.table,
            number,
            clock,
            links,
            walk,
            &mut self.run,
            counter,
        );
        done.expect("a self-report is not refused");
    }

    pub fn send(&mut self, from: End) {
        self.calls += 1;
        let counter = self.counter();
        let (number, link) = from;
        let mut buffer = [0; 1052];
        let Host {
            settings,
            clock,
            links,
            walk,
        } = &mut self.hosts[number];
        let length = host::send(
            settings,
            &self.table,
            number,
            clock,
            links,
            walk,
            &self.run,
            link,
            counter,
            &mut buffer,
        );
        let octets = buffer[..length.expect("a send is not refused")].to_vec();
        let ms = self.now;
        self.mail.push(Message { from, ms, octets });
    }

    /// A message of the mail arrives at the other end of its cable; whether that was answered 0.
    pub fn arrive(&mut self, message: usize) -> bool {
        self.calls += 1;
        let counter = self.counter();
        let Message { from, octets, .. } = &self.mail[message];
        let (number, link) = self.cables[from.0][from.1 - 1];
        let Host {
            settings,
            clock,
            links,
            walk,
        } = &mut self.hosts[number];
        let done = host::arrival(
            settings,
            &self.table,
            number,
            clock,
            links,
            walk,
            &mut self.run,
            link,
            counter,
            octets,
        );
        done.is_ok()
    }

    /// The same arrival box by box; whether its last box was answered 0.
    pub fn walk(&mut self, message: usize) -> bool {
        let counter = self.counter();
        let Message { from, octets, .. } = &self.mail[message];
        let (number, link) = self.cables[from.0][from.1 - 1];
        let (table, run) = (&self.table, &mut self.run);
        let Host {
            settings,
            clock,
            links,
            walk,
        } = &mut self.hosts[number];
        self.calls += 1;
        let opened = host::open_walk(
            settings, table, number, clock, links, walk, run, link, octets,
        );
        opened.expect("a walk is not refused");
        loop {
            self.calls += 1;
            match host::step(settings, table, number, clock, links, walk, run, counter) {
                Ok(Some(_)) => {}
                last => return last.is_ok(),
            }
        }
    }
}

/// Joins two hosts by a cable, if they differ and each has a link to spare.
fn join(cables: &mut [Vec<End>], a: usize, b: usize) {
    if a != b && cables[a].len() < LINKS && cables[b].len() < LINKS {
        let (i, j) = (cables[a].len() + 1, cables[b].len() + 1);
        cables[a].push((b, j));
        cables[b].push((a, i));
    }
}
