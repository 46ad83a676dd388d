//! Bench files: an exercise in one file, written from its parts and read back. `docs/BENCH.md`
//! has the layout of each record.

use crate::{Address, Answer, Counter, Layout, LinkSetting, Marks, Settings, LINKS};

/// The hosts that a file can have.
pub const MOST_HOSTS: usize = 16;

/// The cables that a file can have.
pub const MOST_CABLES: usize = 32;

/// The events that a file can have.
pub const MOST_EVENTS: usize = 2_048;

/// The slots for packets on their way, which the exercises call trays.
pub const SLOTS: usize = 32;

const HEADER_LENGTH: usize = 20;
const HOST_LENGTH: usize = 321;
const CABLE_LENGTH: usize = 4;
const EVENT_LENGTH: usize = 14;

/// An exercise: what its octets say. Nothing is tested here.
#[derive(Clone, Debug, PartialEq, Eq, Default)]
pub struct File {
    /// The settings of each host, host 0 first.
    pub hosts: Vec<Settings>,
    /// The cables, each by its two ends.
    pub cables: Vec<[End; 2]>,
    /// The events, in their order.
    pub events: Vec<Event>,
}

/// An end of a cable.
#[derive(Clone, Copy, Debug, PartialEq, Eq)]
pub struct End {
    /// The number of the host, from 0.
    pub host: u8,
    /// Its link, from 1.
    pub link: u8,
}

/// An event: one call of a host, which a send names by a cable's end, and an arrival by the cable of
/// the packet in its slot.
#[derive(Clone, Copy, Debug, PartialEq, Eq)]
pub enum Event {
    /// A tick of the host's clock, with the count.
    Tick(u8, u16),
    /// An adjust of the host's clock, with the count.
    Adjust(u8, u16),
    /// A set of the host's clock by a number of ms, with the count.
    Set(u8, i32, u16),
    /// A second of the host.
    Second(u8),
    /// A self-report of the host.
    SelfReport(u8, Counter),
    /// A send at a cable's end into a slot.
    Send {
        /// The cable, from 0.
        cable: u8,
        /// Its end, 0 or 1.
        end: u8,
        /// The slot, from 0.
        slot: u8,
        /// What the counter shows.
        counter: Counter,
    },
    /// An arrival of a slot's packet.
    Arrival {
        /// The slot, from 0.
        slot: u8,
        /// What the counter shows.
        counter: Counter,
    },
}

impl File {
    /// The octets of the file. Refused with [`Answer::Setting`] if a number of a host's settings does not
    /// fit its field: calls on a host with such settings are refused with the same.
    pub fn octets(&self) -> Result<Vec<u8>, Answer> {
        let cables_start = HEADER_LENGTH + HOST_LENGTH * self.hosts.len();
        let events_start = cables_start + CABLE_LENGTH * self.cables.len();
        let header = [
            self.hosts.len(),
            self.cables.len(),
            self.events.len(),
            cables_start,
            events_start,
        ];
        let mut octets = Vec::new();
        for number in header {
            let number = u32::try_from(number).map_err(|_| Answer::Header)?;
            octets.extend(number.to_be_bytes());
        }
        for settings in &self.hosts {
            put_host(&mut octets, settings)?;
        }
        for end in self.cables.iter().flatten() {
            octets.extend([end.host, end.link]);
        }
        for event in &self.events {
            octets.extend(event.octets());
        }
        Ok(octets)
    }

    /// The file of these octets. None if set-up answers
    /// [`Answer::Header`], or an event is of no kind; nothing else is tested.
    pub fn read(octets: &[u8]) -> Option<File> {
        let header = octets.get(..HEADER_LENGTH)?;
        let mut numbers = header.chunks_exact(4).map(|four| number(four) as usize);
        let mut next = || numbers.next().expect("a header has five numbers");
        let (hosts, cables, events) = (next(), next(), next());
        if hosts > MOST_HOSTS || cables > MOST_CABLES || events > MOST_EVENTS {
            return None;
        }
        let (cables_start, events_start) = (next(), next());
        let right = HEADER_LENGTH + HOST_LENGTH * hosts;
        if cables_start != right || events_start != right + CABLE_LENGTH * cables {
            return None;
        }
        if octets.len() != events_start + EVENT_LENGTH * events {
            return None;
        }
        let (octets, events) = octets.split_at(events_start);
        let (octets, cables) = octets.split_at(cables_start);
        let hosts = octets[HEADER_LENGTH..].chunks_exact(HOST_LENGTH);
        let cables = cables.chunks_exact(CABLE_LENGTH);
        let events = events.chunks_exact(EVENT_LENGTH);
        Some(File {
            hosts: hosts.map(host_of).collect(),
            cables: cables.map(cable_of).collect(),
            events: events.map(Event::of).collect::<Option<_>>()?,
        })
    }
}

/// The number of some octets, high octet first.
fn number(octets: &[u8]) -> u64 {
    octets
        .iter()
        .fold(0, |number, octet| number << 8 | u64::from(*octet))
}

fn address_of(octets: &[u8]) -> Address {
    Address::new(octets[0], octets[1], octets[2], octets[3])
}

fn host_of(record: &[u8]) -> Settings {
    let mut links = [LinkSetting::default(); LINKS];
    for (link, octets) in links.iter_mut().zip(record[25..65].chunks_exact(5)) {
        link.broadcast = octets[0];
        link.neighbor = address_of(&octets[1..]);
    }
    let ids = (0..=u8::MAX).filter(|id| record[65 + usize::from(*id)] != 0);
    Settings {
        address: address_of(record),
        layout: Layout {
            address_offset: record[4],
            nhosts: number(&record[6..8]) as usize,
        },
        clock_host: record[5],
        hold_interval: number(&record[8..10]) as u16,
        clock_tick: number(&record[16..24]) as i64,
        time: number(&record[12..16]) as i64,
        date: number(&record[10..12]) as u16,
        link_count: record[24].into(),
        links,
        marks: Marks::of(ids),
    }
}

fn cable_of(record: &[u8]) -> [End; 2] {
    let end = |host: u8, link: u8| End { host, link };
    [end(record[0], record[1]), end(record[2], record[3])]
}

fn put_host(octets: &mut Vec<u8>, settings: &Settings) -> Result<(), Answer> {
    let nhosts = u16::try_from(settings.layout.nhosts).map_err(|_| Answer::Setting)?;
    let time = u32::try_from(settings.time).map_err(|_| Answer::Setting)?;
    let link_count = u8::try_from(settings.link_count).map_err(|_| Answer::Setting)?;
    octets.extend(address(settings.address));
    octets.extend([settings.layout.address_offset, settings.clock_host]);
    octets.extend(nhosts.to_be_bytes());
    octets.extend(settings.hold_interval.to_be_bytes());
    octets.extend(settings.date.to_be_bytes());
    octets.extend(time.to_be_bytes());
    octets.extend(settings.clock_tick.to_be_bytes());
    octets.push(link_count);
    for LinkSetting {
        broadcast,
        neighbor,
    } in settings.links
    {
        octets.push(broadcast);
        octets.extend(address(neighbor));
    }
    octets.extend((0..=u8::MAX).map(|id| u8::from(settings.marks.has(id))));
    Ok(())
}

fn address(address: Address) -> [u8; 4] {
    [address.first, address.second, address.third, address.fourth]
}

impl Event {
    fn of(record: &[u8]) -> Option<Event> {
        let [host, cable, end, slot] = [record[1], record[2], record[3], record[4]];
        let count = number(&record[6..8]) as u16;
        let counter = Counter {
            count,
            overflow: record[5],
            again: number(&record[8..10]) as u16,
        };
        Some(match record[0] {
            1 => Event::Tick(host, count),
            2 => Event::Adjust(host, count),
            3 => Event::Set(host, number(&record[10..14]) as u32 as i32, count),
            4 => Event::Second(host),
            5 => Event::SelfReport(host, counter),
            6 => Event::Send {
                cable,
                end,
                slot,
                counter,
            },
            7 => Event::Arrival { slot, counter },
            _ => return None,
        })
    }

    fn octets(self) -> [u8; EVENT_LENGTH] {
        match self {
            Event::Tick(host, count) => record(1, [host, 0, 0, 0], Counter::of(count), 0),
            Event::Adjust(host, count) => record(2, [host, 0, 0, 0], Counter::of(count), 0),
            Event::Set(host, ms, count) => record(3, [host, 0, 0, 0], Counter::of(count), ms),
            Event::Second(host) => record(4, [host, 0, 0, 0], Counter::LINE_CLOCK, 0),
            Event::SelfReport(host, counter) => record(5, [host, 0, 0, 0], counter, 0),
            Event::Send {
                cable,
                end,
                slot,
                counter,
            } => record(6, [0, cable, end, slot], counter, 0),
            Event::Arrival { slot, counter } => record(7, [0, 0, 0, slot], counter, 0),
        }
    }
}

/// An event's kind, its host, cable, end and slot, its counter and its ms.
fn record(kind: u8, named: [u8; 4], counter: Counter, ms: i32) -> [u8; EVENT_LENGTH] {
    let mut octets = [0; EVENT_LENGTH];
    octets[0] = kind;
    octets[1..5].copy_from_slice(&named);
    octets[5] = counter.overflow;
    octets[6..8].copy_from_slice(&counter.count.to_be_bytes());
    octets[8..10].copy_from_slice(&counter.again.to_be_bytes());
    octets[10..].copy_from_slice(&ms.to_be_bytes());
    octets
}
