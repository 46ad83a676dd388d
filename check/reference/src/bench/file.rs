//! An exercise file: reading it, and the tests of answers 18 and 19.

use super::layout::{self, cable, event, header, number, octets, seat, Field};
use super::{CABLES, EVENTS, TRAYS};
use crate::address::Address;
use crate::clock::{Counter, Units};
use crate::date::Date;
use crate::link::{LinkKind, LINKS};
use crate::net::NetTable;
use crate::settings::{Marks, Settings, MARKS};
use crate::{Refusal, HOSTS};

/// An exercise: "a whole exercise set up from one file".
#[derive(Clone, Debug, PartialEq, Eq)]
pub struct File {
    /// The settings of seat 0 first.
    pub seats: Vec<Settings>,
    pub cables: Vec<Cable>,
    pub events: Vec<Event>,
}

/// A cable by its two ends.
#[derive(Clone, Copy, Debug, PartialEq, Eq)]
pub struct Cable {
    pub ends: [End; 2],
}

/// A link of a seat.
#[derive(Clone, Copy, Debug, PartialEq, Eq)]
pub struct End {
    pub seat: usize,
    pub link: usize,
}

/// "Events hold a call's numbers and name a seat"; "while a send has a cable
/// end and one of 32 slots", "and an arrival only a tray".
#[derive(Clone, Copy, Debug, PartialEq, Eq)]
pub enum Event {
    Tick {
        seat: usize,
        count: u16,
    },
    Adjust {
        seat: usize,
        count: u16,
    },
    Set {
        seat: usize,
        ms: i32,
        count: u16,
    },
    Second {
        seat: usize,
    },
    SelfReport {
        seat: usize,
        counter: Counter,
    },
    Send {
        cable: usize,
        end: usize,
        tray: usize,
        counter: Counter,
    },
    Arrival {
        tray: usize,
        counter: Counter,
    },
}

impl File {
    /// Reads a file. Refused with 18 for its header or length, then with 19
    /// for a record. The settings are tested beside the class's net table.
    pub fn read(file: &[u8], net: &NetTable) -> Result<File, Refusal> {
        let sections = Sections::of(file).ok_or(Refusal::FileForm)?;
        File::from_records(&sections, net).ok_or(Refusal::FileRecord)
    }

    /// The parts, if no record names something absent and answer 1 refuses no
    /// settings; records that no event uses are tested too.
    fn from_records(sections: &Sections, net: &NetTable) -> Option<File> {
        let mut file = File {
            seats: Vec::new(),
            cables: Vec::new(),
            events: Vec::new(),
        };
        for record in sections.seats.chunks_exact(seat::SIZE) {
            let settings = settings_of(record)?;
            file.seats.push(settings.suit(net).then_some(settings)?);
        }
        for record in sections.cables.chunks_exact(cable::SIZE) {
            let cable = file.cable_of(record)?;
            file.cables.push(cable);
        }
        for record in sections.events.chunks_exact(event::SIZE) {
            let event = file.event_of(record)?;
            file.events.push(event);
        }
        Some(file)
    }

    /// A cable whose ends are there. Which link kinds it joins, of how many
    /// seats, and how many cables a link has is no fault of the file.
    fn cable_of(&self, record: &[u8]) -> Option<Cable> {
        let (first, second) = record.split_at(cable::END_SIZE);
        let ends = [self.end_of(first)?, self.end_of(second)?];
        Some(Cable { ends })
    }

    fn end_of(&self, record: &[u8]) -> Option<End> {
        let seat = below(record, cable::SEAT, self.seats.len())?;
        let link = number(record, cable::LINK) as usize;
        let is_there = (1..=self.seats[seat].link_count).contains(&link);
        is_there.then_some(End { seat, link })
    }

    /// An event that names only what is there.
    fn event_of(&self, record: &[u8]) -> Option<Event> {
        let seat = || below(record, event::SEAT, self.seats.len());
        let cable = || below(record, event::CABLE, self.cables.len());
        let end = || below(record, event::END, 2);
        let tray = || below(record, event::TRAY, TRAYS);
        let count = number(record, event::COUNT) as u16;
        let counter = || {
            Some(Counter {
                count,
                overflow: below(record, event::MARK, 2)? as u8,
                again: number(record, event::AGAIN) as u16,
            })
        };
        match number(record, event::KIND) {
            event::TICK => Some(Event::Tick {
                seat: seat()?,
                count,
            }),
            event::ADJUST => Some(Event::Adjust {
                seat: seat()?,
                count,
            }),
            event::SET => Some(Event::Set {
                seat: seat()?,
                ms: number(record, event::AMOUNT) as i32,
                count,
            }),
            event::SECOND => Some(Event::Second { seat: seat()? }),
            event::SELF_REPORT => Some(Event::SelfReport {
                seat: seat()?,
                counter: counter()?,
            }),
            event::SEND => Some(Event::Send {
                cable: cable()?,
                end: end()?,
                tray: tray()?,
                counter: counter()?,
            }),
            event::ARRIVAL => Some(Event::Arrival {
                tray: tray()?,
                counter: counter()?,
            }),
            _ => None,
        }
    }
}

/// The three sections of a file of the right form.
struct Sections<'a> {
    seats: &'a [u8],
    cables: &'a [u8],
    events: &'a [u8],
}

impl Sections<'_> {
    /// "Up to 16 seats, 32 cables, 2,048 events", none of each among them.
    /// The starts are tested for empty sections too.
    fn of(file: &[u8]) -> Option<Sections<'_>> {
        let head = file.get(..header::SIZE)?;
        let seats = at_most(head, header::SEATS, HOSTS)?;
        let cables = at_most(head, header::CABLES, CABLES)?;
        let events = at_most(head, header::EVENTS, EVENTS)?;
        let cables_start = header::SIZE + seats * seat::SIZE;
        let events_start = cables_start + cables * cable::SIZE;
        let end = events_start + events * event::SIZE;
        let right = number(head, header::CABLES_START) == cables_start as u64
            && number(head, header::EVENTS_START) == events_start as u64
            && file.len() == end;
        right.then(|| Sections {
            seats: &file[header::SIZE..cables_start],
            cables: &file[cables_start..events_start],
            events: &file[events_start..],
        })
    }
}

/// The settings of a seat record, if its marks are 0 and 1. A switch that is
/// neither is for answer 1 to refuse, where the link is one of the seat's.
fn settings_of(record: &[u8]) -> Option<Settings> {
    Some(Settings {
        address: address(record, seat::LOCAL_ADDRESS),
        address_offset: number(record, seat::ADDRESS_OFFSET) as u8,
        nhosts: number(record, seat::NHOSTS) as usize,
        marks: marks(octets(record, seat::MARKS))?,
        clock_host: number(record, seat::CLOCK_HOST) as u8,
        hold_interval: number(record, seat::HOLD_INTERVAL) as u16,
        clock_tick: Units(whole(record, seat::CLOCK_TICK)),
        time: whole(record, seat::TIME),
        date: Date(number(record, seat::DATE) as u16),
        link_count: number(record, seat::LINK_COUNT) as usize,
        links: links(octets(record, seat::LINKS)),
    })
}

fn links(records: &[u8]) -> [LinkKind; LINKS] {
    let mut links = [LinkKind::Neither; LINKS];
    for (link, record) in links.iter_mut().zip(records.chunks_exact(seat::LINK_SIZE)) {
        *link = match number(record, seat::SWITCH) {
            0 => LinkKind::PointToPoint,
            1 => LinkKind::Broadcast(address(record, seat::NEIGHBOR_ADDRESS)),
            _ => LinkKind::Neither,
        };
    }
    links
}

fn marks(octets: &[u8]) -> Option<Marks> {
    let mut marks = [false; MARKS];
    for (mark, octet) in marks.iter_mut().zip(octets) {
        *mark = match octet {
            0 => false,
            1 => true,
            _ => return None,
        };
    }
    Some(marks)
}

fn address(record: &[u8], field: Field) -> Address {
    Address((number(record, field) as u32).to_be_bytes())
}

/// A number as a signed one. None that is too large for it is in any range.
fn whole(record: &[u8], field: Field) -> i64 {
    i64::try_from(number(record, field)).unwrap_or(i64::MAX)
}

fn below(record: &[u8], field: Field, bound: usize) -> Option<usize> {
    let number = layout::number(record, field);
    (number < bound as u64).then_some(number as usize)
}

fn at_most(record: &[u8], field: Field, most: usize) -> Option<usize> {
    below(record, field, most + 1)
}
