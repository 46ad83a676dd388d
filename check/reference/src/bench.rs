//! The class bench: an exercise from one file, set up and run over the
//! hosts.
//!
//! Set-up and run are both given the file and both test all of it: 18 for its
//! header or length, 19 for a record, then 12 for what is borrowed. Where they
//! are refused nothing at all is altered.

use crate::answer;
use crate::clock::{Clock, Counter, Units};
use crate::date::Date;
use crate::host;
use crate::link::{Link, Links, LINKS};
use crate::net::NetTable;
use crate::packet::MOST_OCTETS;
use crate::table::Entry;
use crate::walk::Walk;
use crate::{Address, Refusal, HOSTS, PLACES};

pub mod file;
pub mod layout;
pub mod write;

pub use file::{Cable, End, Event, File};

/// The cables a file can have.
pub const CABLES: usize = 32;
/// The events a file can have.
pub const EVENTS: usize = 2_048;
pub const TRAYS: usize = 32;

/// What a seat's calls leave, but for its entries.
#[derive(Clone, Copy, Debug, PartialEq, Eq)]
pub struct Seat {
    pub clock: Clock,
    pub links: Links,
    pub walk: Walk,
}

/// A packet on its way, with the cable and end at which it was sent.
#[derive(Clone, Copy, Debug, PartialEq, Eq)]
pub struct Tray {
    /// Any number but 0: the tray was filled.
    pub filled: u8,
    pub cable: usize,
    pub end: usize,
    /// The octets of the packet.
    pub length: usize,
    pub packet: [u8; MOST_OCTETS],
}

/// All that a run leaves for the next, but for the entries.
#[derive(Clone, Debug, PartialEq, Eq)]
pub struct Bench {
    pub seats: [Seat; HOSTS],
    pub trays: [Tray; TRAYS],
    /// How many events were carried out.
    pub done: usize,
    /// The answer of each event, 0 before it is carried out.
    pub answers: [u8; EVENTS],
}

impl Seat {
    pub const ZERO: Seat = Seat {
        clock: Clock {
            clock: Units::ZERO,
            delta: Units::ZERO,
            hold: 0,
            date: Date(0),
        },
        links: [Link {
            neighbor: Address::ZERO,
            keep_alive: 0,
            tsp: 0,
        }; LINKS],
        walk: Walk::CLOSED,
    };
}

impl Tray {
    pub const EMPTY: Tray = Tray {
        filled: 0,
        cable: 0,
        end: 0,
        length: 0,
        packet: [0; MOST_OCTETS],
    };

    pub fn is_filled(&self) -> bool {
        self.filled != 0
    }

    /// Whether 12 lets the tray pass. Only one that is filled is looked at.
    fn in_range(&self, file: &File) -> bool {
        !self.is_filled()
            || (self.cable < file.cables.len() && self.end < 2 && self.length <= MOST_OCTETS)
    }
}

/// Sets each seat of the file afresh, empties the trays and puts done and the
/// answers to zero.
pub fn set_up(
    file: &[u8],
    net: &NetTable,
    bench: &mut Bench,
    entries: &mut [Entry],
) -> Result<(), Refusal> {
    let file = File::read(file, net)?;
    admit(&file, net, entries)?;
    for (number, settings) in file.seats.iter().enumerate() {
        let Seat { clock, links, walk } = &mut bench.seats[number];
        host::set_afresh(settings, net, number, clock, links, walk, entries)?;
    }
    bench.trays = [Tray::EMPTY; TRAYS];
    bench.done = 0;
    bench.answers[..file.events.len()].fill(0);
    Ok(())
}

/// Carries out the next ones in order, each with its call, its
/// answer stored, until budget or file ends; how many, refused calls
/// included.
pub fn run(
    file: &[u8],
    net: &NetTable,
    bench: &mut Bench,
    entries: &mut [Entry],
    allowance: usize,
) -> Result<usize, Refusal> {
    let file = File::read(file, net)?;
    admit(&file, net, entries)?;
    bench.admit(&file)?;
    let mut carried_out = 0;
    while carried_out < allowance && bench.done < file.events.len() {
        let event = file.events[bench.done];
        bench.answers[bench.done] = bench.carry_out(&file, net, entries, event);
        bench.done += 1;
        carried_out += 1;
    }
    Ok(carried_out)
}

/// Refused with 12 where the entries lack a seat's places or the table is bad.
fn admit(file: &File, net: &NetTable, entries: &[Entry]) -> Result<(), Refusal> {
    if entries.len() < PLACES * file.seats.len() {
        return Err(Refusal::Lent);
    }
    net.admit()
}

impl Bench {
    pub const ZERO: Bench = Bench {
        seats: [Seat::ZERO; HOSTS],
        trays: [Tray::EMPTY; TRAYS],
        done: 0,
        answers: [0; EVENTS],
    };

    /// Refused with 12 for a slot's cable that the file does not have, or more
    /// events done than there are. The seats are for the events' own calls to test.
    fn admit(&self, file: &File) -> Result<(), Refusal> {
        let in_range =
            self.done <= file.events.len() && self.trays.iter().all(|tray| tray.in_range(file));
        if in_range {
            Ok(())
        } else {
            Err(Refusal::Lent)
        }
    }

    /// The answer of an event's call.
    fn carry_out(
        &mut self,
        file: &File,
        net: &NetTable,
        entries: &mut [Entry],
        event: Event,
    ) -> u8 {
        match event {
            Event::Send {
                cable,
                end,
                tray,
                counter,
            } => self.send(file, net, entries, (cable, end), tray, counter),
            Event::Arrival { tray, counter } => self.arrival(file, net, entries, tray, counter),
            Event::Tick { seat, .. }
            | Event::Adjust { seat, .. }
            | Event::Set { seat, .. }
            | Event::Second { seat }
            | Event::SelfReport { seat, .. } => self.at_seat(file, net, entries, seat, event),
        }
    }

    fn at_seat(
        &mut self,
        file: &File,
        net: &NetTable,
        entries: &mut [Entry],
        seat: usize,
        event: Event,
    ) -> u8 {
        let settings = &file.seats[seat];
        let Seat { clock, links, walk } = &mut self.seats[seat];
        answer(&match event {
            Event::Tick { count, .. } => {
                host::tick(settings, net, seat, clock, links, walk, entries, count)
            }
            Event::Adjust { count, .. } => {
                host::adjust(settings, net, seat, clock, links, walk, entries, count)
            }
            Event::Set { ms, count, .. } => {
                host::set(settings, net, seat, clock, links, walk, entries, ms, count)
            }
            Event::SelfReport { counter, .. } => {
                host::self_report(settings, net, seat, clock, links, walk, entries, counter)
            }
            _ => host::second(settings, net, seat, clock, links, walk, entries),
        })
    }

    /// Sends at a cable end into a tray, "where its packet replaces the old
    /// one"; a refused send leaves the tray.
    fn send(
        &mut self,
        file: &File,
        net: &NetTable,
        entries: &[Entry],
        (cable, end): (usize, usize),
        tray: usize,
        counter: Counter,
    ) -> u8 {
        let End { seat, link } = file.cables[cable].ends[end];
        let settings = &file.seats[seat];
        let Seat { clock, links, walk } = &mut self.seats[seat];
        let tray = &mut self.trays[tray];
        let mut packet = tray.packet;
        let sent = host::send(
            settings,
            net,
            seat,
            clock,
            links,
            walk,
            entries,
            link,
            counter,
            &mut packet,
        );
        if let Ok(length) = sent {
            *tray = Tray {
                filled: 1,
                cable,
                end,
                length,
                packet,
            };
        }
        answer(&sent)
    }

    /// Gives a tray's packet to "the far end of that packet's cable", which is
    /// looked up in the present file. The tray keeps it. "A tray never filled
    /// gives answer 3", and no seat is asked.
    fn arrival(
        &mut self,
        file: &File,
        net: &NetTable,
        entries: &mut [Entry],
        tray: usize,
        counter: Counter,
    ) -> u8 {
        let tray = &self.trays[tray];
        if !tray.is_filled() {
            return Refusal::IpForm.into();
        }
        let End { seat, link } = file.cables[tray.cable].ends[1 - tray.end];
        let settings = &file.seats[seat];
        let Seat { clock, links, walk } = &mut self.seats[seat];
        answer(&host::arrival(
            settings,
            net,
            seat,
            clock,
            links,
            walk,
            entries,
            link,
            counter,
            &tray.packet[..tray.length],
        ))
    }
}
