//! What a room did, as a bench file has it: the hosts, the cables and the calls in their order.

use demo::plan::Plan;
use hello::bench_file::{End, Event, File, MOST_EVENTS, SLOTS};
use hello::{Counter, Settings};

/// A record of a room; of one that is not to be saved, it stays empty.
pub struct Record {
    kept: bool,
    file: File,
    /// Which slots hold a message that is on its way.
    taken: [bool; SLOTS],
    /// There was no slot for a message.
    no_slot: bool,
}

impl Record {
    /// The record of a room with these settings, in which nothing was done yet.
    pub fn of(plan: &Plan, hosts: Vec<Settings>) -> Record {
        let cables = plan.cables.iter().map(|cable| {
            cable.ends.map(|end| End {
                host: end.host as u8,
                link: end.link as u8,
            })
        });
        Record {
            kept: plan.save.is_some(),
            file: File {
                hosts,
                cables: cables.collect(),
                events: Vec::new(),
            },
            taken: [false; SLOTS],
            no_slot: false,
        }
    }

    pub fn add(&mut self, event: Event) {
        if self.kept {
            self.file.events.push(event);
        }
    }

    /// Adds a send; the slot of its packet, which is taken until it is freed.
    pub fn send(&mut self, cable: usize, end: usize, counter: Counter) -> u8 {
        let free = self.taken.iter().position(|taken| !taken);
        self.no_slot |= free.is_none();
        let slot = free.unwrap_or(0);
        self.taken[slot] = self.kept;
        let slot = slot as u8;
        self.add(Event::Send {
            cable: cable as u8,
            end: end as u8,
            slot,
            counter,
        });
        slot
    }

    /// A slot's message has arrived, or is lost.
    pub fn free(&mut self, slot: u8) {
        self.taken[usize::from(slot)] = false;
    }

    /// Whether a file has room for all.
    pub fn fits(&self) -> bool {
        self.len() <= MOST_EVENTS && !self.no_slot
    }

    /// How many calls there were.
    pub fn len(&self) -> usize {
        self.file.events.len()
    }

    pub fn octets(&self) -> Vec<u8> {
        let octets = self.file.octets();
        octets.expect("the settings of a room fit their fields")
    }
}
