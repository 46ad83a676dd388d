//! An arrival held between two boxes of the checklist: what is held, and
//! which held numbers answer 12 refuses.

use crate::clock::DAY_MS;
use crate::packet::{Message, MOST_OCTETS};
use crate::settings::Settings;
use crate::table::{MAX_DELAY, MIN_DELAY};

/// The first box.
pub const FIRST_STEP: u8 = 1;
/// The step number of a place at an update line, "in step 5, behind a box of
/// its own".
pub const IN_LINES: u8 = 6;
pub const LINE_A: u8 = 0;
pub const LINE_B: u8 = 1;
pub const LINE_C: u8 = 2;
pub const LINE_D: u8 = 3;

/// A place in section 3.3.3.
#[derive(Clone, Copy, Debug, PartialEq, Eq)]
pub struct Place {
    /// 1 to 5, or 6 at an update line.
    pub step: u8,
    /// 0 to 3 for a to d; 0 at a step.
    pub line: u8,
    /// The host id of an update line; 0 at a step.
    pub id: u8,
}

impl Place {
    pub fn at_step(step: u8) -> Place {
        let (line, id) = (0, 0);
        Place { step, line, id }
    }

    pub fn at_line(line: u8, id: u8) -> Place {
        let step = IN_LINES;
        Place { step, line, id }
    }
}

#[derive(Clone, Copy, Debug, PartialEq, Eq)]
pub struct Walk {
    /// Any number but 0: a walk is open.
    pub open: u8,
    pub link: u8,
    pub step: u8,
    pub line: u8,
    pub id: u8,
    /// The count that box 1 used, in milliseconds.
    pub count: u16,
    /// The reading of box 1, in milliseconds.
    pub reading: i32,
    /// DELAY in milliseconds, as steps 3 to 5 form it.
    pub delay: i16,
    /// OFFSET in milliseconds, as step 3 forms it.
    pub offset: i16,
    /// The octets of the packet.
    pub length: u16,
    pub packet: [u8; MOST_OCTETS],
}

impl Walk {
    pub const CLOSED: Walk = Walk {
        open: 0,
        link: 0,
        step: 0,
        line: 0,
        id: 0,
        count: 0,
        reading: 0,
        delay: 0,
        offset: 0,
        length: 0,
        packet: [0; MOST_OCTETS],
    };

    pub fn is_open(&self) -> bool {
        self.open != 0
    }

    /// Holds a packet that 3 to 9 passed on a link, before the first box.
    pub fn open(&mut self, link: u8, packet: &[u8]) {
        self.close();
        self.open = 1;
        self.link = link;
        self.length = packet.len() as u16;
        self.packet[..packet.len()].copy_from_slice(packet);
        self.go_to(Place::at_step(FIRST_STEP));
    }

    /// No walk is open; the packet's octets stay.
    pub fn close(&mut self) {
        *self = Walk {
            packet: self.packet,
            ..Walk::CLOSED
        };
    }

    pub fn go_to(&mut self, place: Place) {
        self.step = place.step;
        self.line = place.line;
        self.id = place.id;
    }

    /// Whether 12 lets the walk pass. Only one that is open is looked at, and
    /// of it only what is held at its place: the reading from step 2 on, the
    /// id at the lines.
    pub fn in_range(&self, settings: &Settings) -> bool {
        if !self.is_open() {
            return true;
        }
        let Some(message) = self.message(settings) else {
            return false;
        };
        match self.step {
            1 => true,
            2..=5 => self.reading_in_range(),
            IN_LINES => self.reading_in_range() && self.line_in_range(settings, &message),
            _ => false,
        }
    }

    /// The held message, if the link is one of the host's and 3 to 9 would
    /// not refuse the packet there.
    pub fn message(&self, settings: &Settings) -> Option<Message<'_>> {
        let link = usize::from(self.link);
        if !(1..=settings.usable_links()).contains(&link) {
            return None;
        }
        let packet = self.packet.get(..self.length.into())?;
        Message::on_link(packet, settings, link).ok()
    }

    /// DELAY and OFFSET for the id at hand: the link's plus those that the
    /// packet reports for it. A packet without a table adds nothing.
    pub fn report(&self, message: &Message) -> (i64, i16) {
        let (delay, offset) = message.hosts().nth(self.id.into()).unwrap_or((0, 0));
        let whole = i64::from(self.delay) + i64::from(delay);
        (whole, self.offset.wrapping_add(offset))
    }

    fn reading_in_range(&self) -> bool {
        (0..=DAY_MS).contains(&self.reading.into())
    }

    fn line_in_range(&self, settings: &Settings, message: &Message) -> bool {
        let would_store = self.line == LINE_C;
        self.line <= LINE_D
            && usize::from(self.id) < settings.nhosts
            && (!would_store || (MIN_DELAY..MAX_DELAY).contains(&self.report(message).0))
    }
}
