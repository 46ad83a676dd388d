//! The second engine for arrivals: one box of the laminated checklist at a
//! time, "making just that step's or line's changes".
//!
//! Boxes 1 to 5 are the steps of section 3.3.3. Behind them each host id has
//! boxes for the update lines a, b and c, and the clock host one for d.

use crate::clock::{Clock, Counter};
use crate::link::{Link, LinkKind, Links, KEEP_ALIVE_INTERVAL};
use crate::net::NetTable;
use crate::packet::Message;
use crate::route;
use crate::settings::Settings;
use crate::table::{Entry, HOLD_DOWN, MAX_DELAY, MIN_DELAY};
use crate::walk::{Place, Walk, LINE_A, LINE_B, LINE_C, LINE_D};
use crate::Refusal;

/// The next place, none at the end; or 10 or 11, which end the walk too.
type Outcome = Result<Option<Place>, Refusal>;

/// Carries out the box at which an open walk stands and moves the walk on.
pub fn carry_out(
    settings: &Settings,
    net: &NetTable,
    clock: &mut Clock,
    links: &mut Links,
    walk: &mut Walk,
    table: &mut [Entry],
    counter: Counter,
) -> Outcome {
    let held = *walk;
    let message = held.message(settings).ok_or(Refusal::Lent)?;
    let mut checklist = Checklist {
        settings,
        net,
        clock,
        link: &mut links[usize::from(held.link) - 1],
        walk,
        table,
        message,
    };
    let outcome = checklist.tick_off(counter);
    match outcome {
        Ok(Some(place)) => walk.go_to(place),
        Ok(None) | Err(_) => walk.close(),
    }
    outcome
}

/// All that a box goes by, and all that it may change.
struct Checklist<'a> {
    settings: &'a Settings,
    net: &'a NetTable,
    clock: &'a mut Clock,
    /// The link on which the packet arrived.
    link: &'a mut Link,
    walk: &'a mut Walk,
    table: &'a mut [Entry],
    message: Message<'a>,
}

impl Checklist<'_> {
    fn tick_off(&mut self, counter: Counter) -> Outcome {
        match self.walk.step {
            1 => self.step_1(counter),
            2 => self.step_2(),
            3 => self.step_3(),
            4 => self.step_4(),
            5 => self.step_5(),
            _ => Ok(self.update()),
        }
    }

    /// The one reading. That the line is not looped was seen at the opening.
    fn step_1(&mut self, counter: Counter) -> Outcome {
        let settings = self.settings;
        let sample = self
            .clock
            .read(counter, settings.clock_tick, settings.hold_interval);
        self.walk.count = sample.count;
        self.walk.reading = sample.time as i32;
        Ok(Some(Place::at_step(2)))
    }

    fn step_2(&mut self) -> Outcome {
        self.link.keep_alive = KEEP_ALIVE_INTERVAL;
        Ok(Some(Place::at_step(3)))
    }

    /// TSP; the raw DELAY, 0 on broadcast; OFFSET, its half rounded down.
    fn step_3(&mut self) -> Outcome {
        let reading = i64::from(self.walk.reading);
        let tsp = (self.message.time() - reading) as i16;
        let delay = match self.kind() {
            LinkKind::PointToPoint => (reading - i64::from(self.message.tsp())) as i16,
            _ => 0,
        };
        self.link.tsp = tsp;
        self.walk.delay = delay;
        self.walk.offset = tsp.wrapping_add(delay.div_euclid(2));
        Ok(Some(Place::at_step(4)))
    }

    /// "Point-to-point only", so on broadcast the box does nothing.
    fn step_4(&mut self) -> Outcome {
        let next = Ok(Some(Place::at_step(5)));
        if self.kind() != LinkKind::PointToPoint {
            return next;
        }
        if self.message.source != self.link.neighbor {
            self.link.neighbor = self.message.source;
            self.walk.delay = MAX_DELAY as i16;
            return next;
        }
        if self.message.tsp() == 0 || self.clock.hold != 0 {
            return Err(Refusal::DelayNotValid);
        }
        next
    }

    /// "DELAY under 100 becomes 100." Then the first id, by the net table of
    /// the box that looks an address up.
    fn step_5(&mut self) -> Outcome {
        self.walk.delay = self.walk.delay.max(MIN_DELAY as i16);
        let id = if self.message.has_table() {
            0
        } else {
            route::find(self.settings, self.net, self.link.neighbor).ok_or(Refusal::NoHost)?
        };
        Ok(Some(Place::at_line(LINE_A, id as u8)))
    }

    /// A line of the update of the held id.
    fn update(&mut self) -> Option<Place> {
        match self.walk.line {
            LINE_A => self.line_a(),
            LINE_B => self.line_b(),
            LINE_C => self.line_c(),
            _ => self.line_d(),
        }
    }

    /// "other PID and DELAY + 100 over the entry's: nothing."
    fn line_a(&mut self) -> Option<Place> {
        let (delay, _) = self.walk.report(&self.message);
        let other_pid = self.entry().pid != self.walk.link;
        if other_pid && delay + MIN_DELAY > self.entry().delay {
            return self.next_id();
        }
        self.at_line(LINE_B)
    }

    /// An entry that is up may go down here, and one that is down comes up
    /// only where its TTL is 0.
    fn line_b(&mut self) -> Option<Place> {
        let (delay, _) = self.walk.report(&self.message);
        let entry = self.entry();
        if entry.delay < MAX_DELAY {
            if delay >= MAX_DELAY {
                entry.delay = MAX_DELAY;
                entry.ttl = HOLD_DOWN;
                return self.next_id();
            }
        } else if delay >= MAX_DELAY || entry.ttl != 0 {
            return self.next_id();
        }
        self.at_line(LINE_C)
    }

    /// Stores DELAY, OFFSET, TTL 120, PID and the reading. The mark stays.
    fn line_c(&mut self) -> Option<Place> {
        let (delay, offset) = self.walk.report(&self.message);
        let here = self.entry().here;
        *self.entry() = Entry {
            delay,
            offset,
            ttl: HOLD_DOWN,
            pid: self.walk.link,
            updated: self.walk.reading.into(),
            here,
        };
        if self.is_clock_host() {
            self.at_line(LINE_D)
        } else {
            self.next_id()
        }
    }

    /// The packet's date, if it is a master's, and the Set, with the count of
    /// box 1. At any other id there is nothing to do.
    fn line_d(&mut self) -> Option<Place> {
        if self.is_clock_host() {
            let (_, offset) = self.walk.report(&self.message);
            let hold_interval = self.settings.hold_interval;
            self.clock.take_date(self.message.date());
            self.clock
                .set(offset.into(), self.walk.count, hold_interval);
        }
        self.next_id()
    }

    fn kind(&self) -> LinkKind {
        self.settings.links[usize::from(self.walk.link) - 1]
    }

    fn entry(&mut self) -> &mut Entry {
        &mut self.table[usize::from(self.walk.id)]
    }

    fn is_clock_host(&self) -> bool {
        self.walk.id == self.settings.clock_host
    }

    fn at_line(&self, line: u8) -> Option<Place> {
        Some(Place::at_line(line, self.walk.id))
    }

    /// Line a of the next id. Behind the last id of the table, and behind the
    /// one id of a packet without a table, there is no place.
    fn next_id(&self) -> Option<Place> {
        let next = usize::from(self.walk.id) + 1;
        (next < usize::from(self.message.nhosts())).then(|| Place::at_line(LINE_A, next as u8))
    }
}
