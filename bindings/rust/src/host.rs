//! A host of a room, with the calls as methods.

use crate::answer::given;
use crate::{Address, Answer, ClassTable, Clock, Counter, Entry, Links, Place, Settings, State};
use crate::{Walk, LONGEST_MESSAGE, PLACES};

/// A host of a [`Room`](crate::Room): its settings, clock, links and walk, and the net table and
/// the entries that it shares. Whatever is written to them, each call ends with `Ok` or an [`Answer`].
///
/// A call that reads the clock gets the crystal's [`Counter`] as it is then, and `tick`, `adjust` and
/// `set` its count; the host keeps none of it. A line clock passes [`Counter::LINE_CLOCK`], and 0. What a reading does to the clock stays, also at 10 and 11.
#[derive(Debug)]
pub struct Host<'a> {
    pub(crate) number: usize,
    /// The settings; every call borrows them.
    pub settings: &'a mut Settings,
    /// The net table of the class, which only the tutor changes.
    pub net_table: &'a ClassTable,
    /// The clock, as it is after the last call.
    pub clock: &'a mut Clock,
    /// The links, as they are after the last call.
    pub links: &'a mut Links,
    /// The walk, as it is after the last call; closed unless one is open.
    pub walk: &'a mut Walk,
    /// The copy of its packet, with the longest one's room.
    pub copy: &'a mut [u8; LONGEST_MESSAGE],
    pub(crate) entries: &'a mut [Entry],
}

/// What a reading returns.
#[derive(Clone, Copy, Debug, PartialEq, Eq)]
pub struct Reading {
    /// The integer milliseconds of CLOCK plus the count.
    pub time: i64,
    /// The DATE word.
    pub date: u16,
}

/// What an inspection returns of a packet.
#[derive(Clone, Copy, Debug, PartialEq, Eq)]
pub struct Seen {
    /// Its source.
    pub source: Address,
    /// Its time in ms, an unsigned 32-bit number.
    pub time: i64,
    /// Its TSP, as an unsigned number.
    pub tsp: u16,
    /// NHOSTS: how many hosts its table has.
    pub nhosts: u8,
}

/// Where a lookup leads.
#[derive(Clone, Copy, Debug, PartialEq, Eq)]
pub struct Found {
    /// The id that the address has.
    pub id: usize,
    /// PID, the link of the route; 0 for a host that lives here.
    pub pid: u8,
}

impl Host<'_> {
    /// Its number in the room, from 0.
    pub fn number(&self) -> usize {
        self.number
    }

    /// Its host table: an entry for each id, 255 at most.
    pub fn table(&self) -> &[Entry] {
        &self.entries[self.number * PLACES..][..self.settings.layout.nhosts.min(PLACES)]
    }

    /// The same, to be written.
    pub fn table_mut(&mut self) -> &mut [Entry] {
        &mut self.entries[self.number * PLACES..][..self.settings.layout.nhosts.min(PLACES)]
    }

    /// What the plain calls borrow of it.
    pub fn state(&mut self) -> State<'_> {
        State {
            settings: self.settings,
            table: self.net_table,
            number: self.number,
            clock: self.clock,
            links: self.links,
            walk: self.walk,
            copy: self.copy,
            entries: self.entries,
        }
    }

    /// Initializes the host by these settings: clock, links and table. A walk is dropped. If it is
    /// refused, it keeps those that it had.
    pub fn initialize(&mut self, settings: Settings) -> Result<(), Answer> {
        let mut state = self.state();
        state.settings = &settings;
        given(state.initialize()).ok()?;
        *self.settings = settings;
        Ok(())
    }

    /// Adds CLOCK-TICK to the clock. Midnight is tested on CLOCK plus `count`; so also in `adjust`
    /// and `set`.
    pub fn tick(&mut self, count: u16) -> Result<(), Answer> {
        given(self.state().tick(count)).ok()
    }

    /// Moves the clock by DELTA / 128, rounded down, which DELTA loses.
    pub fn adjust(&mut self, count: u16) -> Result<(), Answer> {
        given(self.state().adjust(count)).ok()
    }

    /// Corrects the clock by `ms`: from -128 to +127 it becomes DELTA, which `adjust` spends;
    /// otherwise the clock is moved at once and HOLD is loaded.
    pub fn set(&mut self, ms: i32, count: u16) -> Result<(), Answer> {
        given(self.state().set(ms, count)).ok()
    }

    /// The integer milliseconds of CLOCK plus the count, and the DATE word.
    pub fn read(&mut self, counter: Counter) -> Result<Reading, Answer> {
        let read = self.state().read(counter);
        given(read.answer).ok()?;
        Ok(Reading {
            time: read.time,
            date: read.date,
        })
    }

    /// A second has passed: HOLD and each TTL fall by one, and an entry whose TTL ends goes down.
    pub fn second(&mut self) -> Result<(), Answer> {
        given(self.state().second()).ok()
    }

    /// Updates the entries of the hosts that live here, which are the marked ids in rising order, with
    /// PID 0, DELAY 0 and OFFSET 0.
    pub fn self_report(&mut self, counter: Counter) -> Result<(), Answer> {
        given(self.state().self_report(counter)).ok()
    }

    /// The next message of link `link`, from 1.
    pub fn send(&mut self, link: usize, counter: Counter) -> Result<Vec<u8>, Answer> {
        let mut message = vec![0; LONGEST_MESSAGE];
        let length = self.send_into(link, counter, &mut message)?;
        message.truncate(length);
        Ok(message)
    }

    /// Writes the next message of link `link`, from 1, to the start of a buffer; its length.
    /// Octets after it stay.
    pub fn send_into(
        &mut self,
        link: usize,
        counter: Counter,
        buffer: &mut [u8],
    ) -> Result<usize, Answer> {
        let sent = self.state().send(link, counter, buffer);
        given(sent.answer).ok()?;
        Ok(sent.length)
    }

    /// Looks at a packet, IP header first, that arrived on link `link`, from 1: what it says, or why
    /// it would not be taken. [`act`](Host::act) may still refuse it with 10 or 11.
    pub fn inspect(&mut self, link: usize, packet: &[u8]) -> Result<Seen, Answer> {
        let inspected = self.state().inspect(link, packet);
        given(inspected.answer).ok()?;
        Ok(Seen {
            source: inspected.source,
            time: inspected.time,
            tsp: inspected.tsp,
            nhosts: inspected.nhosts,
        })
    }

    /// Acts on a packet, IP header first, that arrived on link `link`, from 1. Any calls may have
    /// come since [`inspect`](Host::inspect), so it tests the packet again.
    pub fn act(&mut self, link: usize, counter: Counter, packet: &[u8]) -> Result<(), Answer> {
        given(self.state().act(link, counter, packet)).ok()
    }

    /// An arrival in one piece: [`inspect`](Host::inspect) and, if that refuses nothing,
    /// [`act`](Host::act).
    pub fn receive(&mut self, link: usize, counter: Counter, packet: &[u8]) -> Result<(), Answer> {
        given(self.state().receive(link, counter, packet)).ok()
    }

    /// Opens a walk for a packet, IP header first, that arrived on link `link`, from 1: the packet is
    /// copied, and its first place, step 1, is next. Nothing else is changed.
    ///
    /// While a walk is open, all calls except [`step`](Host::step) and [`initialize`](Host::initialize)
    /// answer [`Answer::InWalk`].
    pub fn open_walk(&mut self, link: usize, packet: &[u8]) -> Result<Place, Answer> {
        let opened = self.state().open_walk(link, packet);
        given(opened.answer).ok()?;
        Ok(opened.place().expect("a walk that is opened has a place"))
    }

    /// Makes the changes of the place that the walk is at, and returns the next; none at the end of
    /// the walk. The state is then that after [`act`](Host::act) with the counter of step 1; at the later
    /// places the counter is not looked at. 10 and 11 end the walk too.
    pub fn step(&mut self, counter: Counter) -> Result<Option<Place>, Answer> {
        let stepped = self.state().step(counter);
        given(stepped.answer).ok()?;
        Ok(stepped.place())
    }

    /// The id of `address`, and the link by which it is reached.
    pub fn lookup(&mut self, address: Address) -> Result<Found, Answer> {
        let route = self.state().lookup(address);
        given(route.answer).ok()?;
        Ok(Found {
            id: route.id,
            pid: route.pid,
        })
    }
}
