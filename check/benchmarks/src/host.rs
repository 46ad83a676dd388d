//! A host that has heard its neighbor, for either program.

use crate::convert;
use hello::PLACES;
use hello::{
    Address, Answer, ClassTable, Clock, Counter, Entry, Layout, Links, Settings, State, Walk,
};

/// The host's one link.
pub const LINK: usize = 1;

/// Both hosts have a line clock.
pub const COUNTER: Counter = Counter::LINE_CLOCK;

/// The copy of a walk's packet: no walk is opened.
pub const NO_COPY: &[u8] = &[];

/// The reading of both hosts, in ms.
const READING: i64 = 40_000;

/// The host that is timed, and its neighbor.
pub const HOST: Address = Address::new(192, 0, 2, 1);
pub const NEIGHBOR: Address = Address::new(192, 0, 2, 2);

/// What the library borrows.
pub struct Ours {
    pub settings: Settings,
    pub table: ClassTable,
    pub clock: Clock,
    pub links: Links,
    pub walk: Walk,
    /// The copy of a walk's packet: empty if no walk is opened.
    pub copy: Vec<u8>,
    pub run: Vec<Entry>,
}

/// What the reference program borrows.
pub struct Theirs {
    pub settings: reference::Settings,
    pub table: reference::NetTable,
    pub clock: reference::Clock,
    pub links: reference::Links,
    pub walk: reference::Walk,
    pub run: Vec<reference::Entry>,
}

impl Ours {
    /// A host whose entries are all live, by the link `pid`, and who knows its neighbor.
    pub fn live(nhosts: usize, address: Address, neighbor: Address, pid: u8) -> Ours {
        let layout = Layout {
            address_offset: 1,
            nhosts,
        };
        let settings = Settings {
            clock_tick: 1,
            time: READING,
            ..Settings::new(address, layout)
        };
        let table = ClassTable::new(nhosts);
        let entry = Entry {
            delay: 100,
            offset: 0,
            ttl: 120,
            pid,
            here: 0,
            time: READING,
        };
        let mut ours = Ours {
            settings,
            table,
            clock: Clock::default(),
            links: Links::default(),
            walk: Walk::CLOSED,
            copy: Vec::new(),
            run: vec![entry; PLACES],
        };
        assert_eq!(ours.state().initialize(), Answer::Done.number());
        for place in &mut ours.run {
            *place = Entry {
                here: place.here,
                ..entry
            };
        }
        let link = &mut ours.links.all[LINK - 1];
        link.neighbor = neighbor;
        link.keep_alive = 4;
        link.tsp = -10;
        ours
    }

    /// What a call borrows.
    pub fn state(&mut self) -> State<'_> {
        State {
            settings: &self.settings,
            table: &self.table,
            number: 0,
            clock: &mut self.clock,
            links: &mut self.links,
            walk: &mut self.walk,
            copy: &mut self.copy,
            entries: &mut self.run,
        }
    }

    /// The same host for the reference program.
    pub fn theirs(&self) -> Theirs {
        Theirs {
            settings: convert::settings(&self.settings),
            table: convert::table(&self.table),
            clock: convert::clock(&self.clock),
            links: convert::links(&self.links),
            walk: convert::walk(&self.walk, NO_COPY),
            run: self.run.iter().map(convert::entry).collect(),
        }
    }
}

/// The host that is timed, for both programs.
pub fn both(nhosts: usize) -> (Ours, Theirs) {
    let ours = Ours::live(nhosts, HOST, NEIGHBOR, LINK as u8);
    let theirs = ours.theirs();
    (ours, theirs)
}

/// A message of the neighbor with a table of `nhosts` hosts.
pub fn message(nhosts: usize) -> Vec<u8> {
    let mut neighbor = Ours::live(nhosts, NEIGHBOR, HOST, 0);
    let mut buffer = vec![0; 32 + 4 * nhosts];
    let sent = neighbor.state().send(LINK, COUNTER, &mut buffer);
    assert_eq!(
        (sent.answer, sent.length),
        (Answer::Done.number(), buffer.len())
    );
    buffer
}
