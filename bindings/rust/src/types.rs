//! What is set, what the calls borrow, and what they return beside a number.

use std::fmt;
use std::net::{AddrParseError, Ipv4Addr};
use std::str::FromStr;

/// The entries that one host owns; host k owns those from 255 k.
pub const PLACES: usize = 255;

/// The hosts that one host table can have.
pub const HOSTS: usize = 16;

/// The links that a host can have.
pub const LINKS: usize = 8;

/// The rows that a net table can have.
pub const ROWS: usize = 32;

/// The ids that can be marked, from 0.
pub const MARKS: usize = 256;

/// The clock host's id if clock setting is off.
pub const NO_CLOCK_HOST: u8 = 255;

/// Clock units to a millisecond.
pub const UNITS_PER_MS: i64 = 65_536;

/// The octets of the longest message, with the table of 255 hosts.
pub const LONGEST_MESSAGE: usize = 32 + 4 * PLACES;

/// The DATE word of 1 January 1972, the first day that there is. [`date`](crate::date) has the others.
pub const FIRST_DATE: u16 = 1 << 10 | 1 << 5;

/// An internet address, first octet first.
#[repr(C)]
#[derive(Clone, Copy, Debug, PartialEq, Eq, Default)]
pub struct Address {
    /// The first octet.
    pub first: u8,
    /// The second octet.
    pub second: u8,
    /// The third octet.
    pub third: u8,
    /// The fourth octet.
    pub fourth: u8,
}

impl Address {
    /// The address of four octets.
    pub const fn new(first: u8, second: u8, third: u8, fourth: u8) -> Address {
        Address {
            first,
            second,
            third,
            fourth,
        }
    }
}

impl fmt::Display for Address {
    fn fmt(&self, out: &mut fmt::Formatter) -> fmt::Result {
        Ipv4Addr::from(*self).fmt(out)
    }
}

impl From<Ipv4Addr> for Address {
    fn from(address: Ipv4Addr) -> Address {
        address.octets().into()
    }
}

impl From<Address> for Ipv4Addr {
    fn from(address: Address) -> Ipv4Addr {
        <[u8; 4]>::from(address).into()
    }
}

impl From<[u8; 4]> for Address {
    fn from([first, second, third, fourth]: [u8; 4]) -> Address {
        Address::new(first, second, third, fourth)
    }
}

impl From<Address> for [u8; 4] {
    fn from(address: Address) -> [u8; 4] {
        [address.first, address.second, address.third, address.fourth]
    }
}

impl FromStr for Address {
    type Err = AddrParseError;

    fn from_str(text: &str) -> Result<Address, AddrParseError> {
        text.parse::<Ipv4Addr>().map(Address::from)
    }
}

/// The setting of one link.
#[repr(C)]
#[derive(Clone, Copy, Debug, PartialEq, Eq, Default)]
pub struct LinkSetting {
    /// 0 point-to-point, 1 broadcast; anything else is a setting outside its range.
    pub broadcast: u8,
    /// NEIGHBOR-ADDRESS of a broadcast link; not looked at for a point-to-point link.
    pub neighbor: Address,
}

impl LinkSetting {
    /// A point-to-point link.
    pub const fn point_to_point() -> LinkSetting {
        LinkSetting {
            broadcast: 0,
            neighbor: Address::new(0, 0, 0, 0),
        }
    }

    /// A broadcast link with its NEIGHBOR-ADDRESS.
    pub const fn broadcast(neighbor: Address) -> LinkSetting {
        LinkSetting {
            broadcast: 1,
            neighbor,
        }
    }
}

/// The layout of host ids, the same at all hosts of a net.
#[repr(C)]
#[derive(Clone, Copy, Debug, PartialEq, Eq, Default)]
pub struct Layout {
    /// ADDRESS-OFFSET: an id is the host octet of the address less this number.
    pub address_offset: u8,
    /// NHOSTS, that of the class's table: the ids are 0 to NHOSTS - 1.
    pub nhosts: usize,
}

/// The number of a net; class A has two zeros after its first octet; classes B and
/// C have all three octets.
#[repr(C)]
#[derive(Clone, Copy, Debug, PartialEq, Eq, Default)]
pub struct Net {
    /// The first octet.
    pub first: u8,
    /// The second octet.
    pub second: u8,
    /// The third octet.
    pub third: u8,
}

impl Net {
    /// The net of three octets.
    pub const fn new(first: u8, second: u8, third: u8) -> Net {
        Net {
            first,
            second,
            third,
        }
    }
}

/// A row of the net table: the host through which a net is reached.
#[repr(C)]
#[derive(Clone, Copy, Debug, PartialEq, Eq, Default)]
pub struct Row {
    /// The net; net zero matches every address and ends the search.
    pub net: Net,
    /// The host's id, below NHOSTS.
    pub id: u8,
}

/// The net table: the first `count` rows.
#[repr(C)]
#[derive(Clone, Copy, Debug, PartialEq, Eq, Default)]
pub struct NetTable {
    /// How many rows are used, 0 to 32.
    pub count: usize,
    /// The rows, searched from the first.
    pub rows: [Row; ROWS],
}

/// The table of a class, which all its hosts use: its NHOSTS, and the net table. Only the tutor
/// changes it, by the calls of [`nets`](crate::nets).
#[repr(C)]
#[derive(Clone, Copy, Debug, PartialEq, Eq, Default)]
pub struct ClassTable {
    /// NHOSTS, 1 to 255: that of every host's settings.
    pub nhosts: usize,
    /// The net table; the ids of its rows are below NHOSTS.
    pub net: NetTable,
}

/// Which of the ids from 0 to 255 are marked: the hosts that live here. The mark of an id is bit
/// id % 64 of word id / 64, the lowest bit first.
#[repr(C)]
#[derive(Clone, Copy, Debug, PartialEq, Eq, Default)]
pub struct Marks {
    /// 64 marks to a word.
    pub words: [u64; MARKS / 64],
}

impl Marks {
    /// The marks of these ids alone.
    pub fn of(ids: impl IntoIterator<Item = u8>) -> Marks {
        let mut marks = Marks::default();
        ids.into_iter().for_each(|id| marks.mark(id));
        marks
    }

    /// Marks an id.
    pub fn mark(&mut self, id: u8) {
        self.words[usize::from(id) / 64] |= 1 << (id % 64);
    }

    /// Takes the mark of an id away.
    pub fn unmark(&mut self, id: u8) {
        self.words[usize::from(id) / 64] &= !(1 << (id % 64));
    }

    /// Whether an id is marked.
    pub const fn has(&self, id: u8) -> bool {
        self.words[id as usize / 64] >> (id % 64) & 1 == 1
    }

    /// The marked ids, in rising order.
    pub fn ids(self) -> impl Iterator<Item = u8> {
        (0..=u8::MAX).filter(move |id| self.has(*id))
    }
}

/// The settings of a host. Calls on a host with a setting outside its range answer 1.
#[repr(C)]
#[derive(Clone, Copy, Debug, PartialEq, Eq, Default)]
pub struct Settings {
    /// LOCAL-ADDRESS: first octet 1 to 223, and it gives an id below NHOSTS.
    pub address: Address,
    /// ADDRESS-OFFSET and NHOSTS.
    pub layout: Layout,
    /// The id of the host that sets the clock, below NHOSTS; 255 for none: clock setting off.
    pub clock_host: u8,
    /// HOLD-INTERVAL, 1 to 255 s.
    pub hold_interval: u16,
    /// CLOCK-TICK, up to 65,536 ms: 1 to 4,294,967,296 units of 1/65,536 ms.
    pub clock_tick: i64,
    /// The starting time, 0 to 86,399,999 ms.
    pub time: i64,
    /// The starting date, a real one, with bit 14 zero; its bit 15 is not looked at.
    pub date: u16,
    /// How many links the host has, 1 to 8.
    pub link_count: usize,
    /// The links; link 1 comes first.
    pub links: [LinkSetting; LINKS],
    /// The ids whose hosts live here: the own one, and any others below NHOSTS.
    pub marks: Marks,
}

impl Settings {
    /// The settings of a host at an address: one point-to-point link, clock setting off,
    /// HOLD-INTERVAL 1 s, CLOCK-TICK 1 ms, time 0, 1 January 1972. Of the ids its own alone is
    /// marked.
    pub fn new(address: Address, layout: Layout) -> Settings {
        Settings {
            address,
            layout,
            clock_host: NO_CLOCK_HOST,
            hold_interval: 1,
            clock_tick: UNITS_PER_MS,
            date: FIRST_DATE,
            link_count: 1,
            marks: Marks::of(own_id(address, layout)),
            ..Settings::default()
        }
    }

    /// The same, with these ids marked too: their hosts live here beside the host itself.
    pub fn with_marks(mut self, ids: impl IntoIterator<Item = u8>) -> Settings {
        ids.into_iter().for_each(|id| self.marks.mark(id));
        self
    }
}

/// The id that an address of its own gives a host: the host octet, which is the third of class A and
/// the fourth of the others, less ADDRESS-OFFSET; none below 0.
fn own_id(address: Address, layout: Layout) -> Option<u8> {
    let octet = if address.first < 128 {
        address.third
    } else {
        address.fourth
    };
    octet.checked_sub(layout.address_offset)
}

/// A host's clock.
#[repr(C)]
#[derive(Clone, Copy, Debug, PartialEq, Eq, Default)]
pub struct Clock {
    /// CLOCK in units of 1/65,536 ms, from -65,535 to 86,400,000 ms. A reading is CLOCK plus the
    /// count of the crystal's counter.
    pub clock: i64,
    /// DELTA in units of 1/65,536 ms, from -128 to +127 ms.
    pub delta: i64,
    /// HOLD in seconds, up to 255.
    pub hold: u16,
    /// The DATE word: bits 0-4 year less 1972, 5-9 day, 10-13 month, 14 zero, 15 one while a
    /// master's date is awaited.
    pub date: u16,
}

/// What a call that reads the clock gets from the counter of 1,000 Hz that a crystal clock has. A line
/// clock has none, and passes [`Counter::LINE_CLOCK`], which is also the default.
#[repr(C)]
#[derive(Clone, Copy, Debug, PartialEq, Eq, Default)]
pub struct Counter {
    /// The count, in ms.
    pub count: u16,
    /// The mark, any number but 0: the counter has overflowed, and the tick for it is not made
    /// yet. The reading adds CLOCK-TICK, which is then that tick, and uses `again`.
    pub overflow: u8,
    /// The count taken again after the overflow; not looked at without the mark.
    pub again: u16,
}

impl Counter {
    /// What a line clock passes: zeros.
    pub const LINE_CLOCK: Counter = Counter::of(0);

    /// A count without the mark.
    pub const fn of(count: u16) -> Counter {
        Counter {
            count,
            overflow: 0,
            again: 0,
        }
    }

    /// A count after which the counter overflowed, and the count taken again.
    pub const fn overflowed(count: u16, again: u16) -> Counter {
        Counter {
            count,
            overflow: 1,
            again,
        }
    }
}

/// A link's state.
#[repr(C)]
#[derive(Clone, Copy, Debug, PartialEq, Eq, Default)]
pub struct Link {
    /// NEIGHBOR-ADDRESS; zero until a neighbor is heard or set.
    pub neighbor: Address,
    /// KEEP-ALIVE, up to 4.
    pub keep_alive: u8,
    /// TSP in ms.
    pub tsp: i16,
}

/// The states of a host's links.
#[repr(C)]
#[derive(Clone, Copy, Debug, PartialEq, Eq, Default)]
pub struct Links {
    /// Link 1 comes first.
    pub all: [Link; LINKS],
}

/// A walk: the state of an arrival between two of its boxes. Its packet is in a copy beside it. Only an
/// open walk is looked at, and of it only what its place needs.
#[repr(C)]
#[derive(Clone, Copy, Debug, PartialEq, Eq, Default)]
pub struct Walk {
    /// Any number but 0: a walk is open.
    pub opened: u8,
    /// The link on which the packet arrived, from 1.
    pub link: u8,
    /// The next place: step 1 to 5.
    pub step: u8,
    /// In step 5, after its own box, line 1 to 4 for (a) to (d); else 0.
    pub line: u8,
    /// The host id of a line, below NHOSTS.
    pub id: u8,
    /// The octets of the packet, at the start of the copy.
    pub length: u16,
    /// From step 1 on: the count that was used, in ms.
    pub count: u16,
    /// From step 1 on: our reading, 0 to 86,400,000 ms.
    pub reading: i64,
    /// From step 3 on: DELAY in ms; line (c) is to store one of 100 to 29,999.
    pub delay: i16,
    /// From step 3 on: OFFSET in ms.
    pub offset: i16,
}

impl Walk {
    /// No walk: zeros.
    pub const CLOSED: Walk = Walk {
        opened: 0,
        link: 0,
        step: 0,
        line: 0,
        id: 0,
        length: 0,
        count: 0,
        reading: 0,
        delay: 0,
        offset: 0,
    };

    /// Whether a walk is open.
    pub const fn is_open(&self) -> bool {
        self.opened != 0
    }
}

/// A place in a walk: a step of the arrival, or a line of the update of a host, after step 5.
/// Shown, it is `step 4` or `host 3, line b`.
#[derive(Clone, Copy, Debug, PartialEq, Eq, Hash)]
pub enum Place {
    /// A step, 1 to 5.
    Step(u8),
    /// A line of a host's update.
    Line {
        /// The host's id.
        host: usize,
        /// The line, `a` to `d`.
        line: char,
    },
}

impl fmt::Display for Place {
    fn fmt(&self, out: &mut fmt::Formatter) -> fmt::Result {
        match self {
            Place::Step(step) => out.pad(&format!("step {step}")),
            Place::Line { host, line } => out.pad(&format!("host {host}, line {line}")),
        }
    }
}

/// An entry of a host table.
#[repr(C)]
#[derive(Clone, Copy, Debug, PartialEq, Eq, Default)]
pub struct Entry {
    /// DELAY, 0 to 30,000 ms; 30,000 is down.
    pub delay: i64,
    /// OFFSET in ms: that host's clock less ours.
    pub offset: i16,
    /// TTL, up to 120 s.
    pub ttl: u16,
    /// PID, the link of the route, up to 8; 0 is a host that lives here, or none.
    pub pid: u8,
    /// The mark of the id, as the settings have it: 1 lives here, 0 does not.
    pub here: u8,
    /// The time of update, 0 to 86,400,000 ms.
    pub time: i64,
}

/// What a send returns.
#[repr(C)]
#[derive(Clone, Copy, Debug, PartialEq, Eq, Default)]
pub struct Sent {
    /// The answer number.
    pub answer: u8,
    /// The length of the message in octets; 0 when refused.
    pub length: usize,
}

/// What a lookup returns.
#[repr(C)]
#[derive(Clone, Copy, Debug, PartialEq, Eq, Default)]
pub struct Route {
    /// The answer number.
    pub answer: u8,
    /// The id that the address has; 0 when refused.
    pub id: usize,
    /// PID, the link of the route; 0 when refused.
    pub pid: u8,
}

/// What a reading returns.
#[repr(C)]
#[derive(Clone, Copy, Debug, PartialEq, Eq, Default)]
pub struct Time {
    /// The answer number.
    pub answer: u8,
    /// The integer milliseconds of CLOCK plus the count; 0 when refused.
    pub time: i64,
    /// The DATE word; 0 when refused.
    pub date: u16,
}

/// What an inspection returns.
#[repr(C)]
#[derive(Clone, Copy, Debug, PartialEq, Eq, Default)]
pub struct Inspected {
    /// The answer number.
    pub answer: u8,
    /// The packet's source; zero when refused.
    pub source: Address,
    /// The packet's time in ms, an unsigned 32-bit number; 0 when refused.
    pub time: i64,
    /// The packet's TSP, as an unsigned number; 0 when refused.
    pub tsp: u16,
    /// The packet's NHOSTS: how many hosts its table has; 0 when refused.
    pub nhosts: u8,
}

/// What the opening of a walk and a step of it return: the next place.
#[repr(C)]
#[derive(Clone, Copy, Debug, PartialEq, Eq, Default)]
pub struct Stepped {
    /// The answer number.
    pub answer: u8,
    /// The step, 1 to 5; 0 when refused, and if there is no next place.
    pub step: u8,
    /// In step 5, after its own box, the line, 1 to 4 for (a) to (d); else 0.
    pub line: u8,
    /// The host id of a line; else 0.
    pub id: usize,
}

impl Stepped {
    /// The next place, if there is one.
    pub fn place(&self) -> Option<Place> {
        match (self.step, self.line) {
            (0, _) => None,
            (step, 0) => Some(Place::Step(step)),
            (_, line) => Some(Place::Line {
                host: self.id,
                line: char::from(b'a' + line - 1),
            }),
        }
    }
}
