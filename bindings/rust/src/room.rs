//! A room: hosts, and the entries and the net table that they share.

use crate::{ClassTable, Clock, Entry, Host, Links, Settings, Walk};
use crate::{HOSTS, LONGEST_MESSAGE, PLACES};

/// Up to sixteen hosts and their host tables, and the net table of their class.
///
/// ```
/// use hello::{Counter, Layout, Net, Room, Settings};
///
/// let layout = Layout { address_offset: 1, nhosts: 4 };
/// let mut room = Room::new(1, layout.nhosts);
/// assert_eq!(room.net_table.add(Net::new(10, 0, 0), 2), Ok(1));
/// let mut host = room.host(0);
/// host.initialize(Settings::new("192.0.2.1".parse()?, layout))?;
/// host.tick(0)?;
/// let message = host.send(1, Counter::LINE_CLOCK)?;
/// assert_eq!(message.len(), 32);
/// # Ok::<(), Box<dyn std::error::Error>>(())
/// ```
#[derive(Clone, Debug)]
pub struct Room {
    /// The net table of the class; the tutor's calls are its methods.
    pub net_table: ClassTable,
    hosts: Vec<Kept>,
    entries: Vec<Entry>,
}

/// What a room keeps of a host beside its entries.
#[derive(Clone, Debug)]
struct Kept {
    settings: Settings,
    clock: Clock,
    links: Links,
    walk: Walk,
    copy: [u8; LONGEST_MESSAGE],
}

impl Kept {
    /// Of a host that is still to be initialized.
    fn unset() -> Kept {
        Kept {
            settings: Settings::default(),
            clock: Clock::default(),
            links: Links::default(),
            walk: Walk::CLOSED,
            copy: [0; LONGEST_MESSAGE],
        }
    }
}

impl Room {
    /// A room of hosts, 16 at most, all still to be initialized by [`Host::initialize`], in a class
    /// of that NHOSTS, whose net table has no rows yet.
    ///
    /// # Panics
    /// If there are more than 16.
    pub fn new(hosts: usize, nhosts: usize) -> Room {
        assert!(hosts <= HOSTS, "a room has at most {HOSTS} hosts");
        Room {
            net_table: ClassTable::new(nhosts),
            hosts: vec![Kept::unset(); hosts],
            entries: vec![Entry::default(); hosts * PLACES],
        }
    }

    /// How many hosts there are.
    pub fn count(&self) -> usize {
        self.hosts.len()
    }

    /// The host of that number, from 0.
    ///
    /// # Panics
    /// If there is none.
    pub fn host(&mut self, number: usize) -> Host<'_> {
        let kept = &mut self.hosts[number];
        Host {
            number,
            settings: &mut kept.settings,
            net_table: &self.net_table,
            clock: &mut kept.clock,
            links: &mut kept.links,
            walk: &mut kept.walk,
            copy: &mut kept.copy,
            entries: &mut self.entries,
        }
    }

    /// The entries of all hosts: host k owns the 255 places from 255 k.
    pub fn entries(&self) -> &[Entry] {
        &self.entries
    }

    /// The same, to be written.
    pub fn entries_mut(&mut self) -> &mut [Entry] {
        &mut self.entries
    }
}
