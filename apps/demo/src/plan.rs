//! What a room is to be, and a bench file that is run instead.

use std::path::PathBuf;

/// Milliseconds.
pub const SECOND: i64 = 1000;
pub const MINUTE: i64 = 60 * SECOND;
pub const DAY: i64 = 24 * 60 * MINUTE;

/// The room's millisecond at the start: 08:00.
pub const START: i64 = 8 * 60 * MINUTE;

/// A room to run.
pub struct Plan {
    /// What each host's clock is ahead of the room's millisecond, in ms.
    pub clocks: Vec<i64>,
    /// So many hosts, from the first, have a crystal clock; the others have a line clock.
    pub crystals: usize,
    /// So many further hosts, without clocks and links of their own, live at these.
    pub further: usize,
    pub shape: Shape,
    pub cables: Vec<Cable>,
    /// The rows of the class's net table, as the tutor adds them.
    pub rows: Vec<NetRow>,
    pub minutes: i64,
    /// Messages lost of a hundred.
    pub loss: u64,
    pub seed: u64,
    /// Where the room is to be written as a bench file.
    pub save: Option<PathBuf>,
}

impl Plan {
    /// NHOSTS: the ids of the hosts, then those of the further ones.
    pub fn ids(&self) -> usize {
        self.clocks.len() + self.further
    }

    /// The number of the host at which an id's host lives: itself, or for the further ones one after
    /// the other in turn.
    pub fn home(&self, id: usize) -> usize {
        id % self.clocks.len()
    }

    /// The ids of the further hosts that live at a host.
    pub fn guests(&self, number: usize) -> impl Iterator<Item = usize> + '_ {
        (self.clocks.len()..self.ids()).filter(move |id| self.home(*id) == number)
    }
}

/// A bench file to run.
pub struct Exercise {
    pub path: PathBuf,
    pub octets: Vec<u8>,
    /// NHOSTS of the class's table: that of the file's first host, or 1 where it cannot be one.
    pub nhosts: usize,
    /// The rows of that table.
    pub rows: Vec<NetRow>,
}

/// A row of the net table: the octets of a net, and the id of the host that leads there.
#[derive(Clone, Copy)]
pub struct NetRow {
    pub net: [u8; 3],
    pub id: usize,
}

#[derive(Clone, Copy)]
pub enum Shape {
    Line,
    Ring,
}

/// A host's link, numbered from 1.
#[derive(Clone, Copy)]
pub struct End {
    pub host: usize,
    pub link: usize,
}

/// A cable, and how long a message takes from its first end to the second, and back.
#[derive(Clone, Copy)]
pub struct Cable {
    pub ends: [End; 2],
    pub delay: [i64; 2],
}
