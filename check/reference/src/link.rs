//! The links of a host.

use crate::address::Address;

/// The links a host can have. They are numbered from 1; the number is the PID.
pub const LINKS: usize = 8;
/// KEEP-ALIVE after an arrival.
pub const KEEP_ALIVE_INTERVAL: u8 = 4;

/// How a link is set.
#[derive(Clone, Copy, Debug, PartialEq, Eq)]
pub enum LinkKind {
    PointToPoint,
    /// With its NEIGHBOR-ADDRESS.
    Broadcast(Address),
    /// A switch that is at neither; where a link of the host has it, the settings are refused.
    Neither,
}

#[derive(Clone, Copy, Debug, Default, PartialEq, Eq)]
pub struct Link {
    pub neighbor: Address,
    pub keep_alive: u8,
    pub tsp: i16,
}

/// Link 1 comes first.
pub type Links = [Link; LINKS];

impl Link {
    pub fn fresh(kind: LinkKind) -> Link {
        let neighbor = match kind {
            LinkKind::PointToPoint | LinkKind::Neither => Address::ZERO,
            LinkKind::Broadcast(neighbor) => neighbor,
        };
        Link {
            neighbor,
            keep_alive: 0,
            tsp: 0,
        }
    }

    pub fn in_range(&self) -> bool {
        self.keep_alive <= KEEP_ALIVE_INTERVAL
    }

    /// The TSP of a message sent at a reading; one KEEP-ALIVE is used up.
    pub fn take_tsp(&mut self, reading: i64) -> u16 {
        if self.keep_alive == 0 {
            return 0;
        }
        self.keep_alive -= 1;
        (i64::from(self.tsp) + reading) as u16
    }
}
