//! The net table of a class: the tutor's calls, which change it.
//!
//! The plain calls here answer the number of an [`Answer`]; those of [`ClassTable`] are the same as
//! methods. They know no host: a change takes effect at the next call of a host that looks an
//! address up, in the middle of a walk too.

use crate::answer::{given, result};
use crate::{Answer, ClassTable, Net, NetTable, Row, ROWS};

/// What adding a row answers.
#[repr(C)]
#[derive(Clone, Copy, Debug, PartialEq, Eq, Default)]
pub struct NetAdded {
    /// The answer number.
    pub answer: u8,
    /// The number of the row, from 1; 0 when refused.
    pub row: usize,
}

const _: () = {
    use std::mem::{align_of, offset_of, size_of};
    assert!(size_of::<NetAdded>() == 16 && align_of::<NetAdded>() == 8);
    assert!(offset_of!(NetAdded, answer) == 0);
    assert!(offset_of!(NetAdded, row) == 8);
};

extern "C" {
    fn hello_net_afresh(table: *mut ClassTable, nhosts: usize) -> u8;
    fn hello_net_add(table: *mut ClassTable, net: Net, id: usize) -> NetAdded;
    fn hello_net_remove(table: *mut ClassTable, row: usize) -> u8;
    fn hello_net_change(table: *mut ClassTable, row: usize, id: usize) -> u8;
}

/// Initializes a table, with the class's NHOSTS and without rows. Any table may be passed.
pub fn afresh(table: &mut ClassTable, nhosts: usize) -> u8 {
    // SAFETY: a reference is valid and aligned.
    unsafe { hello_net_afresh(table, nhosts) }
}

/// Adds a row at the end.
pub fn add(table: &mut ClassTable, net: Net, id: usize) -> NetAdded {
    // SAFETY: a reference is valid and aligned.
    unsafe { hello_net_add(table, net, id) }
}

/// Removes the row of that number, from 1; those after it move up.
pub fn remove(table: &mut ClassTable, row: usize) -> u8 {
    // SAFETY: a reference is valid and aligned.
    unsafe { hello_net_remove(table, row) }
}

/// Changes the host id of the row of that number, from 1; its net stays.
pub fn change(table: &mut ClassTable, row: usize, id: usize) -> u8 {
    // SAFETY: a reference is valid and aligned.
    unsafe { hello_net_change(table, row, id) }
}

impl ClassTable {
    /// The table of a class of that NHOSTS, without rows.
    pub const fn new(nhosts: usize) -> ClassTable {
        let none = Row {
            net: Net::new(0, 0, 0),
            id: 0,
        };
        ClassTable {
            nhosts,
            net: NetTable {
                count: 0,
                rows: [none; ROWS],
            },
        }
    }

    /// The rows that are used; the first is number 1.
    pub fn rows(&self) -> &[Row] {
        &self.net.rows[..self.net.count.min(ROWS)]
    }

    /// Initializes the table, with the class's NHOSTS and without rows.
    pub fn initialize(&mut self, nhosts: usize) -> Result<(), Answer> {
        given(afresh(self, nhosts)).ok()
    }

    /// Adds a row at the end, a net and the id of the host that leads there; its number.
    pub fn add(&mut self, net: Net, id: usize) -> Result<usize, Answer> {
        let added = add(self, net, id);
        result(added.answer, added.row)
    }

    /// Removes the row of that number, from 1; those after it move up.
    pub fn remove(&mut self, row: usize) -> Result<(), Answer> {
        given(remove(self, row)).ok()
    }

    /// The row of that number, from 1, leads to another host; its net stays.
    pub fn change(&mut self, row: usize, id: usize) -> Result<(), Answer> {
        given(change(self, row, id)).ok()
    }
}
