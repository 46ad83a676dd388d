//! One net table for the class, and the tutor's calls on it.
//!
//! Rows keep their order; their numbers are 1, 2, 3 and so on. The table is
//! borrowed by every call of a host, which looks up in it and changes nothing. The
//! tutor's calls know no host; their order of answers is 12, 22, 21, 1.

use crate::{Refusal, PLACES};

/// The rows a net table can have: "full means 32 rows stand".
pub const NET_ROWS: usize = 32;

#[derive(Clone, Copy, Debug, Default, PartialEq, Eq)]
pub struct NetRow {
    pub net: [u8; 3],
    pub host: u8,
}

#[derive(Clone, Copy, Debug, PartialEq, Eq)]
pub struct NetTable {
    /// The class's NHOSTS.
    pub nhosts: usize,
    /// How many rows stand; they are the first.
    pub count: usize,
    pub rows: [NetRow; NET_ROWS],
}

impl NetTable {
    pub const fn without_rows(nhosts: usize) -> NetTable {
        let none = NetRow {
            net: [0; 3],
            host: 0,
        };
        NetTable {
            nhosts,
            count: 0,
            rows: [none; NET_ROWS],
        }
    }

    /// Refused with 12 where the table is bad.
    pub fn admit(&self) -> Result<(), Refusal> {
        if self.in_range() {
            Ok(())
        } else {
            Err(Refusal::Lent)
        }
    }

    /// Whether 12 lets the table pass. Rows behind one of net zero are tested
    /// too, slots behind the standing rows are not.
    pub fn in_range(&self) -> bool {
        is_nhosts(self.nhosts)
            && self.count <= NET_ROWS
            && self.standing().iter().all(|row| self.has_id(row.host))
    }

    /// The rows that stand, also where too many are said to.
    pub fn standing(&self) -> &[NetRow] {
        &self.rows[..self.count.min(NET_ROWS)]
    }

    /// The id of a net, by the first row that is of it, or of net zero, which
    /// matches all.
    pub fn id_of(&self, net: [u8; 3]) -> Option<usize> {
        self.standing()
            .iter()
            .find(|row| row.net == net || row.net == [0; 3])
            .map(|row| usize::from(row.host))
    }

    fn has_id(&self, id: u8) -> bool {
        usize::from(id) < self.nhosts
    }
}

/// Leaves a class's NHOSTS and no rows, whatever was borrowed. Refused with 1.
pub fn set_afresh(table: &mut NetTable, nhosts: usize) -> Result<(), Refusal> {
    if !is_nhosts(nhosts) {
        return Err(Refusal::Settings);
    }
    *table = NetTable::without_rows(nhosts);
    Ok(())
}

/// Adds a row at the end; its number. Refused with 12, 21 and 1.
pub fn add(table: &mut NetTable, net: [u8; 3], host: u8) -> Result<usize, Refusal> {
    table.admit()?;
    if table.count == NET_ROWS {
        return Err(Refusal::NetFull);
    }
    test_id(table, host)?;
    let mut rows = table.standing().to_vec();
    rows.push(NetRow { net, host });
    put(table, &rows);
    Ok(rows.len())
}

/// Removes a row; those behind it move up by one. Refused with 12 and 22.
pub fn remove(table: &mut NetTable, number: usize) -> Result<(), Refusal> {
    table.admit()?;
    let place = place_of(table, number)?;
    let mut rows = table.standing().to_vec();
    rows.remove(place);
    put(table, &rows);
    Ok(())
}

/// Changes a row's host id; its net stays. Refused with 12, 22 and 1.
pub fn change(table: &mut NetTable, number: usize, host: u8) -> Result<(), Refusal> {
    table.admit()?;
    let place = place_of(table, number)?;
    test_id(table, host)?;
    let mut rows = table.standing().to_vec();
    rows[place].host = host;
    put(table, &rows);
    Ok(())
}

fn is_nhosts(number: usize) -> bool {
    (1..=PLACES).contains(&number)
}

/// Where the row of a number stands.
fn place_of(table: &NetTable, number: usize) -> Result<usize, Refusal> {
    if (1..=table.count).contains(&number) {
        Ok(number - 1)
    } else {
        Err(Refusal::NoRow)
    }
}

fn test_id(table: &NetTable, id: u8) -> Result<(), Refusal> {
    if table.has_id(id) {
        Ok(())
    } else {
        Err(Refusal::Settings)
    }
}

/// The table with these rows and zeros behind them.
fn put(table: &mut NetTable, rows: &[NetRow]) {
    *table = NetTable::without_rows(table.nhosts);
    table.count = rows.len();
    table.rows[..rows.len()].copy_from_slice(rows);
}
