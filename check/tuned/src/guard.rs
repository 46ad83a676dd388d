//! The tests before a call: answers 12, 16 and 1.

use crate::{clock, table, walk, DAY_MS, KEEP_ALIVE};
use hello::{Address, ClassTable, Clock, Entry, Links, Settings, Walk, HOSTS, LINKS, PLACES, ROWS};

pub enum Verdict {
    /// The place of the host's first entry, and NHOSTS.
    Good(usize, usize),
    Bad(u8),
}

#[inline(always)]
pub fn admit(
    settings: &Settings,
    table: &ClassTable,
    number: usize,
    clock: &Clock,
    links: &Links,
    walk: &Walk,
    copy: &[u8],
    entries: &[Entry],
) -> Verdict {
    let Some(start) = first_place(settings, table, number, clock, links, entries) else {
        return Verdict::Bad(12);
    };
    if walk.opened != 0 {
        return Verdict::Bad(open(settings, walk, copy));
    }
    if !settings_good(settings, table) {
        return Verdict::Bad(1);
    }
    Verdict::Good(start, settings.layout.nhosts)
}

#[cold]
#[inline(never)]
fn open(settings: &Settings, walk: &Walk, copy: &[u8]) -> u8 {
    match walk::packet_of(settings, walk, copy) {
        Some(_) => 16,
        None => 12,
    }
}

/// The host's first place, if all borrowed state except the walk is in range.
#[inline(always)]
pub fn first_place(
    settings: &Settings,
    table: &ClassTable,
    number: usize,
    clock: &Clock,
    links: &Links,
    entries: &[Entry],
) -> Option<usize> {
    if number >= HOSTS {
        return None;
    }
    let start = PLACES * number;
    let places = entries.get(start..start + PLACES)?;
    let own = &places[..settings.layout.nhosts.min(PLACES)];
    let good = table_good(table)
        & clock::in_range(clock)
        & links_good(links, settings.link_count.min(LINKS));
    (good && table::good(own, &settings.marks)).then_some(start)
}

#[inline(always)]
pub fn table_good(table: &ClassTable) -> bool {
    if (table.nhosts.wrapping_sub(1) >= PLACES) | (table.net.count > ROWS) {
        return false;
    }
    // The highest id decides.
    let rows = &table.net.rows[..table.net.count];
    let highest = rows.iter().fold(0, |most, row| row.id.max(most));
    usize::from(highest) < table.nhosts
}

#[inline(always)]
fn links_good(links: &Links, count: usize) -> bool {
    let most = |most: u8, link: &hello::Link| link.keep_alive.max(most);
    links.all[..count].iter().fold(0, most) <= KEEP_ALIVE
}

/// Whether answer 1 accepts the settings.
#[inline(always)]
pub fn settings_good(settings: &Settings, table: &ClassTable) -> bool {
    let nhosts = settings.layout.nhosts;
    // The net table's is 1 to 255: it was tested with the borrowed state.
    let numbers = (nhosts == table.nhosts)
        & (settings.address.first.wrapping_sub(1) < 223)
        & ((settings.clock_host == 255) | (usize::from(settings.clock_host) < nhosts))
        & (settings.hold_interval.wrapping_sub(1) < 255)
        & ((settings.clock_tick.wrapping_sub(1) as u64) < 1 << 32)
        & ((settings.time as u64) < DAY_MS as u64)
        & clock::is_real(settings.date)
        & (settings.link_count.wrapping_sub(1) < LINKS);
    if !numbers {
        return false;
    }
    let switches = settings.links[..settings.link_count.min(LINKS)]
        .iter()
        .fold(0, |most: u8, link| link.broadcast.max(most));
    (switches <= 1) & marks_good(settings)
}

/// The own id is marked, and no id at NHOSTS or above.
#[inline(always)]
fn marks_good(settings: &Settings) -> bool {
    let Some(own) = id_on_net(settings, settings.address) else {
        return false;
    };
    let [a, b, c, d] = settings.marks.words;
    let nhosts = settings.layout.nhosts;
    let (word, above) = match nhosts / 64 {
        0 => (a, b | c | d),
        1 => (b, c | d),
        2 => (c, d),
        _ => (d, 0),
    };
    let own_word = settings.marks.words[(own / 64) & 3];
    ((word >> (nhosts % 64)) | above == 0) & (own_word >> (own % 64) & 1 == 1)
}

#[inline(always)]
pub fn same_net(one: Address, other: Address) -> bool {
    let differ = number(one) ^ number(other);
    // The octets that count, the first one lowest: 1, 2 and 4 of class A, else 1 to 3.
    let counting = if one.first < 128 {
        0xFF00_FFFF
    } else {
        0x00FF_FFFF
    };
    differ & counting == 0
}

#[inline(always)]
fn number(address: Address) -> u32 {
    u32::from_le_bytes([address.first, address.second, address.third, address.fourth])
}

#[inline(always)]
fn id_on_net(settings: &Settings, address: Address) -> Option<usize> {
    let octet = if address.first < 128 {
        address.third
    } else {
        address.fourth
    };
    let id = usize::from(octet).wrapping_sub(usize::from(settings.layout.address_offset));
    (id < settings.layout.nhosts).then_some(id)
}

/// The id of an address, by the own net or the class's table.
#[inline(always)]
pub fn find(settings: &Settings, table: &ClassTable, address: Address) -> Option<usize> {
    if same_net(address, settings.address) {
        return id_on_net(settings, address);
    }
    if address.first >= 224 {
        return None;
    }
    let all = number(address);
    let net = if address.first < 128 {
        all & 0xFF
    } else {
        all & 0x00FF_FFFF
    };
    table.net.rows[..table.net.count.min(ROWS)]
        .iter()
        .find(|row| {
            let of = u32::from_le_bytes([row.net.first, row.net.second, row.net.third, 0]);
            (of == net) | (of == 0)
        })
        .map(|row| usize::from(row.id))
}
