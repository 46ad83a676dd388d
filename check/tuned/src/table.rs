//! The entries of a host table.

use crate::{DAY_MS, HOLD_DOWN, MAX_DELAY, MIN_DELAY};
use hello::{Entry, Marks};

/// Carries into the top bit of TTL, PID or mark if that is over 120, 8 or 0.
const OVER: u32 = (0x8000 - 121) | (0x80 - 9) << 16 | (0x80 - 1) << 24;
const TOPS: u32 = 0x8080_8000;

/// Whether each entry is in its range and has the mark of the settings.
///
/// DELAY and time are tested by one unsigned comparison each. TTL, PID and mark are adjacent and
/// tested as one word, four entries at a time: the added constant carries into the top bit of a field
/// that is over its limit, and a field that has this bit is over its limit too. Only such a field
/// carries out. The words are loaded once if none of the four is marked.
#[inline(always)]
pub fn good(entries: &[Entry], marks: &Marks) -> bool {
    for (of_word, word) in entries.chunks(64).zip(&marks.words) {
        let mut word = *word;
        let (fours, rest) = of_word.as_chunks::<4>();
        for [a, b, c, d] in fours {
            if !(wide(a) && wide(b) && wide(c) && wide(d)) {
                return false;
            }
            let over = if word & 15 == 0 {
                small(a) | small(b) | small(c) | small(d)
            } else {
                marked(a, word) | marked(b, word >> 1) | marked(c, word >> 2) | marked(d, word >> 3)
            };
            if over & TOPS != 0 {
                return false;
            }
            word >>= 4;
        }
        for entry in rest {
            if !wide(entry) || marked(entry, word) & TOPS != 0 {
                return false;
            }
            word >>= 1;
        }
    }
    true
}

#[inline(always)]
fn wide(entry: &Entry) -> bool {
    entry.delay as u64 <= MAX_DELAY as u64 && entry.time as u64 <= DAY_MS as u64
}

/// TTL, PID and mark, with the top bit of one that is over its limit; the mark's limit is 0.
#[inline(always)]
fn small(entry: &Entry) -> u32 {
    over(fields(entry))
}

/// The same, with the mark's difference from the word's lowest bit.
#[inline(always)]
fn marked(entry: &Entry, word: u64) -> u32 {
    over(fields(entry) ^ ((word & 1) as u32) << 24)
}

#[inline(always)]
fn fields(entry: &Entry) -> u32 {
    u32::from(entry.ttl) | u32::from(entry.pid) << 16 | u32::from(entry.here) << 24
}

#[inline(always)]
fn over(fields: u32) -> u32 {
    fields | fields.wrapping_add(OVER)
}

/// A second passes.
#[inline(always)]
pub fn second(entries: &mut [Entry]) {
    for entry in entries {
        let remaining = entry.ttl.saturating_sub(1);
        if (entry.ttl == 1) & (entry.delay < MAX_DELAY) {
            entry.delay = MAX_DELAY;
            entry.ttl = HOLD_DOWN;
        } else {
            entry.ttl = remaining;
        }
    }
}

/// Whether a report of this DELAY by this link is stored.
#[inline(always)]
fn stores(entry: &Entry, delay: i64, pid: u8) -> bool {
    let kept = (entry.pid != pid) & (delay + MIN_DELAY > entry.delay);
    let holding = (entry.delay >= MAX_DELAY) & (entry.ttl != 0);
    !kept & (delay < MAX_DELAY) & !holding
}

/// Updates an entry by a report.
#[inline(always)]
pub fn update(entry: &mut Entry, delay: i64, offset: i16, pid: u8, reading: i64) {
    if entry.pid != pid && delay + MIN_DELAY > entry.delay {
        return;
    }
    if delay >= MAX_DELAY {
        if entry.delay < MAX_DELAY {
            entry.delay = MAX_DELAY;
            entry.ttl = HOLD_DOWN;
        }
        return;
    }
    if entry.delay >= MAX_DELAY && entry.ttl != 0 {
        return;
    }
    entry.delay = delay;
    entry.offset = offset;
    entry.ttl = HOLD_DOWN;
    entry.pid = pid;
    entry.time = reading;
}

/// Updates each entry by what is reported of it; the OFFSET that the clock host's entry stored. That
/// is seen beforehand, since an entry's update asks for no other entry, and the loop has no test for
/// the clock host.
#[inline(always)]
pub fn update_all(
    entries: &mut [Entry],
    hosts: &[[u8; 4]],
    delay: i64,
    offset: i16,
    pid: u8,
    reading: i64,
    clock_host: usize,
) -> Option<i16> {
    let stored = match (entries.get(clock_host), hosts.get(clock_host)) {
        (Some(entry), Some(host)) => {
            let (total, theirs) = plus(delay, offset, host);
            stores(entry, total, pid).then_some(theirs)
        }
        _ => None,
    };
    for (entry, host) in entries.iter_mut().zip(hosts) {
        let (total, theirs) = plus(delay, offset, host);
        update(entry, total, theirs, pid, reading);
    }
    stored
}

/// DELAY and OFFSET with what is reported of a host.
#[inline(always)]
fn plus(delay: i64, offset: i16, host: &[u8; 4]) -> (i64, i16) {
    let word = u32::from_be_bytes(*host);
    (
        delay + i64::from(word >> 16),
        offset.wrapping_add(word as i16),
    )
}

/// Updates the one entry of a packet without a table; whether it was stored.
#[inline(always)]
pub fn update_one(entry: &mut Entry, delay: i64, offset: i16, pid: u8, reading: i64) -> bool {
    let stored = stores(entry, delay, pid);
    update(entry, delay, offset, pid, reading);
    stored
}
