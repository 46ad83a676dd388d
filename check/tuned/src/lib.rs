//! The rules of a HELLO host (RFC 891) as fast safe Rust: the program that the proved library is timed
//! against.
//!
//! It takes the structs of `bindings/c/include` as the types of the crate `hello`, so nothing is
//! converted. It gives each answer on the same condition as the library, which the comparison checks.
//! What makes it fast: one unsigned comparison or a carry into a sign bit tests a range, many values at
//! a time with one branch for all; settings and entries are read in place; four entries are tested at a
//! time with their marks; a message's checksum is formed while its words are written.
//!
//! The calls take the state of a host as the library's C functions do, and are not inlined either.

#![forbid(unsafe_code)]
#![allow(clippy::too_many_arguments)]

pub mod checksum;
mod clock;
mod guard;
mod packet;
pub mod recover;
mod table;
mod walk;

use clock::Sample;
use guard::{find, first_place, settings_good, Verdict};
use hello::{
    Address, ClassTable, Clock, Counter, Entry, Inspected, Link, Links, Route, Sent, Settings,
    Stepped, Time, Walk, HOSTS, LINKS, LONGEST_MESSAGE, PLACES, UNITS_PER_MS,
};
use packet::Message;

pub(crate) const MAX_DELAY: i64 = 30_000;
pub(crate) const MIN_DELAY: i64 = 100;
pub(crate) const HOLD_DOWN: u16 = 120;
pub(crate) const DAY_MS: i64 = 86_400_000;
pub(crate) const KEEP_ALIVE: u8 = 4;

macro_rules! admit {
    ($refuse:expr, $settings:expr, $table:expr, $number:expr, $clock:expr, $links:expr, $walk:expr, $copy:expr, $entries:expr) => {
        match guard::admit(
            $settings, $table, $number, $clock, $links, $walk, $copy, $entries,
        ) {
            Verdict::Good(start, count) => (start, count),
            Verdict::Bad(answer) => return $refuse(answer),
        }
    };
}

const fn plain(answer: u8) -> u8 {
    answer
}

#[inline(never)]
pub fn initialize(
    settings: &Settings,
    table: &ClassTable,
    number: usize,
    clock: &mut Clock,
    links: &mut Links,
    walk: &mut Walk,
    _copy: &[u8],
    entries: &mut [Entry],
) -> u8 {
    let start = PLACES * number;
    if number >= HOSTS || entries.len() < start + PLACES || !guard::table_good(table) {
        return 12;
    }
    if !settings_good(settings, table) {
        return 1;
    }
    *clock = Clock {
        clock: settings.time * UNITS_PER_MS,
        delta: 0,
        hold: 0,
        date: settings.date | 0x8000,
    };
    for (link, setting) in links.all.iter_mut().zip(&settings.links) {
        *link = Link {
            neighbor: match setting.broadcast {
                0 => Address::new(0, 0, 0, 0),
                _ => setting.neighbor,
            },
            keep_alive: 0,
            tsp: 0,
        };
    }
    *walk = Walk::CLOSED;
    let places = &mut entries[start..start + PLACES][..settings.layout.nhosts];
    for (of_word, word) in places.chunks_mut(64).zip(settings.marks.words) {
        for (id, entry) in of_word.iter_mut().enumerate() {
            *entry = Entry {
                delay: MAX_DELAY,
                offset: 0,
                ttl: 0,
                pid: 0,
                here: (word >> id & 1) as u8,
                time: 0,
            };
        }
    }
    0
}

#[inline(never)]
pub fn tick(
    settings: &Settings,
    table: &ClassTable,
    number: usize,
    clock: &mut Clock,
    links: &mut Links,
    walk: &mut Walk,
    copy: &[u8],
    entries: &mut [Entry],
    count: u16,
) -> u8 {
    admit!(plain, settings, table, number, clock, links, walk, copy, entries);
    clock.clock += settings.clock_tick;
    clock::pass_midnight(clock, count, settings.hold_interval);
    0
}

#[inline(never)]
pub fn adjust(
    settings: &Settings,
    table: &ClassTable,
    number: usize,
    clock: &mut Clock,
    links: &mut Links,
    walk: &mut Walk,
    copy: &[u8],
    entries: &mut [Entry],
    count: u16,
) -> u8 {
    admit!(plain, settings, table, number, clock, links, walk, copy, entries);
    let part = clock.delta >> 7;
    clock.clock += part;
    clock.delta -= part;
    clock::pass_midnight(clock, count, settings.hold_interval);
    0
}

#[inline(never)]
pub fn set(
    settings: &Settings,
    table: &ClassTable,
    number: usize,
    clock: &mut Clock,
    links: &mut Links,
    walk: &mut Walk,
    copy: &[u8],
    entries: &mut [Entry],
    ms: i32,
    count: u16,
) -> u8 {
    admit!(plain, settings, table, number, clock, links, walk, copy, entries);
    clock::set(clock, ms, count, settings.hold_interval);
    0
}

#[inline(never)]
pub fn read(
    settings: &Settings,
    table: &ClassTable,
    number: usize,
    clock: &mut Clock,
    links: &mut Links,
    walk: &mut Walk,
    copy: &[u8],
    entries: &mut [Entry],
    counter: Counter,
) -> Time {
    let refuse = |answer| Time {
        answer,
        ..Time::default()
    };
    admit!(refuse, settings, table, number, clock, links, walk, copy, entries);
    let time = clock::read(clock, settings, counter).time;
    Time {
        answer: 0,
        time,
        date: clock.date,
    }
}

#[inline(never)]
pub fn second(
    settings: &Settings,
    table: &ClassTable,
    number: usize,
    clock: &mut Clock,
    links: &mut Links,
    walk: &mut Walk,
    copy: &[u8],
    entries: &mut [Entry],
) -> u8 {
    let (start, count) = admit!(plain, settings, table, number, clock, links, walk, copy, entries);
    clock.hold = clock.hold.saturating_sub(1);
    table::second(&mut entries[start..start + count]);
    0
}

#[inline(never)]
pub fn self_report(
    settings: &Settings,
    table: &ClassTable,
    number: usize,
    clock: &mut Clock,
    links: &mut Links,
    walk: &mut Walk,
    copy: &[u8],
    entries: &mut [Entry],
    counter: Counter,
) -> u8 {
    let (start, count) = admit!(plain, settings, table, number, clock, links, walk, copy, entries);
    let reading = clock::read(clock, settings, counter).time;
    let own = &mut entries[start..start + count];
    for (word, of_word) in settings.marks.words.iter().zip(own.chunks_mut(64)) {
        let mut marked = *word;
        while marked != 0 {
            let id = marked.trailing_zeros() as usize;
            marked &= marked - 1;
            // The settings are good: no mark lies at NHOSTS or above.
            if let Some(entry) = of_word.get_mut(id) {
                table::update(entry, 0, 0, 0, reading);
            }
        }
    }
    0
}

#[inline(never)]
pub fn send(
    settings: &Settings,
    table: &ClassTable,
    number: usize,
    clock: &mut Clock,
    links: &mut Links,
    walk: &Walk,
    copy: &[u8],
    entries: &mut [Entry],
    link: usize,
    counter: Counter,
    buffer: &mut [u8],
) -> Sent {
    let refuse = |answer| Sent { answer, length: 0 };
    if link.wrapping_sub(1) >= settings.link_count.min(LINKS) {
        return refuse(12);
    }
    let (start, count) = admit!(refuse, settings, table, number, clock, links, walk, copy, entries);
    let sender = &mut links.all[link - 1];
    let neighbor = sender.neighbor;
    let known = neighbor != Address::default() && guard::same_net(neighbor, settings.address);
    let hosts = if known { count } else { 0 };
    let length = 32 + 4 * hosts;
    let Some(message) = buffer.get_mut(..length) else {
        return refuse(2);
    };
    let reading = clock::read(clock, settings, counter).time;
    let tsp = if sender.keep_alive == 0 {
        0
    } else {
        sender.keep_alive -= 1;
        (i64::from(sender.tsp) + reading) as u16
    };
    packet::write(
        message,
        packet::Heading {
            source: settings.address,
            destination: neighbor,
            date: clock.date,
            time: reading as u32,
            tsp,
            address_offset: settings.layout.address_offset,
        },
        &entries[start..start + hosts],
        link as u8,
    );
    Sent { answer: 0, length }
}

#[inline(never)]
pub fn inspect(
    settings: &Settings,
    table: &ClassTable,
    number: usize,
    clock: &mut Clock,
    links: &mut Links,
    walk: &Walk,
    copy: &[u8],
    entries: &mut [Entry],
    link: usize,
    packet: &[u8],
) -> Inspected {
    let refuse = |answer| Inspected {
        answer,
        ..Inspected::default()
    };
    if link.wrapping_sub(1) >= settings.link_count.min(LINKS) {
        return refuse(12);
    }
    admit!(refuse, settings, table, number, clock, links, walk, copy, entries);
    match Message::on_link(packet, settings, link) {
        Err(answer) => refuse(answer),
        Ok(message) => Inspected {
            answer: 0,
            source: message.source(),
            time: message.time(),
            tsp: message.tsp(),
            nhosts: message.nhosts(),
        },
    }
}

#[inline(never)]
pub fn act(
    settings: &Settings,
    table: &ClassTable,
    number: usize,
    clock: &mut Clock,
    links: &mut Links,
    walk: &Walk,
    copy: &[u8],
    entries: &mut [Entry],
    link: usize,
    counter: Counter,
    packet: &[u8],
) -> u8 {
    if link.wrapping_sub(1) >= settings.link_count.min(LINKS) {
        return 12;
    }
    let (start, count) = admit!(plain, settings, table, number, clock, links, walk, copy, entries);
    let message = match Message::on_link(packet, settings, link) {
        Ok(message) => message,
        Err(answer) => return answer,
    };
    let point_to_point = settings.links[link - 1].broadcast == 0;
    let receiver = &mut links.all[link - 1];
    let Sample {
        time: reading,
        count: used,
    } = clock::read(clock, settings, counter);
    receiver.keep_alive = KEEP_ALIVE;
    let tsp = (message.time() - reading) as i16;
    receiver.tsp = tsp;
    let mut delay = if point_to_point {
        (reading - i64::from(message.tsp())) as i16
    } else {
        0
    };
    let offset = tsp.wrapping_add(delay >> 1);
    if point_to_point {
        let source = message.source();
        if source != receiver.neighbor {
            receiver.neighbor = source;
            delay = MAX_DELAY as i16;
        } else if message.tsp() == 0 || clock.hold != 0 {
            return 10;
        }
    }
    let delay = i64::from(delay.max(MIN_DELAY as i16));
    let own = &mut entries[start..start + count];
    let pid = link as u8;
    let clock_host = usize::from(settings.clock_host);
    if message.nhosts() == 0 {
        let Some(id) = find(settings, table, receiver.neighbor) else {
            return 11;
        };
        if table::update_one(&mut own[id], delay, offset, pid, reading) && id == clock_host {
            clock::learn(clock, settings, message.date(), offset, used);
        }
        return 0;
    }
    let stored = table::update_all(
        own,
        message.hosts(),
        delay,
        offset,
        pid,
        reading,
        clock_host,
    );
    if let Some(offset) = stored {
        clock::learn(clock, settings, message.date(), offset, used);
    }
    0
}

#[inline(never)]
pub fn receive(
    settings: &Settings,
    table: &ClassTable,
    number: usize,
    clock: &mut Clock,
    links: &mut Links,
    walk: &Walk,
    copy: &[u8],
    entries: &mut [Entry],
    link: usize,
    counter: Counter,
    packet: &[u8],
) -> u8 {
    act(
        settings, table, number, clock, links, walk, copy, entries, link, counter, packet,
    )
}

#[inline(never)]
pub fn lookup(
    settings: &Settings,
    table: &ClassTable,
    number: usize,
    clock: &mut Clock,
    links: &mut Links,
    walk: &mut Walk,
    copy: &[u8],
    entries: &mut [Entry],
    address: Address,
) -> Route {
    let refuse = |answer| Route {
        answer,
        ..Route::default()
    };
    let (start, count) = admit!(refuse, settings, table, number, clock, links, walk, copy, entries);
    let Some(id) = find(settings, table, address) else {
        return refuse(11);
    };
    let entry = &entries[start..start + count][id];
    if entry.delay >= MAX_DELAY {
        return refuse(13);
    }
    Route {
        answer: 0,
        id,
        pid: entry.pid,
    }
}

#[inline(never)]
pub fn open_walk(
    settings: &Settings,
    table: &ClassTable,
    number: usize,
    clock: &Clock,
    links: &Links,
    walk: &mut Walk,
    copy: &mut [u8],
    entries: &[Entry],
    link: usize,
    packet: &[u8],
) -> Stepped {
    let refuse = |answer| Stepped {
        answer,
        ..Stepped::default()
    };
    if link.wrapping_sub(1) >= settings.link_count.min(LINKS) || copy.len() < LONGEST_MESSAGE {
        return refuse(12);
    }
    admit!(refuse, settings, table, number, clock, links, walk, copy, entries);
    if let Err(answer) = Message::on_link(packet, settings, link) {
        return refuse(answer);
    }
    copy[..packet.len()].copy_from_slice(packet);
    *walk = Walk {
        opened: 1,
        link: link as u8,
        step: 1,
        length: packet.len() as u16,
        ..Walk::CLOSED
    };
    Stepped {
        answer: 0,
        step: 1,
        line: 0,
        id: 0,
    }
}

#[inline(never)]
pub fn step(
    settings: &Settings,
    table: &ClassTable,
    number: usize,
    clock: &mut Clock,
    links: &mut Links,
    walk: &mut Walk,
    copy: &[u8],
    entries: &mut [Entry],
    counter: Counter,
) -> Stepped {
    let refuse = |answer| Stepped {
        answer,
        ..Stepped::default()
    };
    let count = settings.layout.nhosts.min(PLACES);
    let Some(own) = first_place(settings, table, number, clock, links, entries) else {
        return refuse(12);
    };
    let of_walk = if walk.opened != 0 {
        match walk::packet_of(settings, walk, copy) {
            Some(message) => Some(message),
            None => return refuse(12),
        }
    } else {
        None
    };
    if !settings_good(settings, table) {
        return refuse(1);
    }
    let Some(message) = of_walk else {
        return refuse(17);
    };
    walk::step(
        settings,
        table,
        clock,
        links,
        walk,
        &mut entries[own..own + count],
        counter,
        message,
    )
}
