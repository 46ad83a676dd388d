//! The calls of a host.
//!
//! Each borrows the host's settings, clock, links and walk, the net table of
//! the class and the run of entries that all hosts share. Answer 12 is tested first, then 16 while a
//! walk is open, then 1, then the others. Setting afresh and the step of a
//! walk do not give 16.
//!
//! A call that reads or changes CLOCK takes the count; tick, adjust and set
//! take no mark. Calls refused with 1 to 9 or 12 do not read; the
//! others read once, "before DATE or HOLD is used", and 10 and an
//! arrival's 11 keep the changes of the reading.

// What a call borrows makes many arguments.
#![allow(clippy::too_many_arguments)]

use std::ops::Range;

use crate::address::Address;
use crate::checklist;
use crate::clock::{Clock, Counter, Sample};
use crate::date::Date;
use crate::link::{Link, LinkKind, Links, KEEP_ALIVE_INTERVAL};
use crate::net::NetTable;
use crate::packet::{self, Heading, Message};
use crate::route;
use crate::settings::Settings;
use crate::table::{Entry, Report, MAX_DELAY, MIN_DELAY};
use crate::walk::{Place, Walk};
use crate::{Refusal, HOSTS, PLACES};

/// What a read answers.
#[derive(Clone, Copy, Debug, PartialEq, Eq)]
pub struct Reading {
    /// In milliseconds.
    pub time: i64,
    pub date: Date,
}

/// What a lookup answers.
#[derive(Clone, Copy, Debug, PartialEq, Eq)]
pub struct Route {
    pub host: usize,
    pub pid: u8,
}

/// What an inspection tells of a packet.
#[derive(Clone, Copy, Debug, Default, PartialEq, Eq)]
pub struct Inspected {
    pub source: Address,
    /// In milliseconds.
    pub time: u32,
    pub tsp: u16,
    /// How many hosts its table has.
    pub hosts: u8,
}

pub fn set_afresh(
    settings: &Settings,
    net: &NetTable,
    number: usize,
    clock: &mut Clock,
    links: &mut Links,
    walk: &mut Walk,
    run: &mut [Entry],
) -> Result<(), Refusal> {
    let start = first_place(number, run.len())?;
    net.admit()?;
    test_settings(settings, net)?;
    *clock = Clock::fresh(settings.time, settings.date);
    *links = settings.links.map(Link::fresh);
    walk.close();
    let places = &mut run[start..start + settings.nhosts];
    for (entry, mark) in places.iter_mut().zip(settings.marks) {
        *entry = Entry::fresh(mark);
    }
    Ok(())
}

pub fn tick(
    settings: &Settings,
    net: &NetTable,
    number: usize,
    clock: &mut Clock,
    links: &Links,
    walk: &mut Walk,
    run: &[Entry],
    count: u16,
) -> Result<(), Refusal> {
    admit(settings, net, number, clock, links, walk, run)?;
    clock.tick(count, settings.clock_tick, settings.hold_interval);
    Ok(())
}

pub fn adjust(
    settings: &Settings,
    net: &NetTable,
    number: usize,
    clock: &mut Clock,
    links: &Links,
    walk: &mut Walk,
    run: &[Entry],
    count: u16,
) -> Result<(), Refusal> {
    admit(settings, net, number, clock, links, walk, run)?;
    clock.adjust(count, settings.hold_interval);
    Ok(())
}

pub fn set(
    settings: &Settings,
    net: &NetTable,
    number: usize,
    clock: &mut Clock,
    links: &Links,
    walk: &mut Walk,
    run: &[Entry],
    ms: i32,
    count: u16,
) -> Result<(), Refusal> {
    admit(settings, net, number, clock, links, walk, run)?;
    clock.set(ms, count, settings.hold_interval);
    Ok(())
}

pub fn read(
    settings: &Settings,
    net: &NetTable,
    number: usize,
    clock: &mut Clock,
    links: &Links,
    walk: &mut Walk,
    run: &[Entry],
    counter: Counter,
) -> Result<Reading, Refusal> {
    admit(settings, net, number, clock, links, walk, run)?;
    let time = take_reading(settings, clock, counter).time;
    Ok(Reading {
        time,
        date: clock.date,
    })
}

pub fn second(
    settings: &Settings,
    net: &NetTable,
    number: usize,
    clock: &mut Clock,
    links: &Links,
    walk: &mut Walk,
    run: &mut [Entry],
) -> Result<(), Refusal> {
    let places = admit(settings, net, number, clock, links, walk, run)?;
    clock.second();
    run[places].iter_mut().for_each(Entry::second);
    Ok(())
}

/// A self-report updates each marked id, lowest first, all with the one
/// reading.
pub fn self_report(
    settings: &Settings,
    net: &NetTable,
    number: usize,
    clock: &mut Clock,
    links: &Links,
    walk: &mut Walk,
    run: &mut [Entry],
    counter: Counter,
) -> Result<(), Refusal> {
    let places = admit(settings, net, number, clock, links, walk, run)?;
    let report = Report {
        delay: 0,
        offset: 0,
        pid: 0,
        reading: take_reading(settings, clock, counter).time,
    };
    let table = &mut run[places];
    for id in settings.marked_ids() {
        table[id].update(&report);
    }
    Ok(())
}

/// Writes a message for the neighbour on a link into the buffer; its length.
pub fn send(
    settings: &Settings,
    net: &NetTable,
    number: usize,
    clock: &mut Clock,
    links: &mut Links,
    walk: &mut Walk,
    run: &[Entry],
    link: usize,
    counter: Counter,
    buffer: &mut [u8],
) -> Result<usize, Refusal> {
    admit_link(settings, link)?;
    let places = admit(settings, net, number, clock, links, walk, run)?;
    let sender = &mut links[link - 1];
    let neighbor = sender.neighbor;
    let table = if neighbor != Address::ZERO && neighbor.same_net(settings.address) {
        &run[places]
    } else {
        &[]
    };
    let length = packet::HEADER + packet::hello_length(table.len());
    let message = buffer.get_mut(..length).ok_or(Refusal::ShortBuffer)?;
    let reading = take_reading(settings, clock, counter).time;
    let heading = Heading {
        date: clock.date,
        time: reading as u32,
        tsp: sender.take_tsp(reading),
        address_offset: settings.address_offset,
    };
    let hosts = table
        .iter()
        .map(|entry| (entry.advertised_delay(link), entry.offset));
    packet::write_hello(&mut message[packet::HEADER..], &heading, hosts);
    packet::write_header(message, settings.address, neighbor);
    Ok(length)
}

/// Whether a packet that arrived on a link would be taken, and what it says.
/// Nothing changes and the clock is not read.
pub fn inspect(
    settings: &Settings,
    net: &NetTable,
    number: usize,
    clock: &Clock,
    links: &Links,
    walk: &mut Walk,
    run: &[Entry],
    link: usize,
    packet: &[u8],
) -> Result<Inspected, Refusal> {
    admit_link(settings, link)?;
    admit(settings, net, number, clock, links, walk, run)?;
    let message = Message::on_link(packet, settings, link)?;
    Ok(Inspected {
        source: message.source,
        time: message.time() as u32,
        tsp: message.tsp(),
        hosts: message.nhosts(),
    })
}

/// Carries out steps 2 to 5 for a packet. Other calls may have come since its
/// inspection, so it is tested again.
pub fn act(
    settings: &Settings,
    net: &NetTable,
    number: usize,
    clock: &mut Clock,
    links: &mut Links,
    walk: &mut Walk,
    run: &mut [Entry],
    link: usize,
    counter: Counter,
    packet: &[u8],
) -> Result<(), Refusal> {
    admit_link(settings, link)?;
    let places = admit(settings, net, number, clock, links, walk, run)?;
    let message = Message::on_link(packet, settings, link)?;
    let kind = settings.links[link - 1];
    let receiver = &mut links[link - 1];
    let sample = take_reading(settings, clock, counter);
    let path = measure(sample.time, clock.hold, kind, receiver, &message)?;
    let report = Report {
        delay: path.delay,
        offset: path.offset,
        pid: link as u8,
        reading: sample.time,
    };
    let table = &mut run[places];
    let date = message.date();
    if !message.has_table() {
        let id = route::find(settings, net, receiver.neighbor).ok_or(Refusal::NoHost)?;
        learn(
            settings,
            clock,
            id,
            &mut table[id],
            &report,
            date,
            sample.count,
        );
        return Ok(());
    }
    for (id, (entry, (delay, offset))) in table.iter_mut().zip(message.hosts()).enumerate() {
        let through = Report {
            delay: report.delay + i64::from(delay),
            offset: report.offset.wrapping_add(offset),
            ..report
        };
        learn(settings, clock, id, entry, &through, date, sample.count);
    }
    Ok(())
}

/// Takes a packet that arrived on a link: an inspection and, where that does
/// not refuse it, the action directly behind it.
pub fn arrival(
    settings: &Settings,
    net: &NetTable,
    number: usize,
    clock: &mut Clock,
    links: &mut Links,
    walk: &mut Walk,
    run: &mut [Entry],
    link: usize,
    counter: Counter,
    packet: &[u8],
) -> Result<(), Refusal> {
    inspect(settings, net, number, clock, links, walk, run, link, packet)?;
    act(
        settings, net, number, clock, links, walk, run, link, counter, packet,
    )
}

/// Opens a walk for a packet that arrived on a link: the packet is copied, and
/// the next box is step 1. Nothing else changes and the clock is not read.
pub fn open_walk(
    settings: &Settings,
    net: &NetTable,
    number: usize,
    clock: &Clock,
    links: &Links,
    walk: &mut Walk,
    run: &[Entry],
    link: usize,
    packet: &[u8],
) -> Result<(), Refusal> {
    admit_link(settings, link)?;
    admit(settings, net, number, clock, links, walk, run)?;
    Message::on_link(packet, settings, link)?;
    walk.open(link as u8, packet);
    Ok(())
}

/// Advances a walk by one box; the next place, none at the end. The counter
/// is used at the first box alone.
pub fn step(
    settings: &Settings,
    net: &NetTable,
    number: usize,
    clock: &mut Clock,
    links: &mut Links,
    walk: &mut Walk,
    run: &mut [Entry],
    counter: Counter,
) -> Result<Option<Place>, Refusal> {
    let places = admit_lent(settings, net, number, clock, links, walk, run)?;
    test_settings(settings, net)?;
    if !walk.is_open() {
        return Err(Refusal::NoWalk);
    }
    let table = &mut run[places];
    checklist::carry_out(settings, net, clock, links, walk, table, counter)
}

pub fn lookup(
    settings: &Settings,
    net: &NetTable,
    number: usize,
    clock: &Clock,
    links: &Links,
    walk: &mut Walk,
    run: &[Entry],
    address: Address,
) -> Result<Route, Refusal> {
    let places = admit(settings, net, number, clock, links, walk, run)?;
    let host = route::find(settings, net, address).ok_or(Refusal::NoHost)?;
    let entry = &run[places][host];
    if !entry.is_up() {
        return Err(Refusal::HostDown);
    }
    Ok(Route {
        host,
        pid: entry.pid,
    })
}

/// The first of the host's places, if the run holds all of them.
fn first_place(number: usize, run_length: usize) -> Result<usize, Refusal> {
    if number < HOSTS && run_length >= PLACES * (number + 1) {
        Ok(PLACES * number)
    } else {
        Err(Refusal::Lent)
    }
}

/// The places of the host's entries, unless 12, 16 or 1 refuse the call.
fn admit(
    settings: &Settings,
    net: &NetTable,
    number: usize,
    clock: &Clock,
    links: &Links,
    walk: &Walk,
    run: &[Entry],
) -> Result<Range<usize>, Refusal> {
    let places = admit_lent(settings, net, number, clock, links, walk, run)?;
    if walk.is_open() {
        return Err(Refusal::WalkOpen);
    }
    test_settings(settings, net)?;
    Ok(places)
}

/// The places of the host's entries, if all that is borrowed is in range.
fn admit_lent(
    settings: &Settings,
    net: &NetTable,
    number: usize,
    clock: &Clock,
    links: &Links,
    walk: &Walk,
    run: &[Entry],
) -> Result<Range<usize>, Refusal> {
    let start = first_place(number, run.len())?;
    net.admit()?;
    let places = start..start + settings.usable_hosts();
    let table = &run[places.clone()];
    let in_range = clock.in_range()
        && links[..settings.usable_links()].iter().all(Link::in_range)
        && walk.in_range(settings)
        && table.iter().all(Entry::in_range)
        && has_marks(table, settings);
    if in_range {
        Ok(places)
    } else {
        Err(Refusal::Lent)
    }
}

/// Whether each entry has the settings' mark.
fn has_marks(table: &[Entry], settings: &Settings) -> bool {
    table
        .iter()
        .zip(settings.marks)
        .all(|(entry, mark)| entry.is_marked(mark))
}

fn test_settings(settings: &Settings, net: &NetTable) -> Result<(), Refusal> {
    if settings.suit(net) {
        Ok(())
    } else {
        Err(Refusal::Settings)
    }
}

fn admit_link(settings: &Settings, link: usize) -> Result<(), Refusal> {
    if (1..=settings.usable_links()).contains(&link) {
        Ok(())
    } else {
        Err(Refusal::Lent)
    }
}

/// The one reading of a call.
fn take_reading(settings: &Settings, clock: &mut Clock, counter: Counter) -> Sample {
    clock.read(counter, settings.clock_tick, settings.hold_interval)
}

/// The measured DELAY and OFFSET to the neighbour.
struct Path {
    delay: i64,
    offset: i16,
}

/// Steps 2 to 4 of an arrival, and the least DELAY of step 5. HOLD is as the
/// reading left it.
fn measure(
    reading: i64,
    hold: u16,
    kind: LinkKind,
    link: &mut Link,
    message: &Message,
) -> Result<Path, Refusal> {
    let point_to_point = kind == LinkKind::PointToPoint;
    link.keep_alive = KEEP_ALIVE_INTERVAL;
    link.tsp = (message.time() - reading) as i16;
    let round_trip = if point_to_point {
        (reading - i64::from(message.tsp())) as i16
    } else {
        0
    };
    // A shift rounds the half down.
    let offset = link.tsp.wrapping_add(round_trip >> 1);
    let mut delay = i64::from(round_trip);
    if point_to_point {
        if message.source != link.neighbor {
            link.neighbor = message.source;
            delay = MAX_DELAY;
        } else if message.tsp() == 0 || hold != 0 {
            return Err(Refusal::DelayNotValid);
        }
    }
    Ok(Path {
        delay: delay.max(MIN_DELAY),
        offset,
    })
}

/// Updates an entry; a stored report of the clock host also sets the clock,
/// with the count of the arrival's reading.
fn learn(
    settings: &Settings,
    clock: &mut Clock,
    id: usize,
    entry: &mut Entry,
    report: &Report,
    date: Date,
    count: u16,
) {
    if entry.update(report) && id == usize::from(settings.clock_host) {
        clock.take_date(date);
        clock.set(report.offset.into(), count, settings.hold_interval);
    }
}
