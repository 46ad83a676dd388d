//! An exercise file from its parts.

use super::file::{Cable, Event, File};
use super::layout::{cable, event, header, put, seat, Field};
use crate::address::Address;
use crate::clock::Counter;
use crate::link::LinkKind;
use crate::settings::Settings;

/// The octets of a file; its parts are not tested.
pub fn octets(file: &File) -> Vec<u8> {
    let mut octets = head(file.seats.len(), file.cables.len(), file.events.len());
    for settings in &file.seats {
        octets.extend(seat_record(settings));
    }
    for cable in &file.cables {
        octets.extend(cable_record(cable));
    }
    for event in &file.events {
        octets.extend(event_record(event));
    }
    octets
}

/// The header of a file with these numbers of seats, cables and events.
pub fn head(seats: usize, cables: usize, events: usize) -> Vec<u8> {
    let cables_start = header::SIZE + seats * seat::SIZE;
    let events_start = cables_start + cables * cable::SIZE;
    let mut head = vec![0; header::SIZE];
    for (field, number) in [
        (header::SEATS, seats),
        (header::CABLES, cables),
        (header::EVENTS, events),
        (header::CABLES_START, cables_start),
        (header::EVENTS_START, events_start),
    ] {
        put(&mut head, field, number as u64);
    }
    head
}

pub fn seat_record(settings: &Settings) -> Vec<u8> {
    let mut record = vec![0; seat::SIZE];
    put_address(&mut record, seat::LOCAL_ADDRESS, settings.address);
    for (field, number) in [
        (seat::ADDRESS_OFFSET, settings.address_offset.into()),
        (seat::CLOCK_HOST, settings.clock_host.into()),
        (seat::NHOSTS, settings.nhosts as u64),
        (seat::HOLD_INTERVAL, settings.hold_interval.into()),
        (seat::DATE, settings.date.0.into()),
        (seat::TIME, settings.time as u64),
        (seat::CLOCK_TICK, settings.clock_tick.0 as u64),
        (seat::LINK_COUNT, settings.link_count as u64),
    ] {
        put(&mut record, field, number);
    }
    let links = record[seat::LINKS.at..].chunks_exact_mut(seat::LINK_SIZE);
    for (record, link) in links.zip(settings.links) {
        put_link(record, link);
    }
    let marks = &mut record[seat::MARKS.at..];
    for (octet, mark) in marks.iter_mut().zip(settings.marks) {
        *octet = mark.into();
    }
    record
}

fn put_link(record: &mut [u8], link: LinkKind) {
    match link {
        LinkKind::PointToPoint => put(record, seat::SWITCH, 0),
        LinkKind::Broadcast(neighbor) => {
            put(record, seat::SWITCH, 1);
            put_address(record, seat::NEIGHBOR_ADDRESS, neighbor);
        }
        LinkKind::Neither => put(record, seat::SWITCH, 2),
    }
}

pub fn cable_record(cable: &Cable) -> Vec<u8> {
    let mut record = vec![0; cable::SIZE];
    for (octets, end) in record.chunks_exact_mut(cable::END_SIZE).zip(cable.ends) {
        put(octets, cable::SEAT, end.seat as u64);
        put(octets, cable::LINK, end.link as u64);
    }
    record
}

pub fn event_record(event: &Event) -> Vec<u8> {
    match *event {
        Event::Tick { seat, count } => at_seat(event::TICK, seat, count),
        Event::Adjust { seat, count } => at_seat(event::ADJUST, seat, count),
        Event::Set { seat, ms, count } => {
            let mut record = at_seat(event::SET, seat, count);
            put(&mut record, event::AMOUNT, ms as u64);
            record
        }
        Event::Second { seat } => at_seat(event::SECOND, seat, 0),
        Event::SelfReport { seat, counter } => {
            let mut record = at_seat(event::SELF_REPORT, seat, 0);
            put_counter(&mut record, counter);
            record
        }
        Event::Send {
            cable,
            end,
            tray,
            counter,
        } => {
            let mut record = with_tray(event::SEND, tray, counter);
            put(&mut record, event::CABLE, cable as u64);
            put(&mut record, event::END, end as u64);
            record
        }
        Event::Arrival { tray, counter } => with_tray(event::ARRIVAL, tray, counter),
    }
}

fn at_seat(kind: u64, seat: usize, count: u16) -> Vec<u8> {
    let mut record = vec![0; event::SIZE];
    put(&mut record, event::KIND, kind);
    put(&mut record, event::SEAT, seat as u64);
    put(&mut record, event::COUNT, count.into());
    record
}

fn with_tray(kind: u64, tray: usize, counter: Counter) -> Vec<u8> {
    let mut record = vec![0; event::SIZE];
    put(&mut record, event::KIND, kind);
    put(&mut record, event::TRAY, tray as u64);
    put_counter(&mut record, counter);
    record
}

fn put_counter(record: &mut [u8], counter: Counter) {
    put(record, event::COUNT, counter.count.into());
    put(record, event::MARK, counter.overflow.into());
    put(record, event::AGAIN, counter.again.into());
}

fn put_address(record: &mut [u8], field: Field, address: Address) {
    put(record, field, u32::from_be_bytes(address.0).into());
}
