//! A walk: an arrival one box at a time.

use crate::guard::find;
use crate::packet::Message;
use crate::{clock, DAY_MS, HOLD_DOWN, KEEP_ALIVE, MAX_DELAY, MIN_DELAY};
use hello::{ClassTable, Clock, Counter, Entry, Links, Settings, Stepped, Walk, LINKS};

/// The packet of the open walk, if 12 accepts the walk.
#[inline(always)]
pub fn packet_of<'a>(settings: &Settings, walk: &Walk, copy: &'a [u8]) -> Option<Message<'a>> {
    let link = usize::from(walk.link);
    if link.wrapping_sub(1) >= settings.link_count.min(LINKS) {
        return None;
    }
    let packet = copy.get(..usize::from(walk.length))?;
    let reading = walk.reading as u64 <= DAY_MS as u64;
    let place = match (walk.step, walk.line) {
        (1, 0) => true,
        (2..=5, 0) => reading,
        (5, 1..=4) => reading & (usize::from(walk.id) < settings.layout.nhosts),
        _ => false,
    };
    if !place {
        return None;
    }
    let message = Message::on_link(packet, settings, link).ok()?;
    if (walk.step == 5) & (walk.line == 3) {
        let (delay, _) = report(walk, &message);
        if delay.wrapping_sub(MIN_DELAY) as u64 >= (MAX_DELAY - MIN_DELAY) as u64 {
            return None;
        }
    }
    Some(message)
}

/// DELAY and OFFSET for the id at hand.
#[inline(always)]
fn report(walk: &Walk, message: &Message) -> (i64, i16) {
    let word = message
        .hosts()
        .get(usize::from(walk.id))
        .map_or(0, |host| u32::from_be_bytes(*host));
    (
        i64::from(walk.delay) + i64::from(word >> 16),
        walk.offset.wrapping_add(word as i16),
    )
}

/// Makes the changes of the walk's present place.
#[inline(always)]
pub fn step(
    settings: &Settings,
    table: &ClassTable,
    clock: &mut Clock,
    links: &mut Links,
    walk: &mut Walk,
    entries: &mut [Entry],
    counter: Counter,
    message: Message,
) -> Stepped {
    let place = usize::from(walk.link) - 1;
    let point_to_point = settings.links[place].broadcast == 0;
    let link = &mut links.all[place];
    match (walk.step, walk.line) {
        (1, _) => {
            let sample = clock::read(clock, settings, counter);
            walk.count = sample.count;
            walk.reading = sample.time;
            at_step(walk, 2)
        }
        (2, _) => {
            link.keep_alive = KEEP_ALIVE;
            at_step(walk, 3)
        }
        (3, _) => {
            link.tsp = (message.time() - walk.reading) as i16;
            walk.delay = if point_to_point {
                (walk.reading - i64::from(message.tsp())) as i16
            } else {
                0
            };
            walk.offset = link.tsp.wrapping_add(walk.delay >> 1);
            at_step(walk, 4)
        }
        (4, _) => {
            if point_to_point {
                let source = message.source();
                if source != link.neighbor {
                    link.neighbor = source;
                    walk.delay = MAX_DELAY as i16;
                } else if message.tsp() == 0 || clock.hold != 0 {
                    return end(walk, 10);
                }
            }
            at_step(walk, 5)
        }
        (_, 0) => {
            let id = if message.nhosts() != 0 {
                0
            } else {
                match find(settings, table, link.neighbor) {
                    Some(id) => id,
                    None => return end(walk, 11),
                }
            };
            walk.delay = walk.delay.max(MIN_DELAY as i16);
            at_line(walk, 1, id)
        }
        (_, line) => {
            let id = usize::from(walk.id);
            let (delay, offset) = report(walk, &message);
            let entry = &mut entries[id];
            match line {
                1 => {
                    if (entry.pid != walk.link) & (delay + MIN_DELAY > entry.delay) {
                        next_id(walk, &message)
                    } else {
                        at_line(walk, 2, id)
                    }
                }
                2 => {
                    let was_up = entry.delay < MAX_DELAY;
                    if was_up & (delay >= MAX_DELAY) {
                        entry.delay = MAX_DELAY;
                        entry.ttl = HOLD_DOWN;
                        next_id(walk, &message)
                    } else if !was_up & ((delay >= MAX_DELAY) | (entry.ttl != 0)) {
                        next_id(walk, &message)
                    } else {
                        at_line(walk, 3, id)
                    }
                }
                3 => {
                    entry.delay = delay;
                    entry.offset = offset;
                    entry.ttl = HOLD_DOWN;
                    entry.pid = walk.link;
                    entry.time = walk.reading;
                    if walk.id == settings.clock_host {
                        at_line(walk, 4, id)
                    } else {
                        next_id(walk, &message)
                    }
                }
                _ => {
                    if walk.id == settings.clock_host {
                        clock::learn(clock, settings, message.date(), offset, walk.count);
                    }
                    next_id(walk, &message)
                }
            }
        }
    }
}

#[inline(always)]
fn at_step(walk: &mut Walk, step: u8) -> Stepped {
    (walk.step, walk.line, walk.id) = (step, 0, 0);
    Stepped {
        answer: 0,
        step,
        line: 0,
        id: 0,
    }
}

#[inline(always)]
fn at_line(walk: &mut Walk, line: u8, id: usize) -> Stepped {
    (walk.step, walk.line, walk.id) = (5, line, id as u8);
    Stepped {
        answer: 0,
        step: 5,
        line,
        id,
    }
}

#[inline(always)]
fn next_id(walk: &mut Walk, message: &Message) -> Stepped {
    let next = usize::from(walk.id) + 1;
    if next < usize::from(message.nhosts()) {
        at_line(walk, 1, next)
    } else {
        end(walk, 0)
    }
}

#[inline(always)]
fn end(walk: &mut Walk, answer: u8) -> Stepped {
    *walk = Walk::CLOSED;
    Stepped {
        answer,
        ..Stepped::default()
    }
}
