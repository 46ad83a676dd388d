//! Recovery of damaged captures.

use crate::packet::parse;
use hello::capture::{Mended, LONGEST};
use hello::Answer;

/// The shortest packet, and the most that an input can have.
const SHORTEST: usize = 32;
const MOST: usize = LONGEST / SHORTEST;

/// How many places are tested at a time.
const LANES: usize = 32;

/// Whether a packet may begin at one of the first places: its first octet and its protocol are right.
#[inline(always)]
fn any_may(octets: &[u8; LANES + 9]) -> bool {
    let mut any = false;
    for i in 0..LANES {
        any |= (octets[i] == 0x45) & (octets[i + 9] == 63);
    }
    any
}

/// The length of the packet that begins at a place that has 32 octets; 0 if none does. What tells
/// most packets from other octets comes first.
#[inline(always)]
fn hit(input: &[u8], at: usize) -> usize {
    let Some(front) = input[at..].first_chunk::<SHORTEST>() else {
        return 0;
    };
    if (front[0] != 0x45) | (front[9] != 63) {
        return 0;
    }
    let length = usize::from(u16::from_be_bytes([front[2], front[3]]));
    let fragment = u16::from_be_bytes([front[6], front[7]]) & 0x3FFF;
    if (length != SHORTEST + 4 * usize::from(front[31])) | (fragment != 0) {
        return 0;
    }
    match input.get(at..at + length) {
        Some(packet) if parse(packet).is_ok() => length,
        _ => 0,
    }
}

/// The next packet from `from` on: its place and length.
#[inline(always)]
fn next(input: &[u8], from: usize) -> Option<(usize, usize)> {
    let end = input.len().saturating_sub(SHORTEST - 1);
    let mut at = from;
    while at < end {
        let mut until = at + 1;
        // If packets follow each other, one begins here.
        if at != from {
            while let Some(octets) = input[at..].first_chunk::<{ LANES + 9 }>() {
                if any_may(octets) {
                    break;
                }
                at += LANES;
            }
            until = (at + LANES).min(end);
        }
        while at < until {
            let length = hit(input, at);
            if length != 0 {
                return Some((at, length));
            }
            at += 1;
        }
    }
    None
}

/// Writes a number at a place.
#[inline(always)]
fn put(octets: &mut [u8], at: usize, number: usize) {
    octets[at..at + 4].copy_from_slice(&(number as u32).to_be_bytes());
}

/// Writes a capture of the packets found and a list of the stretches passed over. The input is
/// searched once: the packets' places are kept.
#[inline(never)]
pub fn recover(input: &[u8], capture: &mut [u8], stretches: &mut [u8]) -> Mended {
    let refuse = |answer| Mended {
        answer,
        ..Mended::default()
    };
    if input.len() > LONGEST {
        return refuse(Answer::CaptureLength as u8);
    }
    let mut found = [(0u16, 0u16); MOST];
    let (mut hits, mut octets, mut gaps, mut at) = (0, 0, 0, 0);
    while let Some((start, length)) = next(input, at) {
        found[hits] = (start as u16, length as u16);
        gaps += usize::from(at < start);
        hits += 1;
        octets += length;
        at = start + length;
    }
    gaps += usize::from(at < input.len());
    let (capture_length, stretches_length) = (4 + 4 * hits + octets, 8 * gaps);
    let (Some(capture), Some(stretches)) = (
        capture.get_mut(..capture_length),
        stretches.get_mut(..stretches_length),
    ) else {
        return refuse(Answer::ShortBuffer as u8);
    };
    put(capture, 0, hits);
    let mut places_true = input.starts_with(&(hits as u32).to_be_bytes());
    let (mut at, mut to, mut end) = (0, 4 + 4 * hits, 0);
    let mut pass = |at: usize, start: usize| {
        if at < start {
            put(stretches, end, at);
            put(stretches, end + 4, start - at);
            end += 8;
        }
    };
    for (k, (start, length)) in found[..hits].iter().enumerate() {
        let (start, length) = (usize::from(*start), usize::from(*length));
        pass(at, start);
        let place = 4 + 4 * k;
        put(capture, place, to);
        places_true &= input.get(place..place + 4) == Some(&(start as u32).to_be_bytes());
        capture[to..to + length].copy_from_slice(&input[start..start + length]);
        to += length;
        at = start + length;
    }
    pass(at, input.len());
    Mended {
        answer: Answer::Done as u8,
        capture_length,
        stretches_length,
        places_true,
    }
}
