//! Damaged captures: finding the packets again.
//!
//! A capture has 32-bit numbers, high octet first: the number of packets
//! and the place of each from octet 0. The packets follow.

use std::ops::Range;

use crate::packet::{self, HEADER};
use crate::Refusal;

/// The octets of a number or place.
const NUMBER: usize = 4;
/// The longest input.
const INPUT: usize = 65_536;

#[derive(Clone, Debug, Default, PartialEq, Eq)]
pub struct Mended {
    /// A capture of the packets found, one behind the other.
    pub capture: Vec<u8>,
    /// Start and length of each stretch passed over.
    pub stretches: Vec<u8>,
    /// Whether number and places in the input are those of the packets.
    pub places_true: bool,
}

/// Looks for packets, ignoring the input's own places. Refused with 27 where
/// the input is too long, then with 2 where an output has no room.
pub fn mend(input: &[u8], capture_room: usize, stretches_room: usize) -> Result<Mended, u8> {
    if input.len() > INPUT {
        return Err(Refusal::LongInput.into());
    }
    let (hits, stretches) = search(input);
    let mended = Mended {
        capture: capture(input, &hits),
        stretches: list(&stretches),
        places_true: places_are_true(input, &hits),
    };
    if mended.capture.len() > capture_room || mended.stretches.len() > stretches_room {
        return Err(Refusal::ShortBuffer.into());
    }
    Ok(mended)
}

/// The packets found and the stretches passed over, both in order: "a hit is
/// kept and the search continues after it, if not, at the next octet".
fn search(input: &[u8]) -> (Vec<Range<usize>>, Vec<Range<usize>>) {
    let (mut hits, mut stretches) = (Vec::new(), Vec::new());
    let mut at = 0;
    let mut passed_from = 0;
    while at < input.len() {
        let Some(length) = packet_length(&input[at..]) else {
            at += 1;
            continue;
        };
        if passed_from < at {
            stretches.push(passed_from..at);
        }
        hits.push(at..at + length);
        at += length;
        passed_from = at;
    }
    if passed_from < at {
        stretches.push(passed_from..at);
    }
    (hits, stretches)
}

/// The length of the packet at the start of the octets, if it "passes the
/// tests for 3 to 7, as long as its IP header says".
fn packet_length(octets: &[u8]) -> Option<usize> {
    let header = octets.get(..HEADER)?;
    let length = usize::from(header[2]) * 256 + usize::from(header[3]);
    packet::hello_of(octets.get(..length)?).ok()?;
    Some(length)
}

fn capture(input: &[u8], hits: &[Range<usize>]) -> Vec<u8> {
    let mut capture = number(hits.len()).to_vec();
    let mut place = NUMBER + NUMBER * hits.len();
    for hit in hits {
        capture.extend(number(place));
        place += hit.len();
    }
    for hit in hits {
        capture.extend(&input[hit.clone()]);
    }
    capture
}

fn list(stretches: &[Range<usize>]) -> Vec<u8> {
    let mut list = Vec::new();
    for stretch in stretches {
        list.extend(number(stretch.start));
        list.extend(number(stretch.len()));
    }
    list
}

fn places_are_true(input: &[u8], hits: &[Range<usize>]) -> bool {
    let mut own = number(hits.len()).to_vec();
    for hit in hits {
        own.extend(number(hit.start));
    }
    input.starts_with(&own)
}

fn number(value: usize) -> [u8; NUMBER] {
    (value as u32).to_be_bytes()
}
