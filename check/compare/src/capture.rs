//! Gives the mender of the library and that of the reference the same inputs:
//! whole, cut, shifted and spliced captures, packets within packets, chains of
//! packets and random octets, with outputs of any room, often one octet short.

use crate::random::Random;
use hello::capture::{mend, Mended, LONGEST};
use hello::Answer;
use reference::capture::mend as expected;
use reference::checksum::checksum;

const DONE: u8 = Answer::Done.number();
const SHORT_BUFFER: u8 = Answer::ShortBuffer.number();
const CAPTURE_LENGTH: u8 = Answer::CaptureLength.number();

const INPUTS: usize = 100_000;

/// What the octets beyond the outputs hold before and after.
const FILL: u8 = 0xA5;

fn put(octets: &mut [u8], at: usize, number: u16) {
    octets[at..at + 2].copy_from_slice(&number.to_be_bytes());
}

/// A good packet whose host area is given, four octets for each host.
fn packet(random: &mut Random, hosts: &[u8]) -> Vec<u8> {
    let mut packet = vec![0; 32];
    packet[0] = 0x45;
    packet[1] = random.pick(&[0, 0, 0x10]);
    packet[8] = 255;
    packet[9] = 63;
    packet[12..20].copy_from_slice(&random.octets(8));
    packet[22..31].copy_from_slice(&random.octets(9));
    packet[31] = (hosts.len() / 4) as u8;
    packet.extend(hosts);
    let total = packet.len() as u16;
    put(&mut packet, 2, total);
    let sum = checksum(&packet[20..]);
    put(&mut packet, 20, sum);
    let sum = checksum(&packet[..20]);
    put(&mut packet, 10, sum);
    packet
}

fn any_packet(random: &mut Random) -> Vec<u8> {
    let most = if random.one_in(20) { 256 } else { 6 };
    let hosts = random.below(most);
    let octets = random.octets(4 * hosts);
    packet(random, &octets)
}

/// A packet that holds another one in its host area.
fn nested(random: &mut Random) -> Vec<u8> {
    let before = 4 * random.below(3);
    let behind = 4 * random.below(3);
    let mut area = random.octets(before);
    area.extend(any_packet(random));
    area.extend(random.octets(behind));
    area.truncate(4 * 255);
    packet(random, &area)
}

/// Packets each ending inside the next.
fn chain(random: &mut Random) -> Vec<u8> {
    let mut octets = any_packet(random);
    for _ in 0..1 + random.below(4) {
        let shared = octets[..4 * (1 + random.below(5))].to_vec();
        let front = packet(random, &shared);
        octets.splice(..0, front[..32].iter().copied());
    }
    octets
}

fn packets(random: &mut Random) -> Vec<Vec<u8>> {
    (0..random.below(8))
        .map(|_| match random.below(8) {
            0 => nested(random),
            1 => chain(random),
            _ => any_packet(random),
        })
        .collect()
}

fn capture(packets: &[Vec<u8>]) -> Vec<u8> {
    let mut octets = (packets.len() as u32).to_be_bytes().to_vec();
    let mut place = 4 + 4 * packets.len();
    for packet in packets {
        octets.extend((place as u32).to_be_bytes());
        place += packet.len();
    }
    octets.extend(packets.concat());
    octets
}

/// A capture, whole or damaged in up to three places.
fn damaged(random: &mut Random) -> Vec<u8> {
    let found = packets(random);
    let mut octets = capture(&found);
    for _ in 0..random.below(4) {
        if octets.is_empty() {
            break;
        }
        let at = random.below(octets.len());
        let end = at + random.below(octets.len() - at + 1).min(40);
        match random.below(6) {
            // Octets missing, inserted, overwritten; the end lost; the front lost; a part twice.
            0 => drop(octets.drain(at..end)),
            1 => drop(octets.splice(at..at, random.octets(end - at))),
            2 => octets[at] = random.octet(),
            3 => octets.truncate(at),
            4 => drop(octets.drain(..at)),
            _ => {
                let part = octets[at..].to_vec();
                octets.extend(part);
            }
        }
    }
    octets
}

/// Octets of which many look like the start of a packet.
fn noise(random: &mut Random) -> Vec<u8> {
    let length = random.below(400);
    (0..length)
        .map(|_| random.pick(&[0x45, 0, 0x20, 63, 0xFF, 0x24, 1]))
        .collect()
}

fn input(random: &mut Random, number: usize) -> Vec<u8> {
    match number % 1000 {
        0 => random.octets(LONGEST),
        1 => random.octets(LONGEST + 1),
        2 => vec![0x45; LONGEST + random.below(3) - 1],
        3 => (0..2048).flat_map(|_| packet(random, &[])).collect(),
        _ => match random.below(12) {
            0 => noise(random),
            1 => {
                let length = random.below(200);
                random.octets(length)
            }
            2 => nested(random),
            3 => chain(random),
            _ => damaged(random),
        },
    }
}

/// A room for an output of a length: enough, just enough, one short, or any.
fn room(random: &mut Random, length: usize) -> usize {
    match random.below(8) {
        0 => length.saturating_sub(1),
        1 => random.below(length + 1),
        2 => length,
        _ => length + random.below(50),
    }
}

/// Compares the two on an input; the answer.
fn compare(number: usize, octets: &[u8], rooms: [usize; 2]) -> Result<u8, String> {
    let [mut capture, mut stretches] = rooms.map(|room| vec![FILL; room]);
    let returned = mend(octets, &mut capture, &mut stretches);
    let [mut fast_capture, mut fast_stretches] = rooms.map(|room| vec![FILL; room]);
    let fast = tuned::recover::recover(octets, &mut fast_capture, &mut fast_stretches);
    if returned != fast || capture != fast_capture || stretches != fast_stretches {
        return Err(format!(
            "recovery of {octets:02x?}\ndifference at call {number} in the fast program\n  \
             library: {returned:?}\n  fast: {fast:?}"
        ));
    }
    let [mut right_capture, mut right_stretches] = rooms.map(|room| vec![FILL; room]);
    let right = match expected(octets, rooms[0], rooms[1]) {
        Err(answer) => Mended {
            answer,
            ..Mended::default()
        },
        Ok(found) => {
            right_capture[..found.capture.len()].copy_from_slice(&found.capture);
            right_stretches[..found.stretches.len()].copy_from_slice(&found.stretches);
            Mended {
                answer: DONE,
                capture_length: found.capture.len(),
                stretches_length: found.stretches.len(),
                places_true: found.places_true,
            }
        }
    };
    if returned == right && capture == right_capture && stretches == right_stretches {
        return Ok(returned.answer);
    }
    Err(format!(
        "mend of {octets:02x?}\nrooms: {rooms:?}\ndifference at call {number} in mend\n  \
         library:   {returned:?} {capture:02x?} {stretches:02x?}\n  \
         reference: {right:?} {right_capture:02x?} {right_stretches:02x?}"
    ))
}

/// Compares the two on many inputs, and what was mended on a second mending.
pub fn run(seed: u64) -> Result<(), String> {
    let mut random = Random::new(seed);
    let (mut done, mut short, mut long, mut right) = (0, 0, 0, 0);
    for number in 0..INPUTS {
        let octets = input(&mut random, number);
        let (capture, stretches, places_true) = match expected(&octets, usize::MAX, usize::MAX) {
            Ok(found) => (found.capture, found.stretches.len(), found.places_true),
            Err(_) => Default::default(),
        };
        let rooms = [
            room(&mut random, capture.len()),
            room(&mut random, stretches),
        ];
        match compare(number, &octets, rooms)? {
            DONE => done += 1,
            SHORT_BUFFER => short += 1,
            CAPTURE_LENGTH => long += 1,
            answer => return Err(format!("mend answered {answer}")),
        }
        right += usize::from(places_true);
        if number % 16 == 0 && (1..=LONGEST).contains(&capture.len()) {
            again(&capture)?;
        }
    }
    println!(
        "mend: {INPUTS} inputs; answer 0 {done}, 2 {short}, 27 {long}; with true places {right}"
    );
    if done == 0 || short == 0 || long == 0 || right == 0 {
        return Err("mend: an answer that can occur was never given".into());
    }
    Ok(())
}

/// What was mended mends to itself, with the mark.
fn again(capture: &[u8]) -> Result<(), String> {
    let mut output = vec![FILL; capture.len()];
    let returned = mend(capture, &mut output, &mut [0; 16_392]);
    if returned.answer == DONE && returned.places_true && output == capture {
        return Ok(());
    }
    Err(format!(
        "mend of what was mended, {capture:02x?}: {returned:?}"
    ))
}
