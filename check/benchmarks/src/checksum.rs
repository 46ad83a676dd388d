//! Times the two ways of the checksum beside optimised Rust programs, all on the same octets.

use crate::case::Batch;
use crate::timing::{in_turns, TURNS};
use std::hint::black_box;

/// A HELLO without hosts, one of 255 hosts, and more than any packet has.
const LENGTHS: [usize; 3] = [12, 1_032, 65_536];

/// The library's two ways, then the Rust programs.
const NAMES: [&str; 5] = [
    "plain",
    "second",
    "Rust, wire order",
    "Rust, own order",
    "reference",
];

/// Prints the times, and the second way's beside the quickest Rust program's.
pub fn run() {
    println!("\nChecksum: medians of {TURNS} turns, nanoseconds.\n");
    print!("{:>8}", "octets");
    NAMES.iter().for_each(|name| print!(" {name:>17}"));
    println!(" {:>7}", "ratio");
    for length in LENGTHS {
        let times = in_turns(&mut programs(length));
        let quickest = times[2..].iter().copied().fold(f64::INFINITY, f64::min);
        print!("{length:>8}");
        times.iter().for_each(|time| print!(" {time:>17.1}"));
        println!(" {:>7.2}", times[1] / quickest);
    }
}

/// The programs, each on that many octets.
fn programs(length: usize) -> [Batch; 5] {
    let octets: Vec<u8> = (0..length).map(|i| (i * i / 3 + 7 * i + 1) as u8).collect();
    [
        batch(&octets, hello::checksum_plain),
        batch(&octets, hello::checksum),
        batch(&octets, wire_order),
        batch(&octets, own_order),
        batch(&octets, reference::checksum::checksum),
    ]
}

/// A batch of checksums, each of which must be the reference's.
fn batch(octets: &[u8], checksum: impl Fn(&[u8]) -> u16 + 'static) -> Batch {
    let octets = octets.to_vec();
    let sum = reference::checksum::checksum(&octets);
    Box::new(move |count| {
        for _ in 0..count {
            assert_eq!(checksum(black_box(octets.as_slice())), sum);
        }
    })
}

/// Two octets at a time, in the order of the wire, into 64 bits.
fn wire_order(octets: &[u8]) -> u16 {
    let words = octets.chunks_exact(2);
    let last = words.remainder().first().map_or(0, |x| u64::from(*x) << 8);
    let sum: u64 = words
        .map(|word| u64::from(u16::from_be_bytes([word[0], word[1]])))
        .sum();
    !fold(sum + last)
}

/// The octets of a block, whose words add up within 32 bits.
const BLOCK: usize = 0x1_0000;

/// Two octets at a time, in the machine's own order, a block into 32 bits, and turned at the end.
fn own_order(octets: &[u8]) -> u16 {
    let sum: u64 = octets
        .chunks(BLOCK)
        .map(|block| u64::from(words(block)))
        .sum();
    !u16::from_be(fold(sum))
}

fn words(block: &[u8]) -> u32 {
    let words = block.chunks_exact(2);
    let last = words
        .remainder()
        .first()
        .map_or(0, |x| u16::from_ne_bytes([*x, 0]));
    let sum: u32 = words
        .map(|word| u32::from(u16::from_ne_bytes([word[0], word[1]])))
        .sum();
    sum + u32::from(last)
}

/// Adds the carries back in until 16 bits are left.
fn fold(mut sum: u64) -> u16 {
    while sum > 0xFFFF {
        sum = (sum & 0xFFFF) + (sum >> 16);
    }
    sum as u16
}
