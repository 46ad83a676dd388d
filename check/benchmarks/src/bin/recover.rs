//! Times the recovery of captures of 65,536 octets beside the fast program of `check/tuned`, in turns.
//!
//! `recover [ROUNDS]`

#[path = "../figures.rs"]
mod figures;

use figures::{in_turns, print_heading, print_load, print_times, rounds};
use hello::capture::{mend, LONGEST, LONGEST_CAPTURE, LONGEST_STRETCHES};
use hello::Answer;
use std::hint::black_box;
use tuned::recover::recover;

/// The folded sum, two octets at a time.
fn folded(octets: &[u8]) -> u32 {
    let words = octets.chunks_exact(2);
    let odd = words.remainder().first().map_or(0, |&o| u32::from(o) << 8);
    let mut sum = odd
        + words
            .map(|w| u32::from(u16::from_be_bytes([w[0], w[1]])))
            .sum::<u32>();
    while sum > 0xFFFF {
        sum = (sum & 0xFFFF) + (sum >> 16);
    }
    sum
}

fn seal(packet: &mut [u8]) {
    for (from, to, at) in [(20, packet.len(), 20), (0, 20, 10)] {
        packet[at..at + 2].fill(0);
        let sum = 0xFFFF - folded(&packet[from..to]) as u16;
        packet[at..at + 2].copy_from_slice(&sum.to_be_bytes());
    }
}

/// A capture of packets of `nhosts` hosts, as many as fit.
fn captured(nhosts: usize) -> Vec<u8> {
    let length = 32 + 4 * nhosts;
    let mut packet = vec![1; length];
    packet[..10].copy_from_slice(&[
        0x45,
        0,
        (length / 256) as u8,
        length as u8,
        0,
        0,
        0,
        0,
        255,
        63,
    ]);
    packet[31] = nhosts as u8;
    seal(&mut packet);
    let count = (LONGEST - 4) / (length + 4);
    let mut octets = (count as u32).to_be_bytes().to_vec();
    (0..count).for_each(|k| octets.extend(((4 + 4 * count + k * length) as u32).to_be_bytes()));
    (0..count).for_each(|_| octets.extend(&packet));
    octets
}

fn repeated(pattern: &[u8]) -> Vec<u8> {
    pattern.iter().copied().cycle().take(LONGEST).collect()
}

/// Every tenth octet starts a header whose checksum is good, of the longest HELLO, whose checksum is not.
fn headers() -> Vec<u8> {
    let mut pattern = [0x45, 255, 0x04, 0x1C, 0, 0, 0, 0, 1, 63];
    let sum = 0xFFFF - folded(&pattern) as u16;
    pattern[4..6].copy_from_slice(&sum.to_be_bytes());
    assert!(folded(&[pattern, pattern].concat()) == 0xFFFF);
    repeated(&pattern)
}

fn noise() -> Vec<u8> {
    let mut state = 891u64;
    let mut octet = || {
        state = state
            .wrapping_mul(6_364_136_223_846_793_005)
            .wrapping_add(1);
        (state >> 56) as u8
    };
    (0..LONGEST).map(|_| octet()).collect()
}

fn main() {
    let inputs = [
        ("noise", noise()),
        ("zeros", vec![0; LONGEST]),
        ("a header's first octet everywhere", vec![0x45; LONGEST]),
        (
            "a candidate at every fourth octet",
            repeated(&[0x45, 63, 0x02, 0xA0]),
        ),
        ("a full header at every tenth octet", headers()),
        ("a capture, NHOSTS 0", captured(0)),
        ("a capture, NHOSTS 4", captured(4)),
        ("a capture, NHOSTS 255", captured(255)),
    ];
    let rounds = rounds(161);
    print_load("before");
    print_heading(rounds, "input", "tuned");
    for (name, input) in &inputs {
        let [mut capture, mut other] = [(); 2].map(|()| vec![0; LONGEST_CAPTURE]);
        let [mut list, mut other_list] = [(); 2].map(|()| vec![0; LONGEST_STRETCHES]);
        let found = mend(input, &mut capture, &mut list);
        assert_eq!(found.answer, Answer::Done.number());
        assert_eq!(found, recover(input, &mut other, &mut other_list));
        assert!(capture == other && list == other_list);
        let times = in_turns(
            rounds,
            [
                Box::new(|count| {
                    for _ in 0..count {
                        black_box(mend(black_box(input), &mut capture, &mut list));
                    }
                }),
                Box::new(|count| {
                    for _ in 0..count {
                        black_box(recover(black_box(input), &mut other, &mut other_list));
                    }
                }),
            ],
        );
        print_times(name, times);
    }
    print_load("after");
}
