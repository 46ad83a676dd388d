//! Damaged captures.

use super::{heading, router_message};
use crate::capture::{mend, Mended};
use crate::checksum;

/// Room that is enough for any output.
const ROOM: usize = 80_000;

fn packet(time: u32, hosts: usize) -> Vec<u8> {
    router_message(heading(time, 7), &vec![(100, -3); hosts])
}

fn numbers(values: &[usize]) -> Vec<u8> {
    let octets = |value: &usize| (*value as u32).to_be_bytes();
    values.iter().flat_map(octets).collect()
}

fn capture_of(packets: &[Vec<u8>]) -> Vec<u8> {
    let mut place = 4 + 4 * packets.len();
    let mut front = vec![packets.len()];
    for packet in packets {
        front.push(place);
        place += packet.len();
    }
    [numbers(&front), packets.concat()].concat()
}

fn mended(input: &[u8]) -> Mended {
    mend(input, ROOM, ROOM).unwrap()
}

#[test]
fn a_whole_capture_comes_back() {
    let packets = [packet(1, 0), packet(2, 4), packet(3, 255)];
    let input = capture_of(&packets);
    let expected = Mended {
        capture: input.clone(),
        stretches: numbers(&[0, 16]),
        places_true: true,
    };
    assert_eq!(mended(&input), expected);
}

#[test]
fn missing_octets_cost_one_packet() {
    let packets = [packet(1, 0), packet(2, 4), packet(3, 1)];
    let mut input = capture_of(&packets);
    // The number, the places and the first packet take 48 octets.
    input.drain(58..61);
    let expected = Mended {
        capture: capture_of(&[packets[0].clone(), packets[2].clone()]),
        stretches: numbers(&[0, 16, 48, 45]),
        places_true: false,
    };
    assert_eq!(mended(&input), expected);
}

#[test]
fn nothing_to_find() {
    let nothing = |stretches: &[usize], places_true| Mended {
        capture: numbers(&[0]),
        stretches: numbers(stretches),
        places_true,
    };
    assert_eq!(mended(&[]), nothing(&[], false));
    assert_eq!(mended(&[0; 3]), nothing(&[0, 3], false));
    assert_eq!(mended(&[0; 4]), nothing(&[0, 4], true));
    assert_eq!(mended(&[0; 90]), nothing(&[0, 90], true));
    assert_eq!(mended(&[1; 90]), nothing(&[0, 90], false));
    let one = packet(5, 0);
    assert_eq!(mended(&one[..31]), nothing(&[0, 31], false));
    assert_eq!(mended(&one[1..]), nothing(&[0, 31], false));
}

#[test]
fn a_packet_at_octet_zero_leaves_no_stretch() {
    let (one, two) = (packet(5, 0), packet(6, 1));
    let both = [one.clone(), two.clone()].concat();
    let expected = Mended {
        capture: capture_of(&[one.clone(), two.clone()]),
        stretches: vec![],
        places_true: false,
    };
    assert_eq!(mended(&both), expected);
    let split = [one.clone(), vec![9], two.clone(), vec![8, 8]].concat();
    let expected = Mended {
        stretches: numbers(&[32, 1, 69, 2]),
        ..expected
    };
    assert_eq!(mended(&split), expected);
}

#[test]
fn the_search_goes_on_behind_a_hit() {
    // A good packet inside another's table: DELAY and OFFSET may be any words.
    let inner = packet(9, 0);
    let words = inner.chunks(4).map(|four| {
        let (high, low) = four.split_at(2);
        let word = |two: &[u8]| u16::from_be_bytes([two[0], two[1]]);
        (word(high), word(low) as i16)
    });
    let outer = router_message(heading(1, 2), &words.collect::<Vec<_>>());
    assert_eq!(outer[32..], inner);
    let whole = mended(&outer);
    assert_eq!(whole.capture, capture_of(std::slice::from_ref(&outer)));
    assert_eq!(whole.stretches, []);
    // With the outer one damaged the inner one is found.
    let mut damaged = outer.clone();
    damaged[20] ^= 1;
    let rest = mended(&damaged);
    assert_eq!(rest.capture, capture_of(&[inner]));
    assert_eq!(rest.stretches, numbers(&[0, 32]));
}

#[test]
fn a_packet_passes_answers_3_to_7() {
    let good = packet(1, 1);
    let found = |change: &dyn Fn(&mut Vec<u8>)| {
        let mut octets = good.clone();
        change(&mut octets);
        octets[10..12].fill(0);
        let sum = checksum::checksum(&octets[..20]);
        octets[10..12].copy_from_slice(&sum.to_be_bytes());
        !mended(&octets).capture.starts_with(&[0, 0, 0, 0])
    };
    assert!(found(&|_| ()));
    assert!(found(&|octets| octets[12] = 77));
    assert!(!found(&|octets| octets[0] = 0x46));
    assert!(!found(&|octets| octets[3] -= 1));
    assert!(!found(&|octets| octets[3] += 1));
    assert!(!found(&|octets| octets[6] = 0x20));
    assert!(!found(&|octets| octets[9] = 17));
    assert!(!found(&|octets| octets[31] = 0));
    assert!(!found(&|octets| octets[30] += 1));
    let mut bad_sum = good.clone();
    bad_sum[8] = 1;
    assert_eq!(mended(&bad_sum).stretches, numbers(&[0, good.len()]));
}

#[test]
fn the_inputs_own_places() {
    let (one, two) = (packet(5, 0), packet(6, 1));
    let returned = |front: &[usize]| {
        let input = [numbers(front), one.clone(), two.clone()].concat();
        mended(&input).places_true
    };
    assert!(returned(&[2, 12, 44]));
    assert!(returned(&[2, 16, 48, 99]));
    assert!(!returned(&[2, 12, 45]));
    assert!(!returned(&[3, 16, 48, 80]));
    assert!(!returned(&[1, 8]));
    assert!(!returned(&[2, 48, 16, 0]));
}

#[test]
fn damage_before_a_good_packet_ends_there() {
    let packets = [packet(1, 2), packet(2, 0), packet(3, 3)];
    let whole = capture_of(&packets);
    let place = whole.len() - packets[1].len() - packets[2].len();
    let before = mended(&whole);
    for cut in 0..place {
        let damaged = [&whole[..cut], &whole[place..]].concat();
        let after = mended(&damaged);
        let both = [packets[1].clone(), packets[2].clone()];
        assert!(after.capture.ends_with(&both.concat()));
        assert!(before.capture.ends_with(&both.concat()));
    }
}

#[test]
fn refusals() {
    assert_eq!(mend(&[0; 65_537], 0, 0), Err(27));
    assert_eq!(mend(&[0; 65_536], 4, 8).map(|all| all.capture.len()), Ok(4));
    assert_eq!(mend(&[0; 65_536], 3, 8), Err(2));
    assert_eq!(mend(&[0; 65_536], 4, 7), Err(2));
    assert_eq!(mend(&[], 3, 0), Err(2));
    assert!(mend(&[], 4, 0).is_ok());
}

#[test]
fn the_output_may_be_longer_than_an_input() {
    let input = packet(1, 0).repeat(2_048);
    let all = mended(&input);
    assert_eq!((all.capture.len(), all.stretches.len()), (73_732, 0));
    assert_eq!(mend(&all.capture, ROOM, ROOM), Err(27));
}
