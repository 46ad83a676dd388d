//! The successor.

use crate::ntp::{delay, offset, read, receive, write};
use crate::ntp::{Association, Header, Outcome, DISPATCH};

const HEADER: Header = Header {
    leap: 3,
    version: 4,
    mode: 4,
    stratum: 2,
    poll: -3,
    precision: -20,
    root_delay: 0x0102_0304,
    root_dispersion: 0x0506_0708,
    reference_id: 0x4749_5453,
    reference: 0xE000_0000_0000_0001,
    origin: 1_000,
    receive: 1_500,
    transmit: 1_600,
};

const ASSOCIATION: Association = Association {
    number: 3,
    transmit: 1_000,
    saved: 7,
};

const SECOND: u64 = 1 << 32;

/// Takes the packet of a header; the association is unchanged if refused.
fn taken(
    association: Association,
    header: Header,
    destination: u64,
) -> Result<(Outcome, Association), u8> {
    let mut after = association;
    let outcome = receive(&mut after, &write(&header).unwrap(), destination);
    assert!(outcome.is_ok() || after == association);
    outcome.map(|outcome| (outcome, after))
}

#[test]
fn a_header_is_written_and_read() {
    let octets = write(&HEADER).unwrap();
    assert_eq!(octets[..8], [0xE4, 2, 0xFD, 0xEC, 1, 2, 3, 4]);
    assert_eq!(octets[12..17], *b"GITS\xE0");
    assert_eq!(octets[46..], [0x06, 0x40]);
    assert_eq!(read(&octets), Ok(HEADER));
    for first in 0..=255 {
        let mut other = octets;
        other[0] = first;
        let answer = match read(&other) {
            Ok(header) => {
                assert_eq!(write(&header), Ok(other));
                0
            }
            Err(number) => number,
        };
        let expected = match (first >> 3 & 7, first & 7) {
            (4, 1..=5) => 0,
            (4, _) => 25,
            _ => 24,
        };
        assert_eq!(answer, expected);
    }
}

#[test]
fn headers_are_refused() {
    let octets = write(&HEADER).unwrap();
    assert_eq!(read(&octets[..47]), Err(23));
    assert_eq!(read(&[0; 49]), Err(23));
    assert_eq!(read(&[]), Err(23));
    assert_eq!(read(&[0; 48]), Err(24));
    let refused = |change: &dyn Fn(&mut Header)| {
        let mut header = HEADER;
        change(&mut header);
        write(&header).err()
    };
    assert_eq!(refused(&|_| ()), None);
    assert_eq!(refused(&|header| header.version = 3), Some(24));
    assert_eq!(refused(&|header| header.version = 12), Some(24));
    assert_eq!(refused(&|header| header.leap = 4), Some(25));
    assert_eq!(refused(&|header| header.mode = 0), Some(25));
    assert_eq!(refused(&|header| header.mode = 6), Some(25));
    assert_eq!(refused(&|header| header.mode = 12), Some(25));
    assert_eq!(
        refused(&|header| (header.version, header.leap) = (5, 4)),
        Some(24)
    );
}

#[test]
fn the_table_of_section_9_2() {
    // "NEWPS DSCRD FXMIT MANY NEWBC" and so on, by the RFC's own numbers.
    let printed = [
        [5, 0, 3, 4, 6],
        [1, 1, 0, 0, 0],
        [1, -1, 0, 0, 0],
        [0, 0, 0, 1, 0],
        [0, 0, 0, 0, 0],
        [0, 0, 0, 0, 0],
        [0, 0, 0, 0, 1],
    ];
    assert_eq!(DISPATCH, printed);
    for number in 0..=255 {
        for mode in 1..=5 {
            let association = Association {
                number,
                ..ASSOCIATION
            };
            let header = Header { mode, ..HEADER };
            let returned = taken(association, header, 2_000);
            let Some(row) = printed.get(usize::from(number)) else {
                assert_eq!(returned, Err(25));
                continue;
            };
            let (outcome, after) = returned.unwrap();
            assert_eq!(outcome.action, row[usize::from(mode) - 1]);
            if outcome.action == 1 {
                assert_eq!((outcome.offset, outcome.delay), (50, 900));
                assert_eq!(after.saved, 1_600);
            } else {
                assert_eq!((outcome.offset, outcome.delay), (0, 0));
                assert_eq!(after, association);
            }
        }
    }
}

#[test]
fn the_four_timestamp_tests() {
    let passed = taken(ASSOCIATION, HEADER, 2_000).unwrap().1;
    let stored = Association {
        saved: 1_600,
        ..ASSOCIATION
    };
    assert_eq!(passed, stored);
    // A duplicate.
    assert_eq!(taken(passed, HEADER, 2_000), Err(26));
    let with = |change: &dyn Fn(&mut Association, &mut Header)| {
        let (mut association, mut header) = (ASSOCIATION, HEADER);
        change(&mut association, &mut header);
        taken(association, header, 2_000).err()
    };
    assert_eq!(with(&|_, header| header.transmit = 0), Some(26));
    assert_eq!(with(&|_, header| header.transmit = 7), Some(26));
    assert_eq!(with(&|_, header| header.origin = 999), Some(26));
    assert_eq!(with(&|_, header| header.origin = 0), Some(26));
    assert_eq!(
        with(&|own, header| (own.transmit, header.origin) = (0, 0)),
        None
    );
    assert_eq!(with(&|own, _| own.saved = 0), None);
    // On broadcast too.
    let broadcast = |own: &mut Association, header: &mut Header| {
        (own.number, header.mode, header.origin) = (6, 5, 0);
    };
    assert_eq!(with(&broadcast), Some(26));
}

#[test]
fn later_is_a_signed_difference_above_zero() {
    let answer = |destination: u64| taken(ASSOCIATION, HEADER, destination).err();
    assert_eq!(answer(1_000), Some(26));
    assert_eq!(answer(1_001), None);
    assert_eq!(answer(999), Some(26));
    assert_eq!(answer(1_000 + (1 << 63)), Some(26));
    assert_eq!(answer(999 + (1 << 63)), None);
}

#[test]
fn refusals_in_order() {
    let mut beyond = Association {
        number: 7,
        ..ASSOCIATION
    };
    let mut octets = write(&HEADER).unwrap();
    assert_eq!(receive(&mut beyond, &octets[1..], 0), Err(23));
    assert_eq!(receive(&mut beyond, &octets, 0), Err(25));
    octets[0] = 0xDC;
    assert_eq!(receive(&mut beyond, &octets, 0), Err(24));
    octets[0] = 0xE6;
    assert_eq!(receive(&mut ASSOCIATION.clone(), &octets, 0), Err(25));
    octets[0] = 0xE4;
    assert_eq!(receive(&mut ASSOCIATION.clone(), &octets, 0), Err(26));
}

#[test]
fn offset_and_delay() {
    // B is half a second ahead; ways of 30 and 51 ms, as HELLO would see them.
    let ms = |count: u64| SECOND * count / 1_000;
    let (t1, t2, t3, t4) = (ms(40_000), ms(40_530), ms(45_530), ms(45_081));
    let half_difference = offset(t1, t2, t3, t4) * 1_000 / SECOND as i64;
    assert_eq!(half_difference, 489);
    assert!((delay(t1, t2, t3, t4) - ms(81) as i64).abs() <= 4);
    assert_eq!(offset(0, 1, 0, 0), 0);
    assert_eq!(offset(1, 0, 0, 0), -1);
    assert_eq!(delay(0, 0, 0, 1), 1);
}

#[test]
fn times_pass_the_end_of_the_era() {
    let (t1, t2, t3, t4) = (u64::MAX - 9, 20, 30, 10);
    assert_eq!(offset(t1, t2, t3, t4), 25);
    assert_eq!(delay(t1, t2, t3, t4), 10);
}

#[test]
fn the_sum_is_whole_before_it_is_halved() {
    let half = 1 << 63;
    assert_eq!(offset(0, half - 1, half - 1, 0), i64::MAX);
    assert_eq!(offset(0, half, half, 0), i64::MIN);
    assert_eq!(offset(0, half, half - 1, 0), -1);
    // The delay goes round.
    assert_eq!(delay(0, half, 0, half - 1), -1);
    assert_eq!(delay(0, 1, 0, half - 1), i64::MIN);
}
