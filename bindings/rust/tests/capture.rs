//! The mender: the sizes of what it writes, and its refusals.

use hello::capture::*;
use hello::Answer;

const DONE: u8 = Answer::Done.number();

/// A good packet without hosts.
const PACKET: [u8; 32] = [
    0x45, 0x00, 0x00, 0x20, 0x00, 0x00, 0x00, 0x00, 0xff, 0x3f, 0x37, 0x9b, 0xc0, 0x00, 0x02, 0x01,
    0xc0, 0x00, 0x02, 0x02, 0xca, 0xec, 0x30, 0x2b, 0x00, 0x00, 0x03, 0xe8, 0x00, 0x00, 0x01, 0x00,
];

/// What the mender answers and leaves in outputs of such sizes, filled with sevens.
fn mended(input: &[u8], room: usize, list_room: usize) -> (Mended, Vec<u8>, Vec<u8>) {
    let (mut capture, mut stretches) = (vec![7; room], vec![7; list_room]);
    let answer = mend(input, &mut capture, &mut stretches);
    (answer, capture, stretches)
}

#[test]
fn a_whole_capture_mends_to_itself() {
    let capture = [&[0, 0, 0, 1, 0, 0, 0, 8][..], &PACKET].concat();
    let (returned, output, stretches) = mended(&capture, 41, 9);
    assert_eq!(
        returned,
        Mended {
            answer: DONE,
            capture_length: 40,
            stretches_length: 8,
            places_true: true
        }
    );
    assert_eq!(output, [&capture[..], &[7]].concat());
    assert_eq!(stretches, [0, 0, 0, 0, 0, 0, 0, 8, 7]);
}

#[test]
fn nothing_is_found_in_nothing() {
    let (returned, output, _) = mended(&[], 4, 0);
    assert_eq!(
        (
            returned.answer,
            returned.capture_length,
            returned.stretches_length
        ),
        (DONE, 4, 0)
    );
    assert!(!returned.places_true);
    assert_eq!(output, [0; 4]);
}

#[test]
fn refusals_leave_both_outputs() {
    let short = Mended {
        answer: Answer::ShortBuffer.number(),
        ..Mended::default()
    };
    assert_eq!(mended(&PACKET, 39, 0), (short, vec![7; 39], vec![]));
    assert_eq!(mended(&[1; 9], 4, 7), (short, vec![7; 4], vec![7; 7]));
    let long = Mended {
        answer: Answer::CaptureLength.number(),
        ..Mended::default()
    };
    assert_eq!(mended(&[0; LONGEST + 1], 3, 0), (long, vec![7; 3], vec![]));
    assert_eq!(mended(&[0; LONGEST], 4, 8).0.answer, DONE);
}

#[test]
fn the_outputs_have_the_room_that_they_can_need() {
    let input = PACKET.repeat(LONGEST / PACKET.len());
    let (returned, ..) = mended(&input, LONGEST_CAPTURE, LONGEST_STRETCHES);
    assert_eq!(
        (returned.answer, returned.capture_length),
        (DONE, LONGEST_CAPTURE)
    );
}
