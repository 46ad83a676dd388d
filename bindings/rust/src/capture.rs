//! Recovery of damaged captures.
//!
//! A capture has 32-bit numbers, high octet first: the number of packets and the place of each
//! from octet 0. The packets follow. Recovery ignores the places and looks for the packets themselves.

use crate::answer::given;
use crate::Answer;

/// The longest input that is taken, in octets.
pub const LONGEST: usize = 65_536;

/// The most octets that the recovered capture of an input can have.
pub const LONGEST_CAPTURE: usize = 73_732;

/// The most octets that the list of stretches of an input can have.
pub const LONGEST_STRETCHES: usize = 16_392;

/// What [`mend`] returns; zeros if it refuses.
#[repr(C)]
#[derive(Clone, Copy, Debug, PartialEq, Eq, Default)]
pub struct Mended {
    /// The number of the answer.
    pub answer: u8,
    /// The octets written to the capture.
    pub capture_length: usize,
    /// The octets written to the list of stretches: two numbers, start and length, for each.
    pub stretches_length: usize,
    /// Whether number and places in the input are those of the packets found.
    pub places_true: bool,
}

/// Octets that were passed over.
#[derive(Clone, Copy, Debug, PartialEq, Eq)]
pub struct Stretch {
    /// The first of them.
    pub start: u32,
    /// How many there are.
    pub length: u32,
}

/// What recovery finds.
#[derive(Clone, Debug, PartialEq, Eq)]
pub struct Recovered {
    /// A capture of the packets found.
    pub capture: Vec<u8>,
    /// The stretches passed over.
    pub stretches: Vec<Stretch>,
    /// Whether number and places in the input are those of the packets found.
    pub places_true: bool,
}

/// Finds the packets of a damaged capture. Refused with [`Answer::CaptureLength`] if the input has over
/// [`LONGEST`] octets.
pub fn recover(input: &[u8]) -> Result<Recovered, Answer> {
    let mut capture = vec![0; LONGEST_CAPTURE];
    let mut list = vec![0; LONGEST_STRETCHES];
    let found = mend(input, &mut capture, &mut list);
    given(found.answer).ok()?;
    capture.truncate(found.capture_length);
    let number = |octets: &[u8]| u32::from_be_bytes(octets.try_into().expect("four octets"));
    let stretch = |octets: &[u8]| Stretch {
        start: number(&octets[..4]),
        length: number(&octets[4..]),
    };
    Ok(Recovered {
        capture,
        stretches: list[..found.stretches_length]
            .chunks(8)
            .map(stretch)
            .collect(),
        places_true: found.places_true,
    })
}

const _: () = {
    use std::mem::{align_of, offset_of, size_of};
    assert!(size_of::<Mended>() == 32 && align_of::<Mended>() == 8);
    assert!(offset_of!(Mended, answer) == 0);
    assert!(offset_of!(Mended, capture_length) == 8);
    assert!(offset_of!(Mended, stretches_length) == 16);
    assert!(offset_of!(Mended, places_true) == 24);
};

extern "C" {
    fn hello_mend(
        input: *const u8,
        input_length: usize,
        capture: *mut u8,
        capture_length: usize,
        stretches: *mut u8,
        stretches_length: usize,
    ) -> Mended;
}

/// Writes a capture of the packets that are found in the input, and a list of the stretches passed over,
/// into buffers of the caller: [`recover`] without allocation. Octets of the outputs beyond what is written stay.
pub fn mend(input: &[u8], capture: &mut [u8], stretches: &mut [u8]) -> Mended {
    // SAFETY: slices are valid for their lengths, and do not overlap since two are borrowed mutably.
    unsafe {
        hello_mend(
            input.as_ptr(),
            input.len(),
            capture.as_mut_ptr(),
            capture.len(),
            stretches.as_mut_ptr(),
            stretches.len(),
        )
    }
}
