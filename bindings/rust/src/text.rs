//! Messages on paper: a HELLO (the message without the IP header) as text, and back.
//!
//! A refusal is [`Answer::HelloForm`] for a message of wrong length, [`Answer::TextForm`] for text of
//! another form, [`Answer::FieldRange`] for a number that does not fit its field, and, from the
//! functions that write into a buffer, [`Answer::ShortBuffer`]. It does not change the buffer.

use crate::answer::result;
use crate::Answer;

/// The octets of the longest message, that of 255 hosts.
pub const LONGEST_HELLO: usize = 1_032;
/// No text of a message has more octets.
pub const LONGEST_TEXT: usize = 3_352;

#[repr(C)]
struct Written {
    answer: u8,
    length: usize,
}

const _: () = {
    use std::mem::{align_of, offset_of, size_of};
    assert!(size_of::<Written>() == 16 && align_of::<Written>() == 8);
    assert!(offset_of!(Written, answer) == 0);
    assert!(offset_of!(Written, length) == 8);
};

extern "C" {
    fn hello_to_text(
        message: *const u8,
        message_length: usize,
        buffer: *mut u8,
        buffer_length: usize,
    ) -> Written;
    fn hello_from_text(
        text: *const u8,
        text_length: usize,
        buffer: *mut u8,
        buffer_length: usize,
    ) -> Written;
}

/// The text of a message.
///
/// ```
/// use hello::text;
///
/// let message = text::from_text("hello 12331 3600000 4660 1 0\n")?;
/// assert_eq!(text::to_text(&message)?, "hello 12331 3600000 4660 1 0\n");
/// # Ok::<(), hello::Answer>(())
/// ```
pub fn to_text(message: &[u8]) -> Result<String, Answer> {
    let mut buffer = vec![0; LONGEST_TEXT];
    let length = to_text_into(message, &mut buffer)?;
    buffer.truncate(length);
    Ok(String::from_utf8(buffer).expect("a text is ASCII"))
}

/// The message of a text, with the checksum that a sender computes.
pub fn from_text(text: &str) -> Result<Vec<u8>, Answer> {
    let mut buffer = vec![0; LONGEST_HELLO];
    let length = from_text_into(text.as_bytes(), &mut buffer)?;
    buffer.truncate(length);
    Ok(buffer)
}

/// Writes the text of a message to the start of a buffer: its length.
pub fn to_text_into(message: &[u8], buffer: &mut [u8]) -> Result<usize, Answer> {
    // SAFETY: slices are valid for their lengths, and do not overlap since one is borrowed mutably.
    let written = unsafe {
        hello_to_text(
            message.as_ptr(),
            message.len(),
            buffer.as_mut_ptr(),
            buffer.len(),
        )
    };
    result(written.answer, written.length)
}

/// Writes the message of a text to the start of a buffer: its length.
pub fn from_text_into(text: &[u8], buffer: &mut [u8]) -> Result<usize, Answer> {
    // SAFETY: slices are valid for their lengths, and do not overlap since one is borrowed mutably.
    let written =
        unsafe { hello_from_text(text.as_ptr(), text.len(), buffer.as_mut_ptr(), buffer.len()) };
    result(written.answer, written.length)
}
