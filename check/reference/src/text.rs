//! Messages on paper: a HELLO, without its IP header, as text and back.
//!
//! First line `hello DATE TIME TSP BASE N`, then N lines `DELAY OFFSET`; a
//! newline ends each line. There are no leading zeros and no `-0`.

use crate::date::Date;
use crate::packet::{self, Heading, HELLO, HOST};
use crate::Refusal;

/// The text of a message, whatever its checksum. Refused with 6 where the
/// length is wrong, then with 2 where the text is longer than the room.
pub fn to_text(message: &[u8], room: usize) -> Result<Vec<u8>, u8> {
    if message.len() < HELLO || message.len() != packet::hello_length(message[11].into()) {
        return Err(Refusal::HelloForm.into());
    }
    let two = |at: usize| u16::from_be_bytes([message[at], message[at + 1]]);
    let time = u32::from(two(4)) * 65_536 + u32::from(two(6));
    let (date, tsp, base, n) = (two(2), two(8), message[10], message[11]);
    let mut text = format!("hello {date} {time} {tsp} {base} {n}\n");
    for at in (HELLO..message.len()).step_by(HOST) {
        let (delay, offset) = (two(at), two(at + 2) as i16);
        text.push_str(&format!("{delay} {offset}\n"));
    }
    fitting(text.into_bytes(), room)
}

/// The message of a text, with the checksum that a sender computes. Refused
/// with 14 for any other form, then 15 for a number that doesn't fit its
/// field, then 2 where the message is longer than the room.
pub fn from_text(text: &[u8], room: usize) -> Result<Vec<u8>, u8> {
    let paper = Paper::read(text).ok_or(Refusal::TextForm)?;
    let message = paper.message().ok_or(Refusal::TextNumber)?;
    fitting(message, room)
}

fn fitting(octets: Vec<u8>, room: usize) -> Result<Vec<u8>, u8> {
    if octets.len() > room {
        return Err(Refusal::ShortBuffer.into());
    }
    Ok(octets)
}

/// A text of the right form: its numbers, each as it is written.
struct Paper<'a> {
    /// DATE, TIME, TSP, BASE and N.
    heading: [&'a str; 5],
    /// DELAY and OFFSET of each line.
    hosts: Vec<[&'a str; 2]>,
}

impl<'a> Paper<'a> {
    fn read(text: &'a [u8]) -> Option<Paper<'a>> {
        let text = std::str::from_utf8(text).ok()?;
        let mut lines = text.strip_suffix('\n')?.split('\n');
        let heading = words(lines.next()?.strip_prefix("hello ")?)?;
        let hosts: Vec<[&str; 2]> = lines.map(words).collect::<Option<_>>()?;
        // N may have any length; it is compared as it is written.
        let right = heading.iter().all(|word| is_number(word))
            && hosts.iter().all(|[delay, offset]| {
                is_number(delay) && (is_number(offset) || is_negative(offset))
            })
            && heading[4] == hosts.len().to_string();
        right.then_some(Paper { heading, hosts })
    }

    /// The message, if every number fits its field.
    fn message(&self) -> Option<Vec<u8>> {
        let [date, time, tsp, base, n] = self.heading;
        let heading = Heading {
            date: Date(date.parse().ok()?),
            time: time.parse().ok()?,
            tsp: tsp.parse().ok()?,
            address_offset: base.parse().ok()?,
        };
        let n: u8 = n.parse().ok()?;
        let mut hosts = Vec::new();
        for [delay, offset] in &self.hosts {
            hosts.push((delay.parse().ok()?, offset.parse().ok()?));
        }
        let mut message = vec![0; packet::hello_length(n.into())];
        packet::write_hello(&mut message, &heading, hosts.into_iter());
        Some(message)
    }
}

/// The words of a line, if there are that many, with single spaces between.
fn words<const COUNT: usize>(line: &str) -> Option<[&str; COUNT]> {
    line.split(' ').collect::<Vec<_>>().try_into().ok()
}

/// Whether a word is a decimal number without leading zeros.
fn is_number(word: &str) -> bool {
    word == "0" || is_above_zero(word)
}

fn is_negative(word: &str) -> bool {
    word.strip_prefix('-').is_some_and(is_above_zero)
}

fn is_above_zero(word: &str) -> bool {
    !word.starts_with('0') && !word.is_empty() && word.bytes().all(|octet| octet.is_ascii_digit())
}
