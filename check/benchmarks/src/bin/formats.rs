//! Times messages as text and NTP packets beside the reference program, in turns. The text has 255
//! hosts. `check/tuned` has neither.
//!
//! `formats [ROUNDS]`

#[path = "../../../compare/src/convert.rs"]
#[allow(dead_code)]
mod convert;
#[path = "../figures.rs"]
mod figures;
#[path = "../host.rs"]
#[allow(dead_code)]
mod host;

use figures::{in_turns, print_heading, print_load, print_times, rounds, Batch};
use hello::ntp::{NtpAssociation, NtpHeader};
use hello::text::{from_text_into, to_text_into, LONGEST_HELLO, LONGEST_TEXT};
use std::hint::black_box;

/// A batch of calls.
fn batch<'a, T>(mut call: impl FnMut() -> T + 'a) -> Batch<'a> {
    Box::new(move |count| {
        for _ in 0..count {
            black_box(call());
        }
    })
}

fn main() {
    let rounds = rounds(161);
    let message = &host::message(255)[20..];
    let (mut text, mut back) = (vec![0; LONGEST_TEXT], vec![0; LONGEST_HELLO]);
    let length = to_text_into(message, &mut text).unwrap();
    let written = text[..length].to_vec();
    assert_eq!(
        Ok(written.clone()),
        reference::text::to_text(message, LONGEST_TEXT)
    );
    assert_eq!(from_text_into(&written, &mut back), Ok(message.len()));
    assert_eq!(
        Ok(back.clone()),
        reference::text::from_text(&written, LONGEST_HELLO)
    );

    // A server's reply to a client's packet, in time.
    let header = NtpHeader {
        version: 4,
        mode: 4,
        origin: 1 << 40,
        receive: (1 << 40) + 5,
        transmit: (1 << 40) + 6,
        ..NtpHeader::default()
    };
    let association = NtpAssociation {
        number: 3,
        transmit: 1 << 40,
        saved: 0,
    };
    let twin = || reference::ntp::Association {
        number: association.number,
        transmit: association.transmit,
        saved: association.saved,
    };
    let arrived = (1 << 40) + 9;
    let octets = hello::ntp::write(&header).unwrap();
    let fields = reference::ntp::read(&octets).unwrap();
    assert_eq!(reference::ntp::write(&fields), Ok(octets));

    print_load("before");
    print_heading(rounds, "call", "reference");
    print_times(
        "text of a message, 255 hosts",
        in_turns(
            rounds,
            [
                batch(|| to_text_into(black_box(message), &mut text)),
                batch(|| reference::text::to_text(black_box(message), LONGEST_TEXT)),
            ],
        ),
    );
    print_times(
        "message of a text, 255 hosts",
        in_turns(
            rounds,
            [
                batch(|| from_text_into(black_box(&written), &mut back)),
                batch(|| reference::text::from_text(black_box(&written), LONGEST_HELLO)),
            ],
        ),
    );
    print_times(
        "NTP header read",
        in_turns(
            rounds,
            [
                batch(|| hello::ntp::read(black_box(&octets))),
                batch(|| reference::ntp::read(black_box(&octets))),
            ],
        ),
    );
    print_times(
        "NTP header written",
        in_turns(
            rounds,
            [
                batch(|| hello::ntp::write(black_box(&header))),
                batch(|| reference::ntp::write(black_box(&fields))),
            ],
        ),
    );
    print_times(
        "NTP reply received",
        in_turns(
            rounds,
            [
                batch(|| {
                    let mut association = black_box(association);
                    hello::ntp::receive(&mut association, black_box(&octets), arrived)
                        .unwrap()
                        .offset
                }),
                batch(|| {
                    let mut association = black_box(twin());
                    reference::ntp::receive(&mut association, black_box(&octets), arrived)
                        .unwrap()
                        .offset
                }),
            ],
        ),
    );
    print_load("after");
}
