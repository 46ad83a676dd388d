//! Messages on paper.

use super::{hello, message_from, router_message, ROUTER};
use crate::packet::{Heading, HEADER};
use crate::text::{from_text, to_text};
use crate::*;

const ROOM: usize = 10_000;

fn text(message: &[u8]) -> String {
    String::from_utf8(to_text(message, ROOM).unwrap()).unwrap()
}

fn message(text: &str) -> Result<Vec<u8>, u8> {
    from_text(text.as_bytes(), ROOM)
}

#[test]
fn the_message_of_the_blackboard() {
    let blackboard = hello(0x302B, 3_600_000, 0x1234, 1);
    let line = "hello 12331 3600000 4660 1 0\n";
    assert_eq!(text(&blackboard), line);
    assert_eq!(message(line), Ok(blackboard.to_vec()));
}

#[test]
fn a_table_goes_over_and_back() {
    let heading = Heading {
        date: Date(0xFFFF),
        time: u32::MAX,
        tsp: 0xFFFF,
        address_offset: 255,
    };
    let hosts = [(0, 0), (65_535, -32_768), (30_000, 32_767), (100, -1)];
    let hello = &router_message(heading, &hosts)[HEADER..];
    let lines = "hello 65535 4294967295 65535 255 4\n0 0\n65535 -32768\n30000 32767\n100 -1\n";
    assert_eq!(text(hello), lines);
    assert_eq!(message(lines), Ok(hello.to_vec()));
}

#[test]
fn as_many_hosts_as_there_can_be() {
    let heading = super::heading(1, 2);
    let hosts: Vec<(u16, i16)> = (0..255).map(|id| (id * 257, -(id as i16) * 128)).collect();
    let hello = &message_from(ROUTER, heading, &hosts)[HEADER..];
    assert_eq!(message(&text(hello)), Ok(hello.to_vec()));
    let short = [&hello[..11], &[254], &hello[12..]].concat();
    assert_eq!(to_text(&short, ROOM), Err(6));
}

#[test]
fn the_writer_looks_at_the_length_alone() {
    assert_eq!(text(&[0; 12]), "hello 0 0 0 0 0\n");
    assert_eq!(
        text(&[255, 255, 255, 255, 0, 0, 0, 1, 0, 0, 0, 0]),
        "hello 65535 1 0 0 0\n"
    );
    assert_eq!(to_text(&[], ROOM), Err(6));
    assert_eq!(to_text(&[0; 11], ROOM), Err(6));
    assert_eq!(to_text(&[0; 13], ROOM), Err(6));
    assert_eq!(to_text(&[0; 16], 0), Err(6));
    let mut one = [0; 16];
    one[11] = 1;
    assert_eq!(text(&one), "hello 0 0 0 0 1\n0 0\n");
    assert_eq!(to_text(&one[..12], ROOM), Err(6));
    assert_eq!(to_text(&one, 20).map(|text| text.len()), Ok(20));
    assert_eq!(to_text(&one, 19), Err(2));
}

#[test]
fn the_reader_makes_the_senders_checksum() {
    // The other words fold to FFFF: both 0000 and FFFF are good.
    let mut hello = hello(0xFFFF, 0, 0, 0);
    assert_eq!(hello[..2], [0, 0]);
    assert_eq!(message(&text(&hello)), Ok(hello.to_vec()));
    hello[..2].fill(0xFF);
    assert!(checksum::is_good(&hello));
    assert_eq!(message(&text(&hello)).unwrap()[..2], [0, 0]);
    assert_eq!(message("hello 0 0 0 0 0\n").unwrap()[..2], [0xFF, 0xFF]);
}

#[test]
fn any_other_form_is_refused() {
    let forms = [
        "",
        "\n",
        "hello",
        "hello\n",
        "hello 1 2 3 4 0",
        "hello 1 2 3 4 0\n\n",
        "\nhello 1 2 3 4 0\n",
        "hello 1 2 3 4 0\r\n",
        "hello 1 2 3 4 0 \n",
        " hello 1 2 3 4 0\n",
        "hello  1 2 3 4 0\n",
        "hello 1 2 3  4 0\n",
        "hello\t1 2 3 4 0\n",
        "Hello 1 2 3 4 0\n",
        "HELLO 1 2 3 4 0\n",
        "hallo 1 2 3 4 0\n",
        "hello 1 2 3 4\n",
        "hello 1 2 3 4 0 0\n",
        "hello 01 2 3 4 0\n",
        "hello 1 00 3 4 0\n",
        "hello +1 2 3 4 0\n",
        "hello -1 2 3 4 0\n",
        "hello 1 2 -3 4 0\n",
        "hello 1 2 3 4 -0\n",
        "hello 1 2 3 4 0x\n",
        "hello 1 2 3 4 0\n5 6\n",
        "hello 1 2 3 4 1\n",
        "hello 1 2 3 4 1\n\n",
        "hello 1 2 3 4 1\n5\n",
        "hello 1 2 3 4 1\n5 6",
        "hello 1 2 3 4 1\n5 6 7\n",
        "hello 1 2 3 4 1\n5  6\n",
        "hello 1 2 3 4 1\n5 6\n\n",
        "hello 1 2 3 4 1\n-5 6\n",
        "hello 1 2 3 4 1\n5 -0\n",
        "hello 1 2 3 4 1\n5 -06\n",
        "hello 1 2 3 4 1\n5 06\n",
        "hello 1 2 3 4 1\n5 --6\n",
        "hello 1 2 3 4 1\n5 +6\n",
        "hello 1 2 3 4 1\n5 -\n",
        "hello 1 2 3 4 1\n5 6\n7 8\n",
        "hello 1 2 3 4 2\n5 6\n",
    ];
    for form in forms {
        assert_eq!(message(form), Err(14), "{form:?}");
    }
    assert_eq!(from_text(b"hello 1 2 3 4 0\n\xFF\n", ROOM), Err(14));
    assert_eq!(from_text(b"hello 1 2 3 4 1\n5 \xC3\xA9\n", ROOM), Err(14));
    assert!(message("hello 1 2 3 4 1\n5 -6\n").is_ok());
}

#[test]
fn numbers_that_do_not_fit() {
    let large = [
        "hello 65536 2 3 4 0\n",
        "hello 1 4294967296 3 4 0\n",
        "hello 1 2 65536 4 0\n",
        "hello 1 2 3 256 0\n",
        "hello 1 2 3 4 1\n65536 6\n",
        "hello 1 2 3 4 1\n5 32768\n",
        "hello 1 2 3 4 1\n5 -32769\n",
        "hello 99999999999999999999999999999999999999999999999999 2 3 4 0\n",
        "hello 1 2 3 4 1\n5 -99999999999999999999999999999999999999999999999\n",
    ];
    for text in large {
        assert_eq!(message(text), Err(15), "{text:?}");
        assert_eq!(from_text(text.as_bytes(), 0), Err(15), "{text:?}");
    }
    // Any fault of form beats every 15.
    assert_eq!(message("hello 65536 2 3 4 1\n5 -0\n"), Err(14));
    assert_eq!(message("hello 65536 2 3 4 1\n"), Err(14));
}

#[test]
fn the_lines_are_counted_as_a_whole_number() {
    let lines = |n: &str, count: usize| {
        let text = format!("hello 1 2 3 4 {n}\n{}", "5 6\n".repeat(count));
        message(&text).map(|message| message.len())
    };
    assert_eq!(lines("255", 255), Ok(1_032));
    assert_eq!(lines("256", 256), Err(15));
    assert_eq!(lines("256", 255), Err(14));
    assert_eq!(lines("256", 0), Err(14));
    assert_eq!(lines("4294967296", 0), Err(14));
    assert_eq!(lines(&"1".repeat(50), 0), Err(14));
    assert_eq!(lines("18446744073709551617", 1), Err(14));
}

#[test]
fn a_short_room_is_refused_last() {
    let line = b"hello 12331 3600000 4660 1 0\n";
    assert_eq!(from_text(line, 11), Err(2));
    assert!(from_text(line, 12).is_ok());
    let blackboard = hello(0x302B, 3_600_000, 0x1234, 1);
    assert_eq!(to_text(&blackboard, line.len() - 1), Err(2));
    assert_eq!(to_text(&blackboard, line.len()), Ok(line.to_vec()));
}
