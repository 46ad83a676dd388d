//! The one error type, addresses, and the calls that return a `Vec` or a `String`.

use hello::capture::{self, Stretch};
use hello::{ntp, text, Address, Answer};
use std::error::Error;
use std::net::Ipv4Addr;

#[test]
fn every_answer_has_its_words() {
    let list = concat!(env!("CARGO_MANIFEST_DIR"), "/../../docs/answers.txt");
    let list = std::fs::read_to_string(list).unwrap();
    let rows: Vec<Vec<&str>> = list
        .lines()
        .filter(|line| !line.starts_with('#'))
        .map(|line| line.split('\t').collect())
        .collect();
    assert_eq!(rows.len(), Answer::ALL.len());
    for (row, answer) in rows.iter().zip(Answer::ALL) {
        assert_eq!(row[0].parse(), Ok(answer.number()));
        assert_eq!(row[3], answer.words());
        assert_eq!(Answer::of(answer.number()), Some(answer));
        let error: Box<dyn Error> = Box::new(answer);
        let shown = format!("answer {} ({}): {}", row[0], row[1], row[3]);
        assert_eq!(error.to_string(), shown);
    }
    assert_eq!(Answer::of(20), None);
}

#[test]
fn one_error_from_all_modules() -> Result<(), Box<dyn Error>> {
    let all = || -> Result<(), Answer> {
        let message = text::from_text("hello 12331 3600000 4660 1 0\n")?;
        assert_eq!(text::to_text(&message)?, "hello 12331 3600000 4660 1 0\n");
        capture::recover(&message)?;
        ntp::read(&message)?;
        Ok(())
    };
    assert_eq!(all(), Err(Answer::NtpLength));
    assert_eq!(text::to_text(&[]), Err(Answer::HelloForm));
    assert_eq!(text::from_text("hello"), Err(Answer::TextForm));
    let large = text::from_text("hello 65536 0 0 0 0\n");
    assert_eq!(large, Err(Answer::FieldRange));
    let long = format!("hello {} 0 0 0 0\n", "1".repeat(70_000));
    assert_eq!(text::from_text(&long), Err(Answer::FieldRange));
    assert_eq!(text::from_text(&long[..70_000]), Err(Answer::TextForm));
    let short = text::to_text_into(&text::from_text("hello 0 0 0 0 0\n")?, &mut [0; 9]);
    assert_eq!(short, Err(Answer::ShortBuffer));
    Ok(())
}

#[test]
fn recovery_returns_what_it_finds() {
    let found = capture::recover(&[1; 9]).unwrap();
    assert_eq!(found.capture, [0; 4]);
    let all = Stretch {
        start: 0,
        length: 9,
    };
    assert_eq!((found.stretches, found.places_true), (vec![all], false));
    let long = capture::recover(&[0; capture::LONGEST + 1]);
    assert_eq!(long, Err(Answer::CaptureLength));
}

#[test]
fn addresses() {
    let address = Address::new(192, 0, 2, 1);
    assert_eq!("192.0.2.1".parse(), Ok(address));
    assert_eq!(Address::from(Ipv4Addr::new(192, 0, 2, 1)), address);
    assert_eq!(Ipv4Addr::from(address), Ipv4Addr::new(192, 0, 2, 1));
    assert_eq!(Address::from([192, 0, 2, 1]), address);
    assert_eq!(address.to_string(), "192.0.2.1");
    for wrong in ["", "192.0.2", "192.0.2.256", "192.0.2.1.0", "example.org"] {
        assert!(wrong.parse::<Address>().is_err());
    }
}
