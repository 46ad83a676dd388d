//! An NTP exchange, and the refusals.

use hello::ntp::{read, receive, write, NtpAssociation, NtpHeader, NtpOutcome, PROC};
use hello::Answer;

const SECOND: u64 = 1 << 32;

fn answer() -> NtpHeader {
    NtpHeader {
        version: 4,
        mode: 4,
        precision: -20,
        origin: 100 * SECOND,
        receive: 107 * SECOND,
        transmit: 111 * SECOND,
        ..NtpHeader::default()
    }
}

#[test]
fn an_exchange() {
    let mut client = NtpAssociation {
        number: 3,
        transmit: 100 * SECOND,
        saved: 0,
    };
    let octets = write(&answer()).unwrap();
    assert_eq!(read(&octets), Ok(answer()));
    let outcome = NtpOutcome {
        action: PROC,
        offset: 11 * (SECOND / 2) as i64,
        delay: 3 * SECOND as i64,
    };
    assert_eq!(receive(&mut client, &octets, 107 * SECOND), Ok(outcome));
    assert_eq!(client.saved, answer().transmit);
    assert_eq!(
        receive(&mut client, &octets, 107 * SECOND),
        Err(Answer::NtpTimestamp)
    );
}

#[test]
fn refusals() {
    let octets = write(&answer()).unwrap();
    assert_eq!(read(&octets[..47]), Err(Answer::NtpLength));
    assert_eq!(read(&[]), Err(Answer::NtpLength));
    assert_eq!(
        write(&NtpHeader {
            version: 3,
            ..answer()
        }),
        Err(Answer::NtpVersion)
    );
    assert_eq!(
        write(&NtpHeader {
            leap: 4,
            ..answer()
        }),
        Err(Answer::NtpMode)
    );
    let mut outside = NtpAssociation {
        number: 7,
        ..NtpAssociation::default()
    };
    assert_eq!(receive(&mut outside, &octets, 0), Err(Answer::NtpMode));
}
