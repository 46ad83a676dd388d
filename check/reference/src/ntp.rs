//! The successor: the NTP header of RFC 5905, its timestamp tests, and the
//! offset and delay of an exchange.

use crate::Refusal;

/// The octets of a header without extensions.
const HEADER: usize = 48;
const VERSION: u8 = 4;

/// The header of RFC 5905, figure 8.
#[derive(Clone, Copy, Debug, Default, PartialEq, Eq)]
pub struct Header {
    pub leap: u8,
    pub version: u8,
    pub mode: u8,
    pub stratum: u8,
    pub poll: i8,
    pub precision: i8,
    pub root_delay: u32,
    pub root_dispersion: u32,
    pub reference_id: u32,
    pub reference: u64,
    pub origin: u64,
    pub receive: u64,
    pub transmit: u64,
}

/// What a host keeps for one other host.
#[derive(Clone, Copy, Debug, Default, PartialEq, Eq)]
pub struct Association {
    /// 0 for none, or 1 to 6.
    pub number: u8,
    /// The time of our last transmission.
    pub transmit: u64,
    /// The transmit time of the last packet that passed.
    pub saved: u64,
}

/// What is to be done with a packet; offset and delay are zero unless it is
/// to be processed.
#[derive(Clone, Copy, Debug, Default, PartialEq, Eq)]
pub struct Outcome {
    pub action: i8,
    pub offset: i64,
    pub delay: i64,
}

// The dispatch codes of RFC 5905, appendix A.5.1.
pub const ERR: i8 = -1;
pub const DSCRD: i8 = 0;
pub const PROC: i8 = 1;
pub const FXMIT: i8 = 3;
pub const MANY: i8 = 4;
pub const NEWPS: i8 = 5;
pub const NEWBC: i8 = 6;

/// RFC 5905, figure 20: a row for each association, none and 1 to 6, and a
/// column for each packet mode, 1 to 5.
pub const DISPATCH: [[i8; 5]; 7] = [
    [NEWPS, DSCRD, FXMIT, MANY, NEWBC],
    [PROC, PROC, DSCRD, DSCRD, DSCRD],
    [PROC, ERR, DSCRD, DSCRD, DSCRD],
    [DSCRD, DSCRD, DSCRD, PROC, DSCRD],
    [DSCRD, DSCRD, DSCRD, DSCRD, DSCRD],
    [DSCRD, DSCRD, DSCRD, DSCRD, DSCRD],
    [DSCRD, DSCRD, DSCRD, DSCRD, PROC],
];

/// Reads a header. Refused with 23 for another length, 24 for another version
/// and 25 for a packet mode outside the table.
pub fn read(octets: &[u8]) -> Result<Header, u8> {
    let octets: &[u8; HEADER] = octets.try_into().map_err(|_| Refusal::NtpLength)?;
    let header = Header {
        leap: octets[0] >> 6,
        version: octets[0] >> 3 & 7,
        mode: octets[0] & 7,
        stratum: octets[1],
        poll: octets[2] as i8,
        precision: octets[3] as i8,
        root_delay: number(&octets[4..8]) as u32,
        root_dispersion: number(&octets[8..12]) as u32,
        reference_id: number(&octets[12..16]) as u32,
        reference: number(&octets[16..24]),
        origin: number(&octets[24..32]),
        receive: number(&octets[32..40]),
        transmit: number(&octets[40..48]),
    };
    header.test()?;
    Ok(header)
}

/// Writes a header. Refused with 24 for another version and 25 for a packet
/// mode outside the table or a leap over 3.
pub fn write(header: &Header) -> Result<[u8; HEADER], u8> {
    header.test()?;
    let first = header.leap << 6 | header.version << 3 | header.mode;
    let mut octets = vec![first, header.stratum];
    octets.extend([header.poll as u8, header.precision as u8]);
    for word in [
        header.root_delay,
        header.root_dispersion,
        header.reference_id,
    ] {
        octets.extend(word.to_be_bytes());
    }
    for time in [
        header.reference,
        header.origin,
        header.receive,
        header.transmit,
    ] {
        octets.extend(time.to_be_bytes());
    }
    let mut written = [0; HEADER];
    written.copy_from_slice(&octets);
    Ok(written)
}

/// Takes a packet that arrived at a destination time. Refused with 23 to 25
/// as a header is, 25 also for an association outside the table, and 26 where
/// a timestamp test failed; refused, the association is unchanged.
pub fn receive(
    association: &mut Association,
    octets: &[u8],
    destination: u64,
) -> Result<Outcome, u8> {
    let header = read(octets)?;
    let row = DISPATCH.get(usize::from(association.number));
    let action = row.ok_or(Refusal::NtpMode)?[usize::from(header.mode) - 1];
    if action != PROC {
        return Ok(Outcome {
            action,
            ..Outcome::default()
        });
    }
    let passes = header.transmit != 0
        && header.origin == association.transmit
        && header.transmit != association.saved
        && difference(destination, header.origin) > 0;
    if !passes {
        return Err(Refusal::NtpTimestamp.into());
    }
    association.saved = header.transmit;
    Ok(Outcome {
        action,
        offset: offset(header.origin, header.receive, header.transmit, destination),
        delay: delay(header.origin, header.receive, header.transmit, destination),
    })
}

/// ((T2 - T1) + (T3 - T4))/2, "all bits of the sum kept before it is halved,
/// rounded down".
pub fn offset(t1: u64, t2: u64, t3: u64, t4: u64) -> i64 {
    let sum = i128::from(difference(t2, t1)) + i128::from(difference(t3, t4));
    sum.div_euclid(2) as i64
}

/// (T4 - T1) - (T3 - T2), "again modulo 2^64 and signed".
pub fn delay(t1: u64, t2: u64, t3: u64, t4: u64) -> i64 {
    (i128::from(difference(t4, t1)) - i128::from(difference(t3, t2))) as i64
}

/// A difference of timestamps "taken modulo 2^64 and signed".
fn difference(later: u64, earlier: u64) -> i64 {
    (i128::from(later) - i128::from(earlier)) as i64
}

impl Header {
    fn test(&self) -> Result<(), Refusal> {
        if self.version != VERSION {
            Err(Refusal::NtpVersion)
        } else if !(1..=5).contains(&self.mode) || self.leap > 3 {
            Err(Refusal::NtpMode)
        } else {
            Ok(())
        }
    }
}

/// The number of some octets, high octet first.
fn number(octets: &[u8]) -> u64 {
    octets
        .iter()
        .fold(0, |number, octet| number << 8 | u64::from(*octet))
}
