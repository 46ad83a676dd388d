//! HELLO messages in IPv4 packets: reading, testing and writing them.

use crate::address::Address;
use crate::checksum::{checksum, is_good};
use crate::date::Date;
use crate::link::LinkKind;
use crate::settings::Settings;
use crate::Refusal;

/// The octets of the IP header.
pub const HEADER: usize = 20;
/// The octets of a HELLO before its host table.
pub const HELLO: usize = 12;
/// The octets of one host in the table.
pub const HOST: usize = 4;
/// The octets of the longest good packet, whose table has 255 hosts.
pub const MOST_OCTETS: usize = HEADER + hello_length(255);

const VERSION_AND_HEADER_LENGTH: u8 = 0x45;
const MORE_FRAGMENTS_AND_OFFSET: u16 = 0x3FFF;
const TIME_TO_LIVE: u8 = 255;
const PROTOCOL: u8 = 63;

/// A good message; its octets stay where they are.
pub struct Message<'a> {
    pub source: Address,
    hello: &'a [u8],
}

impl<'a> Message<'a> {
    /// Tests a packet for 3 to 8, the refusals in rising order.
    pub fn parse(packet: &'a [u8], settings: &Settings) -> Result<Message<'a>, Refusal> {
        let (header, hello) = hello_of(packet)?;
        let layout = (hello[10], usize::from(hello[11]));
        if layout.1 != 0 && layout != (settings.address_offset, settings.nhosts) {
            return Err(Refusal::Layout);
        }
        let source = Address([header[12], header[13], header[14], header[15]]);
        Ok(Message { source, hello })
    }

    /// Tests a packet on a link of the host for 3 to 9.
    pub fn on_link(
        packet: &'a [u8],
        settings: &Settings,
        link: usize,
    ) -> Result<Message<'a>, Refusal> {
        let message = Message::parse(packet, settings)?;
        // Step 1 of an arrival.
        let point_to_point = settings.links[link - 1] == LinkKind::PointToPoint;
        if point_to_point && message.source == settings.address {
            return Err(Refusal::LoopedLine);
        }
        Ok(message)
    }

    pub fn date(&self) -> Date {
        Date(word(self.hello, 2))
    }

    pub fn time(&self) -> i64 {
        i64::from(word(self.hello, 4)) << 16 | i64::from(word(self.hello, 6))
    }

    pub fn tsp(&self) -> u16 {
        word(self.hello, 8)
    }

    pub fn nhosts(&self) -> u8 {
        self.hello[11]
    }

    pub fn has_table(&self) -> bool {
        self.nhosts() != 0
    }

    /// DELAY and OFFSET of each host, in the order of the ids.
    pub fn hosts(&self) -> impl Iterator<Item = (u16, i16)> + 'a {
        self.hello[HELLO..]
            .chunks_exact(HOST)
            .map(|host| (word(host, 0), word(host, 2) as i16))
    }
}

/// The header and the HELLO of a packet that passes answers 3 to 7, which ask
/// for no settings.
pub fn hello_of(packet: &[u8]) -> Result<(&[u8], &[u8]), Refusal> {
    let (header, hello) = split_ip(packet).ok_or(Refusal::IpForm)?;
    if !is_good(header) {
        return Err(Refusal::IpChecksum);
    }
    if header[9] != PROTOCOL {
        return Err(Refusal::Protocol);
    }
    if hello.len() < HELLO || hello.len() != hello_length(hello[11].into()) {
        return Err(Refusal::HelloForm);
    }
    if !is_good(hello) {
        return Err(Refusal::HelloChecksum);
    }
    Ok((header, hello))
}

/// The header and the rest of a packet whose IP form is right.
fn split_ip(packet: &[u8]) -> Option<(&[u8], &[u8])> {
    let (header, rest) = packet.split_at_checked(HEADER)?;
    (header[0] == VERSION_AND_HEADER_LENGTH
        && usize::from(word(header, 2)) == packet.len()
        && word(header, 6) & MORE_FRAGMENTS_AND_OFFSET == 0)
        .then_some((header, rest))
}

pub const fn hello_length(nhosts: usize) -> usize {
    HELLO + HOST * nhosts
}

/// The fields of a HELLO before its host table.
pub struct Heading {
    pub date: Date,
    pub time: u32,
    pub tsp: u16,
    pub address_offset: u8,
}

/// Fills a HELLO, whose slice is of its length, and completes its checksum.
pub fn write_hello(
    hello: &mut [u8],
    heading: &Heading,
    hosts: impl ExactSizeIterator<Item = (u16, i16)>,
) {
    put_word(hello, 0, 0);
    put_word(hello, 2, heading.date.0);
    hello[4..8].copy_from_slice(&heading.time.to_be_bytes());
    put_word(hello, 8, heading.tsp);
    hello[10] = heading.address_offset;
    hello[11] = hosts.len() as u8;
    for (octets, (delay, offset)) in hello[HELLO..].chunks_exact_mut(HOST).zip(hosts) {
        put_word(octets, 0, delay);
        put_word(octets, 2, offset as u16);
    }
    put_word(hello, 0, checksum(hello));
}

/// Completes the header in front of a HELLO that is filled in.
pub fn write_header(packet: &mut [u8], source: Address, destination: Address) {
    let length = packet.len() as u16;
    let header = &mut packet[..HEADER];
    header.fill(0);
    header[0] = VERSION_AND_HEADER_LENGTH;
    put_word(header, 2, length);
    header[8] = TIME_TO_LIVE;
    header[9] = PROTOCOL;
    header[12..16].copy_from_slice(&source.0);
    header[16..20].copy_from_slice(&destination.0);
    put_word(header, 10, checksum(header));
}

fn word(octets: &[u8], at: usize) -> u16 {
    u16::from_be_bytes([octets[at], octets[at + 1]])
}

fn put_word(octets: &mut [u8], at: usize, value: u16) {
    octets[at..at + 2].copy_from_slice(&value.to_be_bytes());
}
