//! The internet checksum (RFC 1071).

/// The octets whose fours add up without loss.
const BLOCK: usize = 262_144;

/// The folded sum of the 16-bit words, in the machine's own order.
#[inline(always)]
pub fn folded(octets: &[u8]) -> u16 {
    if octets.len() < 64 {
        return fold(short(octets));
    }
    fold(long(octets))
}

#[inline(never)]
fn long(octets: &[u8]) -> u64 {
    if octets.len() <= BLOCK {
        return block(octets);
    }
    octets.chunks(BLOCK).map(block).sum()
}

/// Up to 63 octets, and the rest.
#[inline(always)]
fn short(octets: &[u8]) -> u64 {
    let (fours, rest) = octets.as_chunks::<4>();
    let sum: u64 = fours
        .iter()
        .map(|four| u64::from(u32::from_le_bytes(*four)))
        .sum();
    let (twos, rest) = rest.as_chunks::<2>();
    let two = twos
        .first()
        .map_or(0, |two| u64::from(u16::from_le_bytes(*two)));
    let one = rest.first().map_or(0, |one| u64::from(*one));
    sum + two + one
}

/// The low halves' sum is what the wrapping sum of all fours leaves when the high halves' is taken
/// off. The compiler makes a vector loop of it, 32 octets in a turn.
#[inline(always)]
fn block(octets: &[u8]) -> u64 {
    let (fours, rest) = octets.as_chunks::<4>();
    let (mut total, mut high) = (0u32, 0u32);
    for four in fours {
        let four = u32::from_le_bytes(*four);
        total = total.wrapping_add(four);
        high = high.wrapping_add(four >> 16);
    }
    u64::from(high) + u64::from(total.wrapping_sub(high << 16)) + short(rest)
}

#[inline(always)]
pub fn fold(sum: u64) -> u16 {
    let sum = (sum >> 32) + (sum & 0xFFFF_FFFF);
    let sum = (sum >> 16) + (sum & 0xFFFF);
    let sum = (sum >> 16) + (sum & 0xFFFF);
    let sum = (sum >> 16) + (sum & 0xFFFF);
    sum as u16
}

/// The checksum of octets, high octet first.
pub fn checksum(octets: &[u8]) -> u16 {
    !folded(octets).swap_bytes()
}

#[inline(always)]
pub fn is_good(octets: &[u8]) -> bool {
    folded(octets) == 0xFFFF
}
