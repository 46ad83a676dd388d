//! The Internet checksum (RFC 1071).

/// The folded one's complement sum of all 16-bit words, high octet first. An
/// odd last octet is the high half of a word.
///
/// The sum is taken in the machine's own octet order, four octets at a time,
/// and turned at the end: RFC 1071, section 2 (B) and (C).
pub fn folded_sum(octets: &[u8]) -> u16 {
    let fours = octets.chunks_exact(4);
    let rest = fours.remainder();
    let mut last = [0; 4];
    last[..rest.len()].copy_from_slice(rest);
    let whole: u64 = fours
        .map(|four| u64::from(u32::from_ne_bytes([four[0], four[1], four[2], four[3]])))
        .sum();
    u16::from_be(fold(whole + u64::from(u32::from_ne_bytes(last))))
}

/// Adds the carries back in until 16 bits are left.
fn fold(mut sum: u64) -> u16 {
    while sum > 0xFFFF {
        sum = (sum & 0xFFFF) + (sum >> 16);
    }
    sum as u16
}

/// The checksum that makes the octets good, theirs being zero.
pub fn checksum(octets: &[u8]) -> u16 {
    !folded_sum(octets)
}

/// Whether octets that hold their checksum are good.
pub fn is_good(octets: &[u8]) -> bool {
    folded_sum(octets) == 0xFFFF
}
