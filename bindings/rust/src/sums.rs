//! The checksum in the plain way.

extern "C" {
    fn hello_checksum_plain(octets: *const u8, length: usize) -> u16;
}

/// The same as [`checksum`](crate::checksum), worked out two octets at a time: the plain way,
/// which takes longer.
pub fn checksum_plain(octets: &[u8]) -> u16 {
    // SAFETY: a slice is valid for its length.
    unsafe { hello_checksum_plain(octets.as_ptr(), octets.len()) }
}
