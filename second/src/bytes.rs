//! Numbers as bytes hold them.

/// The big-endian number in the bytes, missing ones counted as zero.
pub fn number_in(bytes: &[u8], start: usize, size: usize) -> u64 {
    (start..start + size).fold(0, |number, at| {
        (number % (1 << 56)) * 256 + u64::from(bytes.get(at).copied().unwrap_or(0))
    })
}
