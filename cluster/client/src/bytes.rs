//! Numbers and pieces in bytes.

/// A number of four bytes at this place, the least first.
pub(crate) fn u32_at(bytes: &[u8], at: usize) -> Option<u32> {
    Some(u32::from_le_bytes(bytes.get(at..at + 4)?.try_into().ok()?))
}

/// A number of eight bytes at this place.
pub(crate) fn u64_at(bytes: &[u8], at: usize) -> Option<u64> {
    Some(u64::from_le_bytes(bytes.get(at..at + 8)?.try_into().ok()?))
}

/// The whole pieces that follow one another, each behind its length in four bytes.
pub fn framed(bytes: &[u8]) -> impl Iterator<Item = &[u8]> {
    let mut rest = bytes;
    std::iter::from_fn(move || {
        let length = u32_at(rest, 0)? as usize;
        let piece = rest.get(4..)?.get(..length)?;
        rest = &rest[4 + length..];
        Some(piece)
    })
}
