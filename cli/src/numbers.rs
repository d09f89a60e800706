//! Numbers that the program is given as text.

/// The number that decimal digits stand for; none where there is none, or anything else, or where
/// it is above 2^64 - 1.
pub fn decimal(text: &[u8]) -> Option<u64> {
    if !text.iter().all(u8::is_ascii_digit) {
        return None;
    }
    std::str::from_utf8(text).ok()?.parse().ok()
}
