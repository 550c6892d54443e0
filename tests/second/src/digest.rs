//! A number that stands for bytes, where all of them would be too much to write.

/// A number for bytes: eight at a time, and the rest one by one.
pub fn digest(bytes: &[u8]) -> u64 {
    let step = |sum: u64, word: u64| (sum ^ word).wrapping_mul(0x100000001b3).rotate_left(23);
    let words = bytes.chunks_exact(8);
    let rest = words.remainder();
    let sum = words.fold(bytes.len() as u64, |sum, b| step(sum, u64::from_le_bytes([b[0], b[1], b[2], b[3], b[4], b[5], b[6], b[7]])));
    rest.iter().fold(sum, |sum, byte| step(sum, *byte as u64))
}
