//! The checksum of the recorded lists, and made-up bytes, as the replaying programs reckon them (crate `replay`).

/// The largest prime below 2^55.
const MODULUS: u64 = 0x7f_ffff_ffff_ffc9;

pub fn step(sum: u64, n: u32) -> u64 {
    (sum % MODULUS * 257 + u64::from(n) + 1) % MODULUS
}

/// Each word's low half, then its high one.
pub fn with_words(sum: u64, words: &[u64]) -> u64 {
    let with = |sum: u64, n: &u64| step(step(sum, *n as u32), (n >> 32) as u32);
    words.iter().fold(sum, with)
}

pub fn with_shorts(sum: u64, shorts: &[u32]) -> u64 {
    shorts.iter().fold(sum, |sum, n| step(sum, *n))
}

pub fn with_bytes(sum: u64, bytes: &[u8]) -> u64 {
    bytes.iter().fold(sum, |sum, byte| step(sum, (*byte).into()))
}

/// Bytes that look like anything, from a seed, which becomes the one for the bytes that come next.
pub fn made_up(length: usize, seed: &mut u64) -> Vec<u8> {
    let mut next = || {
        *seed = step(*seed, 7);
        *seed as u8
    };
    (0..length).map(|_| next()).collect()
}
