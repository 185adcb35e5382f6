//! Bytes by a length and a seed, as the programs make their messages and keys.

/// The bytes: no two of their stretches of 256 are the same.
pub fn patterned(seed: u8, length: u16) -> Vec<u8> {
    (0..usize::from(length))
        .map(|i| (usize::from(seed) + 29 * i + 101 * (i / 256)) as u8)
        .collect()
}
