//! Message padding: the paper's section 2.2.

use crate::bits;
use crate::family;
use crate::mode::Mode;

/// Bits that the digest length and the message length take at the end.
const LENGTHS: u64 = 16 + 128;

/// The bits of a message block: MSIZE.
pub fn msize(mode: Mode, bits: u64) -> u64 {
    8 * family::of_bits(mode, bits).block as u64
}

/// The number of blocks that a padded message of `length` bits fills:
/// floor((length + 144) / MSIZE) + 1, for messages within the limit.
pub fn block_count(mode: Mode, bits: u64, length: u64) -> u64 {
    (length + LENGTHS) / msize(mode, bits) + 1
}

/// The padded message, of the first `length` bits of these bytes. Those that are
/// whole are not taken apart.
pub fn pad(mode: Mode, bits: u64, message: &[u8], length: u64) -> Vec<u8> {
    let (whole, part) = message.split_at((length / 8) as usize);
    let mut end = bits::of_bytes(part, length % 8);
    end.extend(padding(mode, bits, length));
    [whole, &bits::to_bytes(&end)].concat()
}

/// What follows a message of `length` bits: a "1", x zeros, the digest length in 16
/// bits and the message length in 128. A number is its bytes, the least significant
/// one first.
pub fn padding(mode: Mode, bits: u64, length: u64) -> Vec<bool> {
    let msize = msize(mode, bits);
    let x = msize - (length + LENGTHS) % msize - 1;
    let mut padding = vec![true];
    padding.extend(vec![false; x as usize]);
    padding.extend(bits::of_bytes(&(bits as u16).to_le_bytes(), 16));
    padding.extend(bits::of_bytes(&u128::from(length).to_le_bytes(), 128));
    padding
}

#[cfg(test)]
mod tests;
