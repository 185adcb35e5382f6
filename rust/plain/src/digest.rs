//! The digest of a message: the paper's sections 2, 2.1, 3.5, 4.1 and 5, and the
//! counters of section 3.1.

use crate::aes::Word;
use crate::compression::compress;
use crate::family;
use crate::mode::Mode;
use crate::padding::{block_count, msize, pad};

/// The digest of `bits` bits of a message of whole bytes. Panics unless the digest
/// length is admitted.
pub fn digest(mode: Mode, bits: u64, salt: &Word, message: &[u8]) -> Vec<u8> {
    digest_bits(mode, bits, salt, message, 8 * message.len() as u64)
}

/// The digest of `bits` bits of the message that is the first `length` bits of these
/// bytes, the most significant bit of a byte first. Panics unless the digest length is
/// admitted, and the bytes are just those that hold the message.
pub fn digest_bits(mode: Mode, bits: u64, salt: &Word, message: &[u8], length: u64) -> Vec<u8> {
    let bytes = length.div_ceil(8);
    assert_eq!(message.len() as u64, bytes, "bytes of {length} bits");
    let block_bytes = family::of_bits(mode, bits).block;
    let padded = pad(mode, bits, message, length);
    let counters = counters(mode, bits, length);
    let mut chaining = initial(mode, bits);
    for (block, counter) in padded.chunks(block_bytes).zip(counters) {
        compress(mode, &mut chaining, block, counter.into(), salt);
    }
    chaining.truncate(bits as usize / 8);
    chaining
}

/// The first chaining value: each word is the digest length as sixteen bytes,
/// least significant first. Section 2.1.
pub fn initial(mode: Mode, bits: u64) -> Vec<u8> {
    let words = family::of_bits(mode, bits).chaining / 16;
    u128::from(bits).to_le_bytes().repeat(words)
}

/// The counters of all blocks of a message of `length` bits, in order.
pub fn counters(mode: Mode, bits: u64, length: u64) -> Vec<u64> {
    (0..block_count(mode, bits, length))
        .map(|index| counter(mode, bits, length, index))
        .collect()
}

/// The counter of the block at `index`: the number of message bits taken by its
/// end, or 0 for a block without any message bit. Section 3.1.
pub fn counter(mode: Mode, bits: u64, length: u64, index: u64) -> u64 {
    let msize = msize(mode, bits);
    let begin = index * msize;
    if begin >= length {
        0
    } else {
        begin + msize.min(length - begin)
    }
}

#[cfg(test)]
mod tests;
