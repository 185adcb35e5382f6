//! The digest of a message: its blocks, their counters and the padding; and one
//! block by itself.

use crate::processor::{load, load_all, store, xor, Vector};
use crate::square::{rounds, Counter};
use crate::{Mode, Word};

/// The most bytes behind the whole blocks: two of the longest block, which has
/// fourteen words.
const MOST: usize = 2 * 14 * 16;

/// The digest of `bits` bits, by the chaining words of its family. A block is the
/// rest of the sixteen words. The rounds go by the digest length alone.
#[inline]
#[target_feature(enable = "aes")]
pub fn digest(mode: Mode, bits: u64, salt: Word, message: &[u8], bit_count: u64) -> Vec<u8> {
    let salt = load(salt);
    match (mode, bits) {
        (Mode::SinglePipe, ..=256) => iterate::<2>(bits, 8, salt, message, bit_count),
        (Mode::SinglePipe, _) => iterate::<4>(bits, 10, salt, message, bit_count),
        (Mode::DoublePipe, ..=256) => iterate::<4>(bits, 8, salt, message, bit_count),
        (Mode::DoublePipe, _) => iterate::<8>(bits, 10, salt, message, bit_count),
    }
}

/// All blocks of a message taken into a chaining value of C words.
#[target_feature(enable = "aes")]
fn iterate<const C: usize>(
    bits: u64,
    count: u64,
    salt: Vector,
    message: &[u8],
    bit_count: u64,
) -> Vec<u8> {
    let block_bytes = 16 * (16 - C);
    let mut chaining = [load(u128::from(bits).to_le_bytes()); C];
    let whole = (bit_count / (8 * block_bytes as u64)) as usize * block_bytes;
    let (whole, left) = message.split_at(whole);
    let (end, size) = last_blocks(bits, bit_count, left, block_bytes);
    // A block that holds nothing of the message has the counter 0.
    let first = match left {
        [] => 0,
        _ => bit_count,
    };
    let taken = (1..).map(|blocks| 8 * blocks * block_bytes as u64);
    let end = end[..size].chunks_exact(block_bytes).zip([first, 0]);
    for (block, counter) in whole.chunks_exact(block_bytes).zip(taken).chain(end) {
        let counter = Counter {
            low: counter,
            high: 0,
        };
        compress::<C, false>(&mut chaining, block, count, counter, salt);
    }
    let mut bytes: Vec<u8> = chaining.into_iter().flat_map(store).collect();
    bytes.truncate(bits as usize / 8);
    bytes
}

/// What stands behind the whole blocks, and its size: the bytes that are left, a bit
/// set in the last of them or, where that is whole, in the next one, zeros up to 18
/// bytes before the end of this block or, where that bit does not fit, of one more, and
/// the two lengths.
fn last_blocks(bits: u64, bit_count: u64, left: &[u8], block_bytes: usize) -> ([u8; MOST], usize) {
    let mut end = [0; MOST];
    let marked = (bit_count / 8) as usize % block_bytes;
    let fits = marked < block_bytes - 18;
    let size = if fits { block_bytes } else { 2 * block_bytes };
    end[..left.len()].copy_from_slice(left);
    end[marked] |= 0x80 >> (bit_count % 8);
    end[size - 18..size - 16].copy_from_slice(&(bits as u16).to_le_bytes());
    end[size - 16..size - 8].copy_from_slice(&bit_count.to_le_bytes());
    (end, size)
}

/// Takes one block into a chaining value of C words, by so many rounds.
#[inline]
#[target_feature(enable = "aes")]
pub fn compress_bytes<const C: usize>(
    chaining: &mut [u8],
    block: &[u8],
    count: u64,
    counter: Counter,
    salt: Word,
) {
    let mut words: [Vector; C] = load_all(chaining);
    compress::<C, true>(&mut words, block, count, counter, load(salt));
    for (bytes, word) in chaining.chunks_exact_mut(16).zip(words) {
        bytes.copy_from_slice(&store(word));
    }
}

/// Takes a block into a chaining value: xors the block's words and those of the
/// finished square into it, each at its place modulo C. For two words that is v0
/// with x0 and x2 of section 5.1, and v1 with x1 and x3.
#[inline]
#[target_feature(enable = "aes")]
fn compress<const C: usize, const WIDE: bool>(
    chaining: &mut [Vector; C],
    block: &[u8],
    count: u64,
    counter: Counter,
    salt: Vector,
) {
    let mut square = [load([0; 16]); 16];
    square[..C].copy_from_slice(chaining);
    square[C..].copy_from_slice(&load_all::<16>(block)[..16 - C]);
    let finished = rounds::<WIDE>(square, count, counter, salt);
    for place in C..16 {
        chaining[place % C] = xor(chaining[place % C], square[place]);
    }
    for place in 0..16 {
        chaining[place % C] = xor(chaining[place % C], finished[place]);
    }
}
