//! The digest of a message: its blocks, their counters and the padding.

use crate::square::rounds;
use crate::Word;

/// The digest of `bits` bits, by the sizes of its family: four chaining words
/// and blocks of twelve, or eight and eight.
pub fn digest(bits: u64, salt: &Word, message: &[u8]) -> Vec<u8> {
    if bits <= 256 {
        iterate::<4>(bits, 8, salt, message)
    } else {
        iterate::<8>(bits, 10, salt, message)
    }
}

/// All blocks of a message taken into a chaining value of C words. Whole blocks
/// are read where they stand in the message.
fn iterate<const C: usize>(bits: u64, count: u64, salt: &Word, message: &[u8]) -> Vec<u8> {
    let block_bytes = 16 * (16 - C);
    let bit_count = 8 * message.len() as u64;
    let mut chaining = [u128::from(bits).to_le_bytes(); C];
    let whole = message.chunks_exact(block_bytes);
    let left = whole.remainder();
    let mut taken = 0;
    for block in whole {
        taken += 8 * block_bytes as u64;
        compress(&mut chaining, block, count, taken, salt);
    }
    // A block that holds nothing of the message has the counter 0.
    let mut counter = if left.is_empty() { 0 } else { bit_count };
    let (end, size) = last_blocks(bits, bit_count, left, block_bytes);
    for block in end[..size].chunks_exact(block_bytes) {
        compress(&mut chaining, block, count, counter, salt);
        counter = 0;
    }
    chaining.as_flattened()[..bits as usize / 8].to_vec()
}

/// What stands behind the whole blocks, and its size: the bytes that are left,
/// the byte 80, zeros up to 18 bytes before the end of this block or, where they
/// don't fit, of one more, and the two lengths.
fn last_blocks(bits: u64, bit_count: u64, left: &[u8], block_bytes: usize) -> ([u8; 384], usize) {
    let mut end = [0; 384];
    let fits = left.len() < block_bytes - 18;
    let size = if fits { block_bytes } else { 2 * block_bytes };
    end[..left.len()].copy_from_slice(left);
    end[left.len()] = 0x80;
    end[size - 18..size - 16].copy_from_slice(&(bits as u16).to_le_bytes());
    end[size - 16..size - 8].copy_from_slice(&bit_count.to_le_bytes());
    (end, size)
}

/// Takes a block into a chaining value: xors the block's words and those of the
/// finished square into it, each at its place modulo C.
fn compress<const C: usize>(
    chaining: &mut [Word; C],
    block: &[u8],
    count: u64,
    counter: u64,
    salt: &Word,
) {
    let mut square = [[0; 16]; 16];
    let (front, back) = square.split_at_mut(C);
    front.copy_from_slice(chaining);
    back.as_flattened_mut().copy_from_slice(block);
    rounds(&mut square, count, counter, salt);
    let chaining = chaining.as_flattened_mut();
    let finished = square.as_flattened();
    for words in block
        .chunks_exact(16 * C)
        .chain(finished.chunks_exact(16 * C))
    {
        for (byte, other) in chaining.iter_mut().zip(words) {
            *byte ^= other;
        }
    }
}
