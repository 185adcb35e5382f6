//! The compression functions of all families: the paper's sections 3.4, 4, 5.1
//! and 5.2.

use crate::aes::Word;
use crate::family;
use crate::mode::Mode;
use crate::square::{self, Square};

/// Takes a block into a chaining value. In double-pipe that is COMPRESS512 for 64
/// bytes of chaining value and 192 of block, and COMPRESS1024 for 128 and 128; in
/// single-pipe the compression of section 5.1 for 32 and 224, and that of section
/// 5.2 for 64 and 192. Panics on other sizes.
pub fn compress(mode: Mode, chaining: &mut [u8], block: &[u8], counter: u128, salt: &Word) {
    let family = family::of_sizes(mode, chaining.len(), block.len()).expect("sizes of a family");
    let start = load(chaining, block);
    let mut finished = start;
    square::rounds(&mut finished, family.rounds, counter, salt);
    if chaining.len() == 32 {
        finish_two_words(chaining, block, &finished);
    } else {
        finish(chaining, &start, &finished);
    }
}

/// The start square: the chaining words first, then the block's words. The
/// paper's sections 3, 4, 5.1 and 5.2.
fn load(chaining: &[u8], block: &[u8]) -> Square {
    let mut square = [0; 256];
    let (front, back) = square.split_at_mut(chaining.len());
    front.copy_from_slice(chaining);
    back.copy_from_slice(block);
    square
}

/// BIG.FINAL for four and for eight words: the new chaining value is the fold of
/// the start square xored with the fold of the finished one, which is what the
/// paper says word by word in sections 3.4, 4 and 5.2.
fn finish(chaining: &mut [u8], start: &Square, finished: &Square) {
    chaining.fill(0);
    fold_into(chaining, start);
    fold_into(chaining, finished);
}

/// Xors a square's fold into a chaining value. Word i of the fold is the xor of
/// the words at i, i + 4, i + 8, i + 12 for four words and at i, i + 8 for
/// eight, so the square is cut into pieces as long as the chaining value.
fn fold_into(chaining: &mut [u8], square: &Square) {
    for piece in square.chunks_exact(chaining.len()) {
        for (byte, other) in chaining.iter_mut().zip(piece) {
            *byte ^= other;
        }
    }
}

/// BIG.FINAL for two words, as section 5.1 prints it, for the bytes at each place
/// in their words.
fn finish_two_words(chaining: &mut [u8], block: &[u8], finished: &Square) {
    for place in 0..16 {
        let v = |word: usize| chaining[16 * word + place];
        let m = |word: usize| block[16 * word + place];
        let w = |word: usize| finished[16 * word + place];
        let x0 = v(0) ^ m(2) ^ m(6) ^ m(10) ^ w(0) ^ w(4) ^ w(8) ^ w(12);
        let x1 = v(1) ^ m(3) ^ m(7) ^ m(11) ^ w(1) ^ w(5) ^ w(9) ^ w(13);
        let x2 = m(0) ^ m(4) ^ m(8) ^ m(12) ^ w(2) ^ w(6) ^ w(10) ^ w(14);
        let x3 = m(1) ^ m(5) ^ m(9) ^ m(13) ^ w(3) ^ w(7) ^ w(11) ^ w(15);
        chaining[place] = x0 ^ x2;
        chaining[16 + place] = x1 ^ x3;
    }
}

#[cfg(test)]
mod tests;
