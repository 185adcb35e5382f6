//! The square of sixteen words and its rounds: the paper's sections 1 and 3.1
//! to 3.3, and the way back.
//!
//! Word i + 4j stands in row i and column j, and takes the bytes 16(i + 4j)
//! onward of the square.

use crate::aes::{self, Word};
use crate::field;
use crate::substitution::tables;

/// Sixteen words, one after the other, column by column.
pub type Square = [u8; 256];

/// BIG.ROUND, `count` times. Word j of round r, both from 0, uses the counter
/// `counter` + 16r + j: it rises through all words and rounds, modulo 2^128. The
/// paper's section 3 and 3.1.
pub fn rounds(square: &mut Square, count: u64, counter: u128, salt: &Word) {
    for round in 0..count {
        sub_words(square, counter_of_round(counter, round), salt);
        shift_rows(square);
        mix_columns(square);
    }
}

/// The way back of [`rounds`] with the same count, starting counter and salt.
pub fn rounds_back(square: &mut Square, count: u64, counter: u128, salt: &Word) {
    for round in (0..count).rev() {
        mix_columns_back(square);
        shift_rows_back(square);
        sub_words_back(square, counter_of_round(counter, round), salt);
    }
}

/// The counter of word 0 in a round.
pub fn counter_of_round(counter: u128, round: u64) -> u128 {
    counter.wrapping_add(u128::from(round) * 16)
}

/// The key of a word's first AES round: the counter, least significant byte
/// first. Those of the basic version, with 64 bits and eight zeros behind them, are
/// the counters below 2^64. The paper's section 3.1.
#[inline]
pub fn counter_key(counter: u128) -> Word {
    counter.to_le_bytes()
}

/// BIG.SubWords: two AES rounds on each word, the first keyed by the counter,
/// the second by the salt; then the counter rises by one. The paper's section 3.1.
fn sub_words(square: &mut Square, counter: u128, salt: &Word) {
    let tables = tables();
    let mut counter = counter;
    for word in words(square) {
        let first = aes::round_with(tables, *word, counter_key(counter));
        *word = aes::round_with(tables, first, *salt);
        counter = counter.wrapping_add(1);
    }
}

/// The way back of BIG.SubWords, with the counter of word 0.
fn sub_words_back(square: &mut Square, counter: u128, salt: &Word) {
    let tables = tables();
    let mut counter = counter;
    for word in words(square) {
        let first = aes::round_back_with(tables, *word, *salt);
        *word = aes::round_back_with(tables, first, counter_key(counter));
        counter = counter.wrapping_add(1);
    }
}

/// The words of a square in order, each to be rewritten in place.
#[inline]
pub fn words(square: &mut Square) -> impl Iterator<Item = &mut Word> {
    square
        .chunks_exact_mut(16)
        .map(|word| word.try_into().expect("16 bytes"))
}

/// The place that BIG.ShiftRows fills the place i + 4j from: i + 4((i + j) mod 4).
/// The paper's section 3.2.
#[inline]
pub fn shifted_from(place: usize) -> usize {
    let (row, column) = (place % 4, place / 4);
    row + 4 * ((row + column) % 4)
}

/// BIG.ShiftRows. The paper's section 3.2.
pub fn shift_rows(square: &mut Square) {
    let old = *square;
    for (place, word) in words(square).enumerate() {
        let from = 16 * shifted_from(place);
        word.copy_from_slice(&old[from..from + 16]);
    }
}

/// The way back of BIG.ShiftRows.
pub fn shift_rows_back(square: &mut Square) {
    let old = *square;
    for (place, word) in old.chunks_exact(16).enumerate() {
        let to = 16 * shifted_from(place);
        square[to..to + 16].copy_from_slice(word);
    }
}

/// BIG.MixColumns: in each column of words, the four bytes at the same place in
/// their words are mixed as the AES mixes a column. The paper's section 3.3.
pub fn mix_columns(square: &mut Square) {
    by_columns(square, field::mix);
}

/// The way back of BIG.MixColumns.
pub fn mix_columns_back(square: &mut Square) {
    by_columns(square, field::mix_back);
}

#[inline]
fn by_columns(square: &mut Square, mix: impl Fn([u8; 4]) -> [u8; 4]) {
    for column in square.chunks_exact_mut(64) {
        for place in 0..16 {
            let mixed = mix([
                column[place],
                column[place + 16],
                column[place + 32],
                column[place + 48],
            ]);
            for (row, byte) in mixed.into_iter().enumerate() {
                column[place + 16 * row] = byte;
            }
        }
    }
}

#[cfg(test)]
mod tests;
