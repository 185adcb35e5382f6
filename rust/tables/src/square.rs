//! ECHO's rounds on sixteen words.

use crate::table::TABLES;
use crate::Word;

/// The words w0 to w15, column by column.
pub type Square = [Word; 16];

/// BIG.ROUND, `count` times, with a counter that rises by one from word to word
/// and goes on from round to round. The count is even, as both of ECHO's are, so
/// that two squares can take turns.
#[inline]
pub fn rounds(square: &mut Square, count: u64, counter: u64, salt: &Word) {
    debug_assert!(count.is_multiple_of(2));
    let mut other = [[0; 16]; 16];
    for pair in 0..count / 2 {
        let counter = counter.wrapping_add(32 * pair);
        sub_words(square, counter);
        shift_and_mix(square, &mut other, salt);
        sub_words(&mut other, counter.wrapping_add(16));
        shift_and_mix(&other, square, salt);
    }
}

/// BIG.SubWords but for the salt, which [`shift_and_mix`] adds.
fn sub_words(square: &mut Square, mut counter: u64) {
    for word in square {
        let mut columns = in_memory(word);
        columns[0] ^= counter as u32;
        columns[1] ^= (counter >> 32) as u32;
        for (bytes, column) in word.chunks_exact_mut(4).zip(at_hand(columns)) {
            bytes.copy_from_slice(&column.to_le_bytes());
        }
        counter = counter.wrapping_add(1);
    }
}

/// Where [`in_memory`] reads two bytes at once and parts them then; the others it
/// reads one by one. A pair is a load less and a step more, and with these the
/// loads and all other steps keep an x86-64 processor about equally busy.
const PAIRS: [usize; 5] = [2, 6, 10, 12, 14];

/// An AES round without its key, on a word that is in memory.
#[inline]
fn in_memory(word: &Word) -> [u32; 4] {
    let mut bytes = *word;
    for place in PAIRS {
        let pair = word[place..place + 2].try_into().expect("2 bytes");
        let pair = u16::from_le_bytes(pair);
        bytes[place] = pair as u8;
        bytes[place + 1] = (pair >> 8) as u8;
    }
    round(|place| bytes[place])
}

/// The same on a word whose columns are at hand.
#[inline]
fn at_hand(columns: [u32; 4]) -> [u32; 4] {
    round(|place| (columns[place / 4] >> (8 * (place % 4))) as u8)
}

/// SubBytes, ShiftRows and MixColumns: the columns that they make of a word's
/// bytes.
#[inline]
fn round(byte: impl Fn(usize) -> u8) -> [u32; 4] {
    let entry = |row: usize, place| TABLES[row][usize::from(byte(place % 16))];
    std::array::from_fn(|column| {
        let top = 4 * column;
        entry(0, top) ^ entry(1, top + 5) ^ entry(2, top + 10) ^ entry(3, top + 15)
    })
}

/// BIG.ShiftRows and BIG.MixColumns, from one square into another, and the salt.
///
/// The salt is the key of the second AES round of each word. To add it to what is
/// mixed comes to the same, since the rows of the matrix add up to 01: four words
/// that are the salt are mixed to the salt.
#[inline]
fn shift_and_mix(square: &Square, mixed: &mut Square, salt: &Word) {
    for (j, column) in mixed.chunks_exact_mut(4).enumerate() {
        let [a, b, c, d] = std::array::from_fn(|i| square[(4 * j + 5 * i) % 16]);
        for place in 0..16 {
            let sums = mix([a[place], b[place], c[place], d[place]], salt[place]);
            for (word, sum) in column.iter_mut().zip(sums) {
                word[place] = sum;
            }
        }
    }
}

/// A column times the matrix that begins 02 03 01 01, plus a byte of the salt.
/// Doubling is linear, so that 02 (d + a) is the sum of the three doubles at hand.
#[inline]
fn mix([a, b, c, d]: [u8; 4], salt: u8) -> [u8; 4] {
    let (ab, bc, cd) = (a ^ b, b ^ c, c ^ d);
    let (x, y, z) = (double(ab), double(bc), double(cd));
    let (u, v) = (ab ^ salt, cd ^ salt);
    [x ^ b ^ v, y ^ a ^ v, z ^ d ^ u, x ^ y ^ z ^ c ^ u]
}

/// A byte times 02, in steps that the compiler turns into vector code.
#[inline]
fn double(byte: u8) -> u8 {
    let carried = ((byte as i8) >> 7) as u8;
    (byte << 1) ^ (carried & 0x1b)
}
