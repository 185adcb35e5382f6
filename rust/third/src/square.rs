//! ECHO's rounds on sixteen vectors.

use crate::processor::{counter_key, double, round, xor, Vector};

/// The words w0 to w15, column by column.
pub type Square = [Vector; 16];

/// The halves of a counter of 128 bits.
#[derive(Clone, Copy)]
pub struct Counter {
    pub low: u64,
    pub high: u64,
}

impl Counter {
    /// The counter of the word with this number in a run, as a key. No run is so
    /// long that the lower half goes over more than once. Where it is not wide it
    /// has no upper half and gets none.
    #[inline]
    #[target_feature(enable = "aes")]
    fn key<const WIDE: bool>(self, word: u64) -> Vector {
        let (low, over) = self.low.overflowing_add(word);
        let high = match WIDE {
            true => self.high.wrapping_add(over.into()),
            false => 0,
        };
        counter_key(low, high)
    }
}

/// BIG.ROUND, `count` times. The words are numbered through all rounds, and each
/// one's number is added to the counter. A digest needs no wide one, and would lose a
/// seventh of its speed by that.
#[inline]
#[target_feature(enable = "aes")]
pub fn rounds<const WIDE: bool>(
    mut square: Square,
    count: u64,
    counter: Counter,
    salt: Vector,
) -> Square {
    let mut number = 0;
    for _ in 0..count {
        for word in &mut square {
            *word = round(round(*word, counter.key::<WIDE>(number)), salt);
            number += 1;
        }
        square = shift_and_mix(square);
    }
    square
}

/// BIG.ShiftRows and then BIG.MixColumns. Row i of column j comes from
/// i + 4((i + j) mod 4), which is (4j + 5i) mod 16.
#[inline]
#[target_feature(enable = "aes")]
fn shift_and_mix(square: Square) -> Square {
    let [w0, w1, w2, w3, w4, w5, w6, w7, w8, w9, w10, w11, w12, w13, w14, w15] = square;
    let [a0, a1, a2, a3] = mix([w0, w5, w10, w15]);
    let [b0, b1, b2, b3] = mix([w4, w9, w14, w3]);
    let [c0, c1, c2, c3] = mix([w8, w13, w2, w7]);
    let [d0, d1, d2, d3] = mix([w12, w1, w6, w11]);
    [
        a0, a1, a2, a3, b0, b1, b2, b3, c0, c1, c2, c3, d0, d1, d2, d3,
    ]
}

/// A column of words times the matrix that begins 02 03 01 01: with every sum of
/// two neighbours at hand, 02 a + 03 b + c + d is 02 (a + b) + b + (c + d).
#[inline]
#[target_feature(enable = "aes")]
fn mix([a, b, c, d]: [Vector; 4]) -> [Vector; 4] {
    let (ab, bc, cd, da) = (xor(a, b), xor(b, c), xor(c, d), xor(d, a));
    [
        xor(double(ab), xor(b, cd)),
        xor(double(bc), xor(c, da)),
        xor(double(cd), xor(d, ab)),
        xor(double(da), xor(a, bc)),
    ]
}
