//! Inputs drawn from a generator, and those at the bounds.

use crate::case::{Case, Routine};
use crate::expected::HIGHEST_COUNTER;
use seeded::Generator;

/// Starting counters at the bounds of what is admitted, and those from which the
/// 128 or 160 words of a run go over from one byte, half or sign to the next.
pub const COUNTERS: [u64; 18] = [
    0,
    1,
    0xff,
    0x100,
    0xffff,
    1536,
    (1 << 32) - 161,
    (1 << 32) - 160,
    (1 << 32) - 80,
    (1 << 32) - 1,
    1 << 32,
    (1 << 48) - 80,
    (1 << 63) - 160,
    (1 << 63) - 80,
    (1 << 63) - 1,
    1 << 63,
    HIGHEST_COUNTER - 1,
    HIGHEST_COUNTER,
];

/// Where a counter of 128 bits goes over into its upper half.
pub const EDGE: u128 = 1 << 64;

/// Starts around 2^64, and the last ones below 2^128: the 160 words of ten rounds go
/// over into the upper half, and to 0, at each word once.
pub fn wide_starts() -> impl Iterator<Item = u128> {
    let last = u128::MAX - 159..=u128::MAX;
    (EDGE - 160..=EDGE + 160).chain(last)
}

/// Every admitted digest length.
pub fn digest_lengths() -> impl Iterator<Item = u64> {
    (128..=512).step_by(8)
}

/// Bytes of a block in double-pipe.
pub fn block(bits: u64) -> usize {
    if bits <= 256 {
        192
    } else {
        128
    }
}

/// The ways to a digest, each with the bytes of its block: the function that takes
/// no mode, and the other in each mode.
pub fn digests(bits: u64) -> [(Routine, usize); 3] {
    let single = if bits <= 256 { 224 } else { 192 };
    [
        (Routine::Digest { bits }, block(bits)),
        (Routine::DigestIn { mode: 0, bits }, block(bits)),
        (Routine::DigestIn { mode: 1, bits }, single),
    ]
}

/// Bytes of a block in a mode.
pub fn block_in(mode: u8, bits: u64) -> usize {
    match mode {
        0 => block(bits),
        _ => 128 + block(bits) / 2,
    }
}

/// The ways to a compression, each with the words of its chaining value.
pub fn compressions(counter: u64) -> [(Routine, usize); 6] {
    let without = Routine::Compress { counter };
    let [double, single] = [0, 1].map(|mode| Routine::CompressIn { mode, counter });
    [
        (without, 4),
        (without, 8),
        (double, 4),
        (double, 8),
        (single, 2),
        (single, 4),
    ]
}

/// The same from a counter of 128 bits.
pub fn wide_compressions(counter: u128) -> [(Routine, usize); 4] {
    let [double, single] = [0, 1].map(|mode| Routine::CompressWide { mode, counter });
    [(double, 4), (double, 8), (single, 2), (single, 4)]
}

/// Lengths of a key: none, one byte, both sides of a block, and several blocks.
pub fn keys(bits: u64) -> [usize; 6] {
    let block = block(bits);
    [0, 1, block - 1, block, block + 1, 1000]
}

/// A salt, which is all zero one time in eight.
pub fn salt(generator: &mut Generator) -> Vec<u8> {
    match generator.below(8) {
        0 => vec![0; 16],
        _ => generator.vector(16),
    }
}

/// An admitted starting counter of any size.
pub fn counter(generator: &mut Generator) -> u64 {
    let shift = generator.below(64);
    (generator.number() >> shift).min(HIGHEST_COUNTER)
}

/// A starting counter of 128 bits and of any size, which goes over into the upper
/// half within a run one time in four.
pub fn wide_counter(generator: &mut Generator) -> u128 {
    let shift = generator.below(128);
    let counter = u128::from_le_bytes(generator.bytes()) >> shift;
    match generator.below(4) {
        0 => (counter | (EDGE - 1)) - u128::from(generator.below(160)),
        _ => counter,
    }
}

/// A digest into a room that is filled, and just large enough one time in two.
pub fn digest(generator: &mut Generator, bits: u64, length: usize) -> Case {
    let spare = generator.below(2) * generator.below(40);
    Case {
        routine: Routine::Digest { bits },
        salt: salt(generator),
        key: vec![],
        input: generator.vector(length),
        lent: generator.vector((bits / 8 + spare) as usize),
    }
}

/// A digest of a message of so many bits, with zeros behind them, into such a room.
pub fn digest_bits(generator: &mut Generator, mode: u8, bits: u64, message_bits: u64) -> Case {
    let mut case = digest(generator, bits, message_bits.div_ceil(8) as usize);
    if let Some(last) = case.input.last_mut() {
        *last &= 0xff << (message_bits.wrapping_neg() % 8);
    }
    Case {
        routine: Routine::DigestBits {
            mode,
            bits,
            message_bits,
        },
        ..case
    }
}

/// A tag into a room like that of a digest, under a key of any bytes.
pub fn hmac(generator: &mut Generator, bits: u64, key: usize, length: usize) -> Case {
    Case {
        routine: Routine::Hmac { bits },
        key: generator.vector(key),
        ..digest(generator, bits, length)
    }
}

/// A check of the right tag.
pub fn check(generator: &mut Generator, bits: u64, key: usize, length: usize) -> Case {
    let case = hmac(generator, bits, key, length);
    Case {
        routine: Routine::HmacCheck { bits },
        lent: right_tag(bits, &case),
        ..case
    }
}

/// The tag that a check has to say yes to. Length and salt are admitted.
pub fn right_tag(bits: u64, case: &Case) -> Vec<u8> {
    let salt = case.salt.as_slice().try_into().expect("16 bytes");
    plain::hmac::hmac(bits, salt, &case.key, &case.input)
}

/// A routine on a square.
pub fn on_square(generator: &mut Generator, routine: Routine) -> Case {
    let byte = generator.pick(&[0x00, 0xff]);
    Case {
        routine,
        salt: salt(generator),
        key: vec![],
        input: vec![],
        lent: match generator.below(32) {
            0 => vec![byte; 256],
            _ => generator.vector(256),
        },
    }
}

/// A compression with so many chaining words, and a block that fills the square.
pub fn compression(generator: &mut Generator, routine: Routine, words: usize) -> Case {
    Case {
        routine,
        salt: salt(generator),
        key: vec![],
        input: generator.vector(256 - 16 * words),
        lent: generator.vector(16 * words),
    }
}
