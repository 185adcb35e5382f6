//! Inputs at both sides of every bound.

use crate::expected::{HIGHEST_COUNTER, MOST_BITS};
use crate::table::{of_length, record, LIMIT};
use seeded::Generator;

/// Lengths of a salt.
pub const SALTS: [usize; 5] = [0, 1, 15, 16, 17];

/// Digest lengths: both ends, both sides of the families' border, and numbers
/// that are admitted in their low bytes alone.
pub const BITS: [u64; 20] = [
    0,
    8,
    120,
    127,
    128,
    129,
    136,
    252,
    256,
    257,
    264,
    504,
    511,
    512,
    513,
    520,
    (1 << 16) + 256,
    (1 << 32) + 256,
    1 << 63,
    u64::MAX,
];

/// Rooms for a digest: none, one byte too few, just enough, and more. A length
/// that no room has stands for one of 64 bytes.
pub fn rooms(bits: u64) -> [usize; 4] {
    let right = match bits / 8 {
        bytes @ 0..=65 => bytes as usize,
        _ => 64,
    };
    [0, right.saturating_sub(1), right, right + 7]
}

/// A message by its bits and the bytes that are lent for it, with or without a set bit
/// behind the last one.
pub struct OfBits {
    pub bits: u64,
    bytes: usize,
    set: bool,
}

/// Messages that are whole bytes or end within one; with bytes too many or too few; with
/// a bit set behind the last one, in its byte or in one too many; and with more bits than
/// are lent, up to the limit and above.
pub const MESSAGES_OF_BITS: [OfBits; 20] = [
    of_bits(0, 0, false),
    of_bits(8, 1, false),
    of_bits(11, 2, false),
    of_bits(1391, 174, false),
    of_bits(1392, 174, false),
    of_bits(0, 1, false),
    of_bits(1, 0, false),
    of_bits(11, 1, false),
    of_bits(11, 3, false),
    of_bits(16, 3, false),
    of_bits((1 << 32) + 11, 2, false),
    of_bits(8 << 32, 0, false),
    of_bits(MOST_BITS, 5, false),
    of_bits(MOST_BITS + 1, 5, false),
    of_bits(u64::MAX, 0, false),
    of_bits(11, 2, true),
    of_bits(1391, 174, true),
    of_bits(0, 1, true),
    of_bits(11, 3, true),
    of_bits(16, 3, true),
];

const fn of_bits(bits: u64, bytes: usize, set: bool) -> OfBits {
    OfBits { bits, bytes, set }
}

impl OfBits {
    /// The bytes: those of the message at random, and behind them zeros but for one bit.
    pub fn bytes(&self, generator: &mut Generator) -> Vec<u8> {
        let mut bytes = generator.vector(self.bytes);
        let all = 8 * self.bytes as u64;
        for place in self.bits.min(all)..all {
            bytes[place as usize / 8] &= !(0x80 >> (place % 8));
        }
        if self.set {
            let place = self.bits + generator.below(all - self.bits);
            bytes[place as usize / 8] |= 0x80 >> (place % 8);
        }
        bytes
    }
}

/// Lengths of a square.
pub const SQUARES: [usize; 6] = [0, 1, 255, 256, 257, 512];

/// Round counts.
pub const COUNTS: [u64; 10] = [0, 1, 7, 8, 9, 10, 11, 256 + 8, (1 << 32) + 10, u64::MAX];

/// Starting counters: the first two are admitted.
pub const COUNTERS: [u64; 4] = [0, HIGHEST_COUNTER, HIGHEST_COUNTER + 1, u64::MAX];

/// Starting counters of 128 bits, all of which are admitted: those of 64 bits, and
/// some that need more.
pub const WIDE_COUNTERS: [u128; 7] = [
    0,
    HIGHEST_COUNTER as u128,
    HIGHEST_COUNTER as u128 + 1,
    u64::MAX as u128,
    1 << 64,
    u128::MAX - 160,
    u128::MAX,
];

/// Numbers of a mode: the first two have one.
pub const MODES: [u8; 4] = [0, 1, 2, 255];

/// Sizes of a chaining value and a block: the first three are of a family, the
/// first in both modes, the second in double-pipe and the third in single-pipe.
pub const SIZES: [(usize, usize); 34] = [
    (64, 192),
    (128, 128),
    (32, 224),
    (192, 64),
    (128, 192),
    (192, 128),
    (64, 128),
    (32, 192),
    (32, 128),
    (64, 224),
    (128, 224),
    (224, 32),
    (31, 224),
    (33, 224),
    (32, 223),
    (32, 225),
    (31, 225),
    (33, 223),
    (63, 192),
    (65, 192),
    (64, 191),
    (64, 193),
    (127, 128),
    (129, 128),
    (128, 127),
    (128, 129),
    (129, 127),
    (0, 0),
    (0, 192),
    (0, 224),
    (32, 0),
    (64, 0),
    (0, 256),
    (256, 0),
];

/// Rooms for a fingerprint.
pub const FINGERPRINT_ROOMS: [usize; 4] = [0, 31, 32, 40];

/// Tables that are valid, of an unknown kind and cut short; each short, of the
/// longest length, and over it.
pub fn tables(generator: &mut Generator) -> Vec<Vec<u8>> {
    let mut tables = vec![vec![]];
    for length in [7, 100, LIMIT, LIMIT + 1, LIMIT + 300] {
        tables.push(of_length(generator, length));
        tables.push(unknown_at_the_front(generator, length));
        tables.push(unknown_at_the_end(generator, length));
        tables.push(cut_at_the_end(generator, length));
        if length > 7 {
            tables.push(cut_with_unknown_in_its_body(generator, length));
            tables.push(unknown_before_a_cut(generator, length));
        }
    }
    tables
}

/// Places of a table: its first record and the next, both sides of the last byte and of
/// the end, and far beyond that.
pub fn places(table: &[u8]) -> Vec<u64> {
    let end = table.len() as u64;
    let mut places = vec![0, 1, 7, 8, end.saturating_sub(30)];
    places.extend([end.saturating_sub(1), end, end + 1]);
    places.extend([LIMIT as u64, LIMIT as u64 + 1, 1 << 32, 1 << 63, u64::MAX]);
    places
}

/// Kind bytes: those of records, and such as have them in their low bits.
pub const KINDS: [u8; 12] = [0, 1, 2, 3, 4, 5, 6, 7, 0x81, 0x82, 0xfd, 0xff];

/// Lengths of a body: those of records, one less and one more, and none.
pub const BODIES: [usize; 12] = [0, 1, 2, 3, 4, 5, 6, 7, 31, 32, 33, 256 + 2];

/// Rooms for records.
pub const WRITING_ROOMS: [usize; 7] = [0, 1, 3, 7, 33, 40, 300];

/// Places of a room for a body: at its front, the last where it fits and the next, both
/// sides of the end, and those from which a record ends past 2^64.
pub fn writing_places(room: usize, body: usize) -> [u64; 9] {
    let (room, body) = (room as u64, body as u64);
    let last = room.saturating_sub(1 + body);
    let over = u64::MAX - body;
    [
        0,
        last,
        last + 1,
        room,
        room + 1,
        over,
        over - 1,
        1 << 32,
        u64::MAX,
    ]
}

fn unknown_at_the_front(generator: &mut Generator, length: usize) -> Vec<u8> {
    let mut table = of_length(generator, length);
    table[0] = generator.pick(&[0, 6, 7, 0x81, 0xff]);
    table
}

fn unknown_at_the_end(generator: &mut Generator, length: usize) -> Vec<u8> {
    let mut table = of_length(generator, length - 1);
    table.push(generator.pick(&[0, 6, 0x85, 0xff]));
    table
}

/// A record of which only the kind byte is there.
fn cut_at_the_end(generator: &mut Generator, length: usize) -> Vec<u8> {
    let mut table = of_length(generator, length - 1);
    table.push(record(generator)[0]);
    table
}

/// What is left of the last record's body looks like unknown kinds.
fn cut_with_unknown_in_its_body(generator: &mut Generator, length: usize) -> Vec<u8> {
    let mut table = of_length(generator, length - 30);
    table.push(5);
    table.extend([0xff; 29]);
    table
}

/// Behind the unknown kind stands what would be a record cut short.
fn unknown_before_a_cut(generator: &mut Generator, length: usize) -> Vec<u8> {
    let mut table = of_length(generator, length - 30);
    table.extend([0xff, 5]);
    table.extend(generator.vector(28));
    table
}
