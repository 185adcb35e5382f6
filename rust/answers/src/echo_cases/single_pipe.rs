//! Compressions in single-pipe, done and refused, and sizes of single-pipe in
//! double-pipe.

use super::record::{Case, Kind};
use super::{compressions, counters};
use plain::mode::Mode::SinglePipe;
use seeded::Generator;

/// Sizes of chaining value and block that single-pipe does not have: those of
/// double-pipe, mixed ones, and those that are one byte off, some of them filling
/// the square all the same.
pub const SIZES: [(u16, u16); 23] = [
    (128, 128),
    (64, 128),
    (128, 192),
    (128, 224),
    (32, 192),
    (64, 224),
    (32, 128),
    (31, 224),
    (33, 224),
    (32, 223),
    (32, 225),
    (31, 225),
    (33, 223),
    (63, 192),
    (65, 192),
    (64, 191),
    (64, 193),
    (224, 32),
    (192, 64),
    (0, 0),
    (0, 224),
    (32, 0),
    (256, 0),
];

/// Sizes that double-pipe does not have, and single-pipe does or nearly does.
pub const DOUBLE_PIPE: [(u16, u16); 3] = [(32, 224), (32, 192), (64, 224)];

pub fn cases(generator: &mut Generator) -> Vec<Case> {
    let counters = counters(generator);
    let mut cases = compressions(generator, SinglePipe, &counters);
    cases.extend(same_block(generator));
    cases.extend(refused(generator));
    cases
}

/// The same 64 and 192 bytes in both modes.
fn same_block(generator: &mut Generator) -> Vec<Case> {
    let double = Case::compress(generator, Kind::Compress, 64, 192, 1536);
    let single = Case {
        kind: Kind::CompressSingle,
        ..double.clone()
    };
    vec![double, single]
}

/// Numbers 2, 6 and 7 alone, and each combination.
fn refused(generator: &mut Generator) -> Vec<Case> {
    let mut cases = Vec::new();
    for (a_length, b_length) in [(32, 224), (64, 192)] {
        let mut admitted = || {
            let counter = generator.number() >> 1;
            Case::compress(generator, Kind::CompressSingle, a_length, b_length, counter)
        };
        for salt_length in [0, 15, 17] {
            cases.push(Case {
                salt_length,
                ..admitted()
            });
        }
        for counter in [u64::MAX - 159, u64::MAX] {
            cases.push(Case {
                counter,
                ..admitted()
            });
        }
        for (salt_length, b_length, counter) in [
            (15, b_length - 1, 0),
            (15, b_length, u64::MAX),
            (16, b_length - 1, u64::MAX),
            (15, b_length - 1, u64::MAX),
        ] {
            cases.push(Case {
                salt_length,
                b_length,
                counter,
                ..admitted()
            });
        }
    }
    for (a_length, b_length) in SIZES {
        let counter = generator.number() >> 1;
        let kind = Kind::CompressSingle;
        cases.push(Case::compress(generator, kind, a_length, b_length, counter));
    }
    for (a_length, b_length) in DOUBLE_PIPE {
        let counter = generator.number() >> 1;
        let kind = Kind::Compress;
        cases.push(Case::compress(generator, kind, a_length, b_length, counter));
    }
    cases
}
