//! Cases that are refused: by one input at a time, then by several, where the
//! lowest number has to win.

use super::record::{Case, Kind};
use seeded::Generator;

const KINDS: [Kind; 3] = [Kind::Rounds, Kind::RoundsBack, Kind::Compress];

/// Sizes of chaining value and block that belong to no family, some of them
/// filling the square all the same.
pub const SIZES: [(u16, u16); 9] = [
    (64, 128),
    (64, 191),
    (64, 193),
    (128, 192),
    (128, 127),
    (63, 192),
    (0, 0),
    (192, 64),
    (129, 127),
];

pub fn cases(generator: &mut Generator) -> Vec<Case> {
    let mut cases = salts(generator);
    cases.extend(shapes(generator));
    cases.extend(counters(generator));
    cases.extend(several(generator));
    cases
}

/// A case that would be done.
fn admitted(generator: &mut Generator, kind: Kind) -> Case {
    let counter = generator.number() >> 1;
    let long = generator.below(2) == 1;
    match (kind, long) {
        (Kind::Compress, false) => Case::compress(generator, kind, 64, 192, counter),
        (Kind::Compress, true) => Case::compress(generator, kind, 128, 128, counter),
        (_, false) => Case::on_square(generator, kind, 8, counter),
        (_, true) => Case::on_square(generator, kind, 10, counter),
    }
}

/// Number 2 alone.
fn salts(generator: &mut Generator) -> Vec<Case> {
    let mut cases = Vec::new();
    for kind in KINDS {
        for salt_length in [0, 15, 17] {
            let case = admitted(generator, kind);
            cases.push(Case {
                salt_length,
                ..case
            });
        }
    }
    cases
}

/// Number 6 alone: squares, round counts, sizes.
fn shapes(generator: &mut Generator) -> Vec<Case> {
    let mut cases = Vec::new();
    for (kind, counts) in [
        (Kind::Rounds, &[0, 7, 9, 11, 255][..]),
        (Kind::RoundsBack, &[0, 9, 255]),
    ] {
        for a_length in [0, 255, 257] {
            let case = admitted(generator, kind);
            cases.push(Case { a_length, ..case });
        }
        for &count in counts {
            let case = admitted(generator, kind);
            cases.push(Case { count, ..case });
        }
    }
    for (a_length, b_length) in SIZES {
        let case = admitted(generator, Kind::Compress);
        cases.push(Case {
            a_length,
            b_length,
            ..case
        });
    }
    cases
}

/// Number 7 alone.
fn counters(generator: &mut Generator) -> Vec<Case> {
    let mut cases = Vec::new();
    for kind in KINDS {
        for counter in [u64::MAX - 159, u64::MAX] {
            let case = admitted(generator, kind);
            cases.push(Case { counter, ..case });
        }
    }
    cases
}

/// Each combination of 2, 6 and 7, for each kind.
fn several(generator: &mut Generator) -> Vec<Case> {
    let mut cases = Vec::new();
    for kind in KINDS {
        for (salt, shape, counter) in [
            (true, true, false),
            (true, false, true),
            (false, true, true),
            (true, true, true),
        ] {
            let mut case = admitted(generator, kind);
            if salt {
                case.salt_length = 15;
            }
            match kind {
                Kind::Rounds if shape => case.a_length = 255,
                Kind::RoundsBack if shape => case.count = 9,
                Kind::Compress if shape => case.b_length = 191,
                _ => {}
            }
            if counter {
                case.counter = u64::MAX - 159;
            }
            cases.push(case);
        }
    }
    cases
}
