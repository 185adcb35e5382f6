//! Cases that are refused: by one input at a time, and by the salt together with
//! another. No counter is a reason, so that each has any, among them those that would
//! be refused in 64 bits.

use super::super::{refused, single_pipe};
use super::{done, Case, Kind};
use seeded::Generator;

pub fn cases(generator: &mut Generator) -> Vec<Case> {
    let mut cases = Vec::new();
    for kind in [Kind::RoundsWide, Kind::RoundsBackWide] {
        cases.extend(salts(generator, kind));
        cases.extend(squares(generator, kind));
    }
    let of_double_pipe = [&refused::SIZES[..], &single_pipe::DOUBLE_PIPE].concat();
    for (kind, sizes) in [
        (Kind::CompressWide, &of_double_pipe[..]),
        (Kind::CompressSingleWide, &single_pipe::SIZES),
    ] {
        cases.extend(salts(generator, kind));
        cases.extend(compressions(generator, kind, sizes));
    }
    cases
}

/// A case that would be done. One time in two its lower half is all ones, and then
/// the upper half is zero every other time.
fn admitted(generator: &mut Generator, kind: Kind) -> Case {
    let rounds = generator.pick(&[8, 10]);
    let counter = match generator.below(4) {
        0 => u64::MAX.into(),
        1 => u128::from(generator.number()) << 64 | u128::from(u64::MAX),
        _ => u128::from_le_bytes(generator.bytes()),
    };
    done(generator, (kind, rounds), counter)
}

/// Number 2 alone.
fn salts(generator: &mut Generator, kind: Kind) -> Vec<Case> {
    let lengths = [0, 15, 17];
    let cases = lengths.map(|salt_length| Case {
        salt_length,
        ..admitted(generator, kind)
    });
    cases.into()
}

/// Number 6 alone, by the square and by the round count, and behind 2.
fn squares(generator: &mut Generator, kind: Kind) -> Vec<Case> {
    let mut cases = Vec::new();
    for a_length in [0, 255, 257] {
        let case = admitted(generator, kind);
        cases.push(Case { a_length, ..case });
    }
    for count in [0, 7, 9, 11, 255] {
        let case = admitted(generator, kind);
        cases.push(Case { count, ..case });
    }
    for (salt_length, a_length, count) in [(15, 255, 10), (17, 256, 9), (0, 0, 0)] {
        cases.push(Case {
            salt_length,
            a_length,
            count,
            ..admitted(generator, kind)
        });
    }
    cases
}

/// Number 6 alone, by the sizes, and behind 2.
fn compressions(generator: &mut Generator, kind: Kind, sizes: &[(u16, u16)]) -> Vec<Case> {
    let alone = sizes.iter().map(|sizes| (16, *sizes));
    let behind = [(15, sizes[0]), (17, (0, 0))];
    alone
        .chain(behind)
        .map(|(salt_length, (a_length, b_length))| Case {
            salt_length,
            a_length,
            b_length,
            ..admitted(generator, kind)
        })
        .collect()
}
