//! Rounds and compression from counters of 128 bits, done and refused. From starts
//! around 2^64, and from the last ones below 2^128, the counter goes over within a
//! run: into its upper half, and to 0.

mod refused;

use super::record::{Case, Kind};
use plain::refusal::{self, COUNTER_LIMIT};
use seeded::Generator;
use Kind::{CompressSingleWide, CompressWide, RoundsBackWide, RoundsWide};

/// Where a counter goes over into its upper half.
const EDGE: u128 = 1 << 64;

/// The words of ten rounds.
const WORDS: u128 = 160;

/// Of the cases of before that are done, one in so many is one of a pair. Odd, since
/// forward and backward stand there by turns.
const EVERY: usize = 11;

/// All kinds, with ten rounds and with eight.
const TURNS: [(Kind, u8); 8] = [
    (RoundsWide, 10),
    (CompressWide, 8),
    (RoundsBackWide, 10),
    (CompressSingleWide, 8),
    (RoundsWide, 8),
    (CompressWide, 10),
    (RoundsBackWide, 8),
    (CompressSingleWide, 10),
];

pub fn cases(generator: &mut Generator, before: &[Case]) -> Vec<Case> {
    let mut cases = into_the_upper_half(generator);
    cases.extend(behind_the_edge(generator));
    cases.extend(to_zero(generator));
    cases.extend(over(generator, EDGE));
    cases.extend(over(generator, 0));
    cases.extend(in_between(generator));
    cases.extend(pairs(before));
    cases.extend(refused::cases(generator));
    cases
}

/// A case that is done, with so many rounds.
fn done(generator: &mut Generator, (kind, rounds): (Kind, u8), counter: u128) -> Case {
    let (low, upper) = (counter as u64, (counter >> 64) as u64);
    let case = match (kind, rounds) {
        (CompressWide, 8) => Case::compress(generator, kind, 64, 192, low),
        (CompressWide, _) => Case::compress(generator, kind, 128, 128, low),
        (CompressSingleWide, 8) => Case::compress(generator, kind, 32, 224, low),
        (CompressSingleWide, _) => Case::compress(generator, kind, 64, 192, low),
        _ => Case::on_square(generator, kind, rounds, low),
    };
    Case { upper, ..case }
}

/// Ten rounds from each start below 2^64, so that every word is once the first one
/// with an upper half: backward from every other start, and else by turns.
fn into_the_upper_half(generator: &mut Generator) -> Vec<Case> {
    let others = [RoundsWide, CompressWide, CompressSingleWide];
    let mut others = others.into_iter().cycle();
    let mut kind = |before: u128| match before % 2 {
        0 => others.next().expect("always one more"),
        _ => RoundsBackWide,
    };
    (1..=WORDS)
        .map(|before| done(generator, (kind(before), 10), EDGE - before))
        .collect()
}

/// From 2^64 on, all kinds by turns.
fn behind_the_edge(generator: &mut Generator) -> Vec<Case> {
    let turns = TURNS.into_iter().cycle();
    (EDGE..=EDGE + WORDS)
        .zip(turns)
        .map(|(counter, turn)| done(generator, turn, counter))
        .collect()
}

/// Ten rounds forward from each of the last starts, so that every word is once the
/// first one behind 2^128 - 1. Backward from those that
/// [`into_the_upper_half`] passes over, every other time from the square where the
/// rounds forward ended.
fn to_zero(generator: &mut Generator) -> Vec<Case> {
    let mut cases = Vec::new();
    for before in 1..=WORDS {
        let counter = 0u128.wrapping_sub(before);
        let forward = done(generator, (RoundsWide, 10), counter);
        let end = forward.answer().1;
        let salt = forward.salt;
        cases.push(forward);
        if before % 2 == 0 {
            let mut backward = done(generator, (RoundsBackWide, 10), counter);
            if before % 4 == 0 {
                (backward.salt, backward.a) = (salt, end);
            }
            cases.push(backward);
        }
    }
    cases
}

/// All kinds over an edge, each from two starts that are less than eight rounds
/// before it.
fn over(generator: &mut Generator, edge: u128) -> Vec<Case> {
    let turns = TURNS.into_iter().cycle();
    (3..128)
        .step_by(8)
        .zip(turns)
        .map(|(before, turn)| done(generator, turn, edge.wrapping_sub(before)))
        .collect()
}

/// Counters with some upper half: carries within the lower half and into more than
/// one byte of the upper one, both halves all ones or zero, the top bit, and random
/// ones.
fn in_between(generator: &mut Generator) -> Vec<Case> {
    let mut random = || u128::from(generator.number());
    let counters = [
        random() << 64,
        random() << 64 | u128::from(u64::MAX),
        random() << 64 | ((1 << 32) - 80),
        random() << 64 | random(),
        random() << 64 | random(),
        EDGE | random(),
        1 << 127 | random(),
        (1 << 127) - 80,
        1 << 127,
        (0xff << 64) + EDGE - 40,
        (0xffff_ffff << 64) + EDGE - 100,
        u128::MAX << 64,
        u128::MAX << 64 | random(),
        0x0f0e_0d0c_0b0a_0908_0706_0504_0302_0100,
    ];
    let turns = TURNS.into_iter().cycle();
    let pairs = counters.into_iter().zip(turns);
    pairs
        .map(|(counter, turn)| done(generator, turn, counter))
        .collect()
}

/// Cases of before once more, with an upper half of 0: all that are refused for
/// their counter alone, which these are not; those at the highest counter; and some
/// of the others that are done, which have the same answers.
fn pairs(before: &[Case]) -> Vec<Case> {
    let chosen = |(place, case): &(usize, &Case)| match case.answer().0 {
        refusal::COUNTER => true,
        refusal::NONE => case.counter == COUNTER_LIMIT || place % EVERY == 0,
        _ => false,
    };
    let widened = |(_, case): (usize, &Case)| {
        let kind = case.kind.widened()?;
        let upper = 0;
        Some(Case {
            kind,
            upper,
            ..case.clone()
        })
    };
    let cases = before.iter().enumerate().filter(chosen);
    cases.filter_map(widened).collect()
}
