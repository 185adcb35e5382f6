//! Cases of the program `echo_cases`: rounds forward and backward, and
//! compression in both modes, from counters of 64 bits and of 128, done and refused.

mod record;
mod refused;
mod single_pipe;
#[cfg(test)]
mod tests;
mod wide;

use crate::file::File;
use plain::mode::Mode::{self, DoublePipe, SinglePipe};
use plain::refusal::COUNTER_LIMIT;
use plain::{digest, family, padding};
use record::{Case, Kind};
use seeded::Generator;

/// The program's input and the output it has to give.
pub fn files() -> Vec<File> {
    let cases = cases();
    vec![
        File {
            path: "crates/echo_cases/stdin",
            bytes: cases.iter().flat_map(Case::record).collect(),
        },
        File {
            path: "crates/echo_cases/stdout",
            bytes: cases.iter().map(Case::line).collect::<String>().into(),
        },
    ]
}

fn cases() -> Vec<Case> {
    let mut generator = Generator::new(1);
    let counters = counters(&mut generator);
    let mut cases = on_squares(&mut generator, &counters);
    cases.extend(compressions(&mut generator, DoublePipe, &counters));
    cases.extend(empty_messages(&mut generator));
    cases.extend(refused::cases(&mut generator));
    cases.extend(by_bytes(&cases));
    cases.extend(single_pipe::cases(&mut Generator::new(8)));
    cases.extend(wide::cases(&mut Generator::new(11), &cases));
    cases
}

/// All cases of rounds forward once more, by the other path: the same answers.
fn by_bytes(cases: &[Case]) -> Vec<Case> {
    let forward = cases.iter().filter(|case| case.kind == Kind::Rounds);
    let other = |case: &Case| Case {
        kind: Kind::RoundsByBytes,
        ..case.clone()
    };
    forward.map(other).collect()
}

/// Starting counters: small ones, those whose 128 or 160 words cross a byte or
/// the lower half, those with the top bit set, up to the highest.
fn counters(generator: &mut Generator) -> Vec<u64> {
    let mut counters = vec![0, 1, 255, 256, 1536];
    counters.extend([u64::from(u32::MAX), (1 << 32) - 80, 1 << 63, COUNTER_LIMIT]);
    counters.extend([(); 2].map(|_| generator.number().min(COUNTER_LIMIT)));
    counters
}

/// Rounds at every counter, and backward too: every other time from the square
/// where the rounds ended, so that the square they began with is the answer.
fn on_squares(generator: &mut Generator, counters: &[u64]) -> Vec<Case> {
    let mut cases = Vec::new();
    for (turn, count) in [8, 10].into_iter().enumerate() {
        for (index, &counter) in counters.iter().enumerate() {
            let mut forward = Case::on_square(generator, Kind::Rounds, count, counter);
            let mut backward = Case::on_square(generator, Kind::RoundsBack, count, counter);
            if (index + turn) % 2 == 0 {
                forward.salt[..16].fill(0);
            } else {
                backward.salt[..16].fill(0);
            }
            match index {
                0 => forward.a[..256].fill(0x00),
                1 => backward.a[..256].fill(0x00),
                7 => backward.a[..256].fill(0xff),
                8 => forward.a[..256].fill(0xff),
                _ => {}
            }
            if index % 2 == 0 {
                backward.salt = forward.salt;
                backward.a = forward.answer().1;
            }
            cases.extend([forward, backward]);
        }
    }
    cases
}

/// Compressions of both families of a mode at every counter.
fn compressions(generator: &mut Generator, mode: Mode, counters: &[u64]) -> Vec<Case> {
    let kind = match mode {
        DoublePipe => Kind::Compress,
        SinglePipe => Kind::CompressSingle,
    };
    let mut cases = Vec::new();
    for (turn, family) in family::of_mode(mode).into_iter().enumerate() {
        let (chaining, block) = (family.chaining, family.block);
        for (index, &counter) in counters.iter().enumerate() {
            let mut case = Case::compress(generator, kind, chaining as u16, block as u16, counter);
            if (index + turn) % 2 == 0 {
                case.salt[..16].fill(0);
            }
            let all_bytes = match index {
                1 => Some(0x00),
                7 => Some(0xff),
                _ => None,
            };
            if let Some(byte) = all_bytes {
                case.a[..chaining].fill(byte);
                case.b[..block].fill(byte);
            }
            cases.push(case);
        }
    }
    cases
}

/// The one compression of the empty message at each published digest length:
/// the answer begins with the published digest.
fn empty_messages(generator: &mut Generator) -> Vec<Case> {
    [224, 256, 384, 512]
        .into_iter()
        .map(|bits| {
            let (chaining, block) = (
                digest::initial(DoublePipe, bits),
                padding::pad(DoublePipe, bits, b"", 0),
            );
            let (a, b) = (chaining.len(), block.len());
            let mut case = Case::compress(generator, Kind::Compress, a as u16, b as u16, 0);
            case.salt[..16].fill(0);
            case.a[..a].copy_from_slice(&chaining);
            case.b[..b].copy_from_slice(&block);
            case
        })
        .collect()
}
