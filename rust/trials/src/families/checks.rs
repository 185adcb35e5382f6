//! Checks of tags: right ones for every admitted length and key, and those that
//! are nearly right, cut anywhere, longer, empty, or right for something else. Each tag
//! is verified too, by the routine whose answer says it all.

#[cfg(test)]
mod tests;

use crate::case::{Case, Routine};
use crate::draw;
use crate::family::{Family, Run};
use seeded::Generator;

pub const FAMILY: Family = Family {
    name: "checks of tags, right and nearly so",
    run,
};

const USUAL: usize = 1_000;

/// Digest lengths whose tags are checked with each bit changed: at both ends of
/// both families.
const EACH_BIT: [u64; 4] = [128, 256, 264, 512];

fn run(run: &mut Run) -> Result<(), String> {
    for bits in draw::digest_lengths() {
        for key in draw::keys(bits) {
            let right = draw::check(&mut run.generator, bits, key, 100);
            both(run, &right)?;
        }
        let right = draw::check(&mut run.generator, bits, 40, 30);
        let mut cases = other_lengths(&mut run.generator, &right);
        cases.extend(for_something_else(&mut run.generator, bits, &right));
        let bit = run.generator.below(bits) as usize;
        cases.push(flipped(&right, bit));
        cases.iter().try_for_each(|case| both(run, case))?;
    }
    for bits in EACH_BIT {
        let right = draw::check(&mut run.generator, bits, 5, 3);
        for bit in 0..bits as usize {
            both(run, &flipped(&right, bit))?;
        }
    }
    for _ in 0..run.cases(USUAL) {
        let case = some(&mut run.generator);
        both(run, &case)?;
    }
    Ok(())
}

/// A check, and the same tag verified.
fn both(run: &mut Run, check: &Case) -> Result<(), String> {
    let Routine::HmacCheck { bits } = check.routine else {
        panic!("no check: {check}");
    };
    run.check(check)?;
    run.check(&check.with(Routine::HmacVerify { bits }))
}

/// The right tag cut at every length, the empty one among them, and longer by
/// some bytes.
fn other_lengths(generator: &mut Generator, right: &Case) -> Vec<Case> {
    let whole = right.lent.len();
    let mut cases: Vec<Case> = (0..whole).map(|length| resized(right, length)).collect();
    cases.extend([1, 16, 64].map(|more| resized(right, whole + more)));
    let mut longer = right.clone();
    longer.lent.extend(generator.vector(7));
    cases.push(longer);
    cases
}

/// The right tag of another key, another message, another salt and another digest
/// length, of as many bytes as its own.
fn for_something_else(generator: &mut Generator, bits: u64, right: &Case) -> Vec<Case> {
    let parts: [fn(&mut Case) -> &mut Vec<u8>; 3] = [
        |case| &mut case.key,
        |case| &mut case.input,
        |case| &mut case.salt,
    ];
    let mut cases = Vec::new();
    for part in parts {
        let mut case = right.clone();
        let bytes = part(&mut case);
        let bit = generator.below(8 * bytes.len() as u64) as usize;
        bytes[bit / 8] ^= 1 << (bit % 8);
        cases.push(case);
    }
    let other = if bits == 512 { 504 } else { bits + 8 };
    let mut case = right.clone();
    case.lent = draw::right_tag(other, right);
    cases.push(case.clone());
    case.lent.resize(right.lent.len(), 0);
    cases.push(case);
    cases
}

/// A check of any sort, right one time in two.
fn some(generator: &mut Generator) -> Case {
    let bits = 128 + 8 * generator.below(49);
    let key = generator.below(300) as usize;
    let length = generator.below(300) as usize;
    let right = draw::check(generator, bits, key, length);
    match generator.below(8) {
        0..=3 => right,
        4..=5 => flipped(&right, generator.below(bits) as usize),
        6 => resized(&right, generator.below(100) as usize),
        _ => Case {
            lent: generator.vector(right.lent.len()),
            ..right
        },
    }
}

/// The same check with one bit of the tag changed.
fn flipped(case: &Case, bit: usize) -> Case {
    let mut flipped = case.clone();
    flipped.lent[bit / 8] ^= 1 << (bit % 8);
    flipped
}

/// The same check with the tag cut, or zeros behind it.
fn resized(case: &Case, length: usize) -> Case {
    let mut resized = case.clone();
    resized.lent.resize(length, 0);
    resized
}
