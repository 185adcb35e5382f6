//! Messages of whole bytes by the function that takes bits and by the one that takes
//! bytes: the same comes of both, refusals of numbers included. This holds of the
//! implementation under trial by itself, whatever the references say.

use super::there_and_back::call;
use crate::case::{Case, Routine};
use crate::draw;
use crate::family::{Family, Run};

pub const FAMILY: Family = Family {
    name: "messages of whole bytes by the functions for bits and for bytes",
    run,
};

const USUAL: usize = 500;

fn run(run: &mut Run) -> Result<(), String> {
    for length in 0..=600 {
        for bits in [256, 512] {
            for mode in [0, 1] {
                both(run, mode, bits, length)?;
            }
        }
    }
    for _ in 0..run.cases(USUAL) {
        let bits = run.generator.below(600);
        let (mode, length) = (run.generator.below(2), run.generator.below(3_000));
        both(run, mode as u8, bits, length)?;
    }
    Ok(())
}

fn both(run: &mut Run, mode: u8, bits: u64, length: u64) -> Result<(), String> {
    let in_bits = draw::digest_bits(&mut run.generator, mode, bits, 8 * length);
    let in_bytes = Case {
        routine: Routine::DigestIn { mode, bits },
        ..in_bits.clone()
    };
    let (given, right) = (call(run, &in_bits)?, call(run, &in_bytes)?);
    if let Some(difference) = given.difference(&right) {
        return Err(format!("{in_bits}: {difference} by bytes"));
    }
    run.count(1);
    Ok(())
}
