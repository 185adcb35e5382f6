//! Rounds both ways from counters of 128 bits, by the wrapper and by the C functions
//! themselves: wherever the counter goes over into its upper half or to 0, and at
//! random.

use super::null_pointers::WITH_NULL;
use crate::case::{Case, Routine};
use crate::draw;
use crate::family::{Family, Run};
use std::mem;

pub const FAMILY: Family = Family {
    name: "rounds both ways from counters of 128 bits",
    run,
};

const USUAL: usize = 1_000;

fn run(run: &mut Run) -> Result<(), String> {
    each_wide_start(run, USUAL, |run, count, counter| {
        for routine in [
            Routine::RoundsWide { count, counter },
            Routine::RoundsBackWide { count, counter },
        ] {
            let case = draw::on_square(&mut run.generator, routine);
            check_by_both(run, &case)?;
        }
        Ok(())
    })
}

/// Tries something with every counter that goes over within a run and both round
/// counts, and then with random ones.
pub fn each_wide_start(
    run: &mut Run,
    usual: usize,
    attempt: fn(&mut Run, u64, u128) -> Result<(), String>,
) -> Result<(), String> {
    for counter in draw::wide_starts() {
        for count in [8, 10] {
            attempt(run, count, counter)?;
        }
    }
    for _ in 0..run.cases(usual) {
        let counter = draw::wide_counter(&mut run.generator);
        let count = run.generator.pick(&[8, 10]);
        attempt(run, count, counter)?;
    }
    Ok(())
}

/// Checks a case by the implementation under trial and by the C functions, which take
/// the counter as two halves.
pub fn check_by_both(run: &mut Run, case: &Case) -> Result<(), String> {
    run.check(case)?;
    let subject = mem::replace(&mut run.subject, WITH_NULL);
    let checked = run.check(case);
    run.subject = subject;
    checked
}
