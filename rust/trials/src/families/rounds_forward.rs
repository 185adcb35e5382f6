//! Rounds forward, at the bounds of the counter and at random.

use crate::case::Routine;
use crate::draw;
use crate::family::{Family, Run};

pub const FAMILY: Family = Family {
    name: "rounds forward",
    run,
};

const USUAL: usize = 2_000;

fn run(run: &mut Run) -> Result<(), String> {
    each_start(run, USUAL, |run, count, counter| {
        let routine = Routine::Rounds { count, counter };
        let case = draw::on_square(&mut run.generator, routine);
        run.check(&case)
    })
}

/// Tries something with every counter at a bound and both round counts, and then
/// with random ones.
pub fn each_start(
    run: &mut Run,
    usual: usize,
    attempt: fn(&mut Run, u64, u64) -> Result<(), String>,
) -> Result<(), String> {
    for counter in draw::COUNTERS {
        for count in [8, 10] {
            attempt(run, count, counter)?;
        }
    }
    for _ in 0..run.cases(usual) {
        let counter = draw::counter(&mut run.generator);
        let count = run.generator.pick(&[8, 10]);
        attempt(run, count, counter)?;
    }
    Ok(())
}
