//! Compressions from counters of 128 bits in both families of both modes, by the
//! wrapper and by the C function itself: wherever the counter goes over into its
//! upper half or to 0, and at random.

use super::wide_rounds::check_by_both;
use crate::draw;
use crate::family::{Family, Run};

pub const FAMILY: Family = Family {
    name: "compressions from counters of 128 bits, in both modes",
    run,
};

const USUAL: usize = 2_000;

fn run(run: &mut Run) -> Result<(), String> {
    for counter in draw::wide_starts() {
        for (routine, words) in draw::wide_compressions(counter) {
            let case = draw::compression(&mut run.generator, routine, words);
            check_by_both(run, &case)?;
        }
    }
    for _ in 0..run.cases(USUAL) {
        let counter = draw::wide_counter(&mut run.generator);
        let (routine, words) = run.generator.pick(&draw::wide_compressions(counter));
        let case = draw::compression(&mut run.generator, routine, words);
        check_by_both(run, &case)?;
    }
    Ok(())
}
