//! Compressions in both families of both modes, at the bounds of the counter and at
//! random.

use crate::draw;
use crate::family::{Family, Run};

pub const FAMILY: Family = Family {
    name: "compressions, in both modes",
    run,
};

const USUAL: usize = 4_000;

fn run(run: &mut Run) -> Result<(), String> {
    for counter in draw::COUNTERS {
        for (routine, words) in draw::compressions(counter) {
            let case = draw::compression(&mut run.generator, routine, words);
            run.check(&case)?;
        }
    }
    for _ in 0..run.cases(USUAL) {
        let counter = draw::counter(&mut run.generator);
        let (routine, words) = run.generator.pick(&draw::compressions(counter));
        let case = draw::compression(&mut run.generator, routine, words);
        run.check(&case)?;
    }
    Ok(())
}
