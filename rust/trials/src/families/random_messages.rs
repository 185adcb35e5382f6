//! Random messages with random salts, any admitted digest length and either mode.

use crate::case::Case;
use crate::draw;
use crate::family::{Family, Run};

pub const FAMILY: Family = Family {
    name: "digests of random messages, in both modes",
    run,
};

const USUAL: usize = 20_000;

fn run(run: &mut Run) -> Result<(), String> {
    for _ in 0..run.cases(USUAL) {
        let bits = 128 + 8 * run.generator.below(49);
        let most = run.generator.pick(&[20, 200, 400, 400, 400, 2000]);
        let length = run.generator.below(most + 1) as usize;
        let (routine, _) = run.generator.pick(&draw::digests(bits));
        let case = draw::digest(&mut run.generator, bits, length);
        run.check(&Case { routine, ..case })?;
    }
    Ok(())
}
