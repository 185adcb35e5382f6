//! Every length of a message up to more than three blocks, in both families of
//! digest lengths and both modes. The shortest that fails is found first.

use crate::case::Case;
use crate::draw;
use crate::family::{Family, Run};

pub const FAMILY: Family = Family {
    name: "digests of every length from 0 to 700 bytes, in both modes",
    run,
};

fn run(run: &mut Run) -> Result<(), String> {
    for length in 0..=700 {
        for bits in [256, 512] {
            let case = draw::digest(&mut run.generator, bits, length);
            for (routine, _) in draw::digests(bits) {
                run.check(&Case {
                    routine,
                    ..case.clone()
                })?;
            }
        }
    }
    Ok(())
}
