//! Every length of a message in bits up to more than two blocks of any family, in both
//! families of digest lengths and both modes, by the wrapper and by the C function
//! itself; and random ones. The shortest that fails is found first.

use super::wide_rounds::check_by_both;
use crate::draw;
use crate::family::{Family, Run};

pub const FAMILY: Family = Family {
    name: "digests of every length from 0 to 4700 bits, in both modes",
    run,
};

const MOST: u64 = 4_700;
const USUAL: usize = 500;

fn run(run: &mut Run) -> Result<(), String> {
    for message_bits in 0..=MOST {
        for bits in [256, 512] {
            for mode in [0, 1] {
                let case = draw::digest_bits(&mut run.generator, mode, bits, message_bits);
                check_by_both(run, &case)?;
            }
        }
    }
    for _ in 0..run.cases(USUAL) {
        let bits = 128 + 8 * run.generator.below(49);
        let (mode, message_bits) = (run.generator.below(2), run.generator.below(20_000));
        let case = draw::digest_bits(&mut run.generator, mode as u8, bits, message_bits);
        check_by_both(run, &case)?;
    }
    Ok(())
}
