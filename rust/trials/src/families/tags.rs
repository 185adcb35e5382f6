//! Tags of every admitted length, under keys on both sides of a block, of messages
//! that end, behind the key's block, on both sides of where the padding needs one
//! block more and of a block's end; and random ones.

#[cfg(test)]
mod tests;

use crate::draw;
use crate::family::{Family, Run};

pub const FAMILY: Family = Family {
    name: "tags of all 49 lengths round the block edges, and random ones",
    run,
};

const USUAL: usize = 2_000;

fn run(run: &mut Run) -> Result<(), String> {
    for bits in draw::digest_lengths() {
        for key in draw::keys(bits) {
            for length in edges(draw::block(bits)) {
                let case = draw::hmac(&mut run.generator, bits, key, length);
                run.check(&case)?;
            }
        }
    }
    for _ in 0..run.cases(USUAL) {
        let generator = &mut run.generator;
        let bits = 128 + 8 * generator.below(49);
        let mut some_length = |most: &[u64]| {
            let most = generator.pick(most);
            generator.below(most + 1) as usize
        };
        let key = some_length(&[20, 200, 200, 1000]);
        let length = some_length(&[20, 400, 400, 2000]);
        let case = draw::hmac(&mut run.generator, bits, key, length);
        run.check(&case)?;
    }
    Ok(())
}

/// Lengths of messages up to two blocks.
fn edges(block: usize) -> impl Iterator<Item = usize> {
    let edges = [block, 2 * block].map(|end| [end - 19, end - 18, end - 1, end, end + 1]);
    [0, 1].into_iter().chain(edges.concat())
}
