//! Every admitted digest length in both modes, with messages that end on both sides
//! of where the padding needs one block more, and of a block's end.

use crate::case::Case;
use crate::draw;
use crate::family::{Family, Run};

pub const FAMILY: Family = Family {
    name: "digests of all 49 lengths round the block edges, in both modes",
    run,
};

/// How many blocks long the messages are at most.
const BLOCKS: usize = 4;

fn run(run: &mut Run) -> Result<(), String> {
    for bits in draw::digest_lengths() {
        for (routine, block) in draw::digests(bits) {
            for length in edges(block) {
                let case = draw::digest(&mut run.generator, bits, length);
                run.check(&Case { routine, ..case })?;
            }
        }
    }
    Ok(())
}

/// Lengths of the messages.
fn edges(block: usize) -> impl Iterator<Item = usize> {
    let edges = (1..=BLOCKS).flat_map(move |blocks| {
        let end = blocks * block;
        [end - 19, end - 18, end - 17, end - 1, end, end + 1]
    });
    edges.chain([0, 1])
}
