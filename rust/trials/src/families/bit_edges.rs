//! Every admitted digest length in both modes, with messages that end in each part of a
//! byte on both sides of where the padding needs one block more, and of a block's end, by
//! the wrapper and by the C function itself.

use super::wide_rounds::check_by_both;
use crate::draw;
use crate::family::{Family, Run};

pub const FAMILY: Family = Family {
    name: "digests of messages in bits round the block edges, all 49 lengths in both modes",
    run,
};

/// How many blocks long the messages are at most.
const BLOCKS: u64 = 3;

fn run(run: &mut Run) -> Result<(), String> {
    for bits in draw::digest_lengths() {
        for mode in [0, 1] {
            for message_bits in edges(8 * draw::block_in(mode, bits) as u64) {
                let case = draw::digest_bits(&mut run.generator, mode, bits, message_bits);
                check_by_both(run, &case)?;
            }
        }
    }
    Ok(())
}

/// Bits of the messages: eight on each side of every edge.
fn edges(block: u64) -> impl Iterator<Item = u64> {
    let edges = (1..=BLOCKS).flat_map(move |blocks| {
        let end = blocks * block;
        [end - 145, end]
    });
    edges.flat_map(|edge| edge - 8..=edge + 8).chain(0..8)
}
