//! Cases in single-pipe, behind those in double-pipe: messages of every length over
//! three blocks, all digest lengths around the block edges, and what is refused.

use super::record::Case;
use super::{block, pieces, refused, some_salt};
use plain::mode::Mode::SinglePipe;
use seeded::Generator;

/// How many blocks long the messages are at most.
const BLOCKS: u16 = 3;

/// How often each message around a block edge is digested.
pub const CUTS: usize = 2;

pub fn cases(generator: &mut Generator) -> Vec<Case> {
    let mut cases = every_length(generator);
    cases.extend(block_edges(generator));
    cases.extend(refused::cases(generator));
    for case in &mut cases {
        case.mode = SinglePipe;
    }
    cases
}

/// For one digest length of each family, a message of every length to three bytes
/// past the last block. At once and pieces of all sizes come in turn.
pub fn every_length(generator: &mut Generator) -> Vec<Case> {
    let mut cases = Vec::new();
    for bits in [256, 512] {
        let b = block(SinglePipe, bits);
        for length in 0..=BLOCKS * b + 3 {
            let sizes = pieces(b, length);
            let turn = usize::from(length) % (sizes.len() + 1);
            let piece = sizes.get(turn).copied().unwrap_or(0);
            cases.push(some_salt(generator, bits, length, piece));
        }
    }
    cases
}

/// For every admitted digest length, messages on both sides of where the padding
/// needs one block more and of a block's end, and two of any length: at once, and
/// in pieces of a size that comes in turn. There are nineteen messages and nine
/// sizes, so that each meets each.
pub fn block_edges(generator: &mut Generator) -> Vec<Case> {
    let mut cases = Vec::new();
    for bits in (128..=512).step_by(8) {
        let b = block(SinglePipe, bits);
        let edges = (1..=BLOCKS).flat_map(|j| {
            let end = j * b;
            [end - 19, end - 18, end - 1, end, end + 1]
        });
        let others = [(); 2].map(|()| generator.below(1025) as u16);
        for length in edges.chain([0, 1]).chain(others) {
            let sizes = pieces(b, length);
            let size = sizes[cases.len() / CUTS % sizes.len()];
            let message = some_salt(generator, bits, length, 0);
            cases.extend([0, size].map(|piece| Case {
                piece,
                ..message.clone()
            }));
        }
    }
    cases
}
