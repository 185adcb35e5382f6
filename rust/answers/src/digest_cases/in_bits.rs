//! Cases in bits, behind those in bytes: messages of every length over three blocks,
//! all digest lengths around the block edges, and what is refused.

use super::record::Case;
use super::{block, pieces, refused, some_salt};
use plain::mode::{Mode, MODES};
use seeded::Generator;

/// The most bits of a message of every length.
pub const MOST: u16 = 4_700;

/// How far from a block edge messages end, on both sides.
const NEAR: u16 = 8;

pub fn cases(generator: &mut Generator) -> Vec<Case> {
    let mut cases = every_length(generator);
    cases.extend(block_edges(generator));
    cases.extend(refused(generator));
    cases
}

/// For one digest length of each family and mode, a message of every length.
pub fn every_length(generator: &mut Generator) -> Vec<Case> {
    let mut cases = Vec::new();
    for mode in MODES {
        for bits in [256, 512] {
            for message_bits in 0..=MOST {
                let turn = message_bits / 8 + message_bits % 8;
                cases.push(case(generator, mode, bits, message_bits, turn));
            }
        }
    }
    cases
}

/// For every admitted digest length in both modes, messages with each size of a part of
/// a byte on both sides of where the padding needs one block more, and of a block's end,
/// up to two blocks.
pub fn block_edges(generator: &mut Generator) -> Vec<Case> {
    let mut cases = Vec::new();
    for mode in MODES {
        for bits in (128..=512).step_by(8) {
            let msize = 8 * block(mode, bits);
            for edge in [msize - 145, msize, 2 * msize - 145, 2 * msize] {
                for message_bits in edge - NEAR..=edge + NEAR {
                    let turn = cases.len() as u16;
                    cases.push(case(generator, mode, bits, message_bits, turn));
                }
            }
        }
    }
    cases
}

/// A message of so many bits. At once and pieces of all sizes come in turn.
fn case(generator: &mut Generator, mode: Mode, bits: u16, message_bits: u16, turn: u16) -> Case {
    let length = message_bits.div_ceil(8);
    let sizes = pieces(block(mode, bits), length);
    let turn = usize::from(turn) % (sizes.len() + 1);
    let piece = sizes.get(turn).copied().unwrap_or(0);
    Case {
        mode,
        unused: Some((8 * length - message_bits) as u8),
        ..some_salt(generator, bits, length, piece)
    }
}

/// What is refused in bytes, in bits and in both modes.
fn refused(generator: &mut Generator) -> Vec<Case> {
    let mut cases = Vec::new();
    for mode in MODES {
        for case in refused::cases(generator) {
            let unused = generator.below(if case.length == 0 { 1 } else { 8 });
            cases.push(Case {
                mode,
                unused: Some(unused as u8),
                ..case
            });
        }
    }
    cases
}
