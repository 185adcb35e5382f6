//! Cases of the program `digest_cases`: digests at once and over a session, in both
//! modes, of messages in bytes and in bits, done and refused.

mod in_bits;
mod record;
mod refused;
mod single_pipe;
#[cfg(test)]
mod tests;

use crate::file::File;
use plain::family;
use plain::mode::Mode::{self, DoublePipe};
use record::Case;
use seeded::Generator;

/// The digest lengths that the paper names.
const NAMED: [u16; 4] = [224, 256, 384, 512];

/// How often each message in double-pipe is digested.
const CUTS: usize = 3;

/// The program's input and the output it has to give.
pub fn files() -> Vec<File> {
    let cases = cases();
    vec![
        File {
            path: "crates/digest_cases/stdin",
            bytes: cases.iter().flat_map(Case::record).collect(),
        },
        File {
            path: "crates/digest_cases/stdout",
            bytes: cases.iter().map(Case::line).collect::<String>().into(),
        },
    ]
}

fn cases() -> Vec<Case> {
    let mut generator = Generator::new(2);
    let mut cases = empty_messages(&mut generator);
    cases.extend(block_edges(&mut generator));
    cases.extend(refused::cases(&mut generator));
    cases.extend(single_pipe::cases(&mut Generator::new(7)));
    cases.extend(in_bits::cases(&mut Generator::new(12)));
    cases
}

/// The empty message under the all-zero salt, whose digests are published: at
/// once, and then over a session.
fn empty_messages(generator: &mut Generator) -> Vec<Case> {
    let mut cases = Vec::new();
    for piece in [0, 1] {
        for bits in NAMED {
            let case = Case::new(generator, bits, 0, piece);
            cases.push(Case {
                salt: [0; 16],
                ..case
            });
        }
    }
    cases
}

/// Messages in double-pipe for every admitted digest length: they end on both sides of where
/// the padding needs one block more, and of a block's end, up to four blocks.
/// Each is digested in several cuts.
fn block_edges(generator: &mut Generator) -> Vec<Case> {
    let mut cases = Vec::new();
    for bits in (128..=512).step_by(8) {
        let b = block(DoublePipe, bits);
        let edges = (1..=4).flat_map(|j| {
            let end = j * b;
            [end - 19, end - 18, end - 1, end, end + 1]
        });
        let other = generator.below(1024) as u16;
        for length in edges.chain([0, 1, other]) {
            let message = some_salt(generator, bits, length, 0);
            for piece in cuts(b, length, cases.len() / CUTS) {
                cases.push(Case {
                    piece,
                    ..message.clone()
                });
            }
        }
    }
    cases
}

/// At once, and in pieces of two sizes, which come in turn. Each piece is
/// followed by a reading, so that single bytes are for short messages.
fn cuts(b: u16, length: u16, turn: usize) -> [u16; CUTS] {
    let sizes = pieces(b, length);
    let size = |index: usize| sizes[index % sizes.len()];
    [0, size(turn), size(turn + 4)]
}

/// Sizes of the pieces of a message.
fn pieces(b: u16, length: u16) -> [u16; 9] {
    let few = if length <= b + 1 { 1 } else { 5 };
    [few, 7, b - 1, b, b + 1, length.max(1), 64, 13, 1000]
}

/// A case whose salt is all zero one time in four.
fn some_salt(generator: &mut Generator, bits: u16, length: u16, piece: u16) -> Case {
    let mut case = Case::new(generator, bits, length, piece);
    if generator.below(4) == 0 {
        case.salt = [0; 16];
    }
    case
}

/// Bytes of a block.
fn block(mode: Mode, bits: u16) -> u16 {
    family::of_bits(mode, bits.into()).block as u16
}
