//! Tags of whole messages, at once and over a tag session, done and refused.

use super::record::{Case, Task};
use plain::family;
use plain::mode::Mode::DoublePipe;
use seeded::Generator;

/// How many keys of different sizes each digest length has.
pub const KEYS: usize = 6;

/// How many messages there are under each key.
const MESSAGES: usize = 2;

/// How often each message is tagged.
pub const CUTS: usize = 2;

/// Digest lengths that are not admitted. The last but one has an admitted one in
/// its lower half.
pub const BITS: [u64; 8] = [0, 120, 127, 260, 513, 520, (1 << 32) + 256, u64::MAX];

pub fn cases(generator: &mut Generator) -> Vec<Case> {
    let mut cases = done(generator);
    cases.extend(refused(generator));
    cases
}

/// For every admitted digest length, keys up to a block, of one and longer, each
/// with messages that come in turn and each of these in two cuts.
pub fn done(generator: &mut Generator) -> Vec<Case> {
    let mut cases = Vec::new();
    for bits in (128..=512).step_by(8) {
        let b = family::of_bits(DoublePipe, bits).block as u16;
        for key in keys(b) {
            for _ in 0..MESSAGES {
                let turn = cases.len() / CUTS;
                let message_length = message_length(generator, b, turn);
                let message = Case {
                    message_length,
                    ..some_salt(generator, bits, key)
                };
                for piece in cuts(b, message_length, turn) {
                    cases.push(Case {
                        piece,
                        ..message.clone()
                    });
                }
            }
        }
    }
    cases
}

/// One message of each family, over two blocks with the key's, in pieces of every
/// size up to all of it.
pub fn every_piece(generator: &mut Generator) -> Vec<Case> {
    let mut cases = Vec::new();
    for bits in [256, 512] {
        let b = family::of_bits(DoublePipe, bits).block as u16;
        let message = Case {
            message_length: b + 9,
            ..some_salt(generator, bits, 20)
        };
        cases.extend((1..=b + 9).map(|piece| Case {
            piece,
            ..message.clone()
        }));
    }
    cases
}

/// Sizes of a key: none, one byte, both sides of a block, and several blocks.
pub fn keys(b: u16) -> [u16; KEYS] {
    [0, 1, b - 1, b, b + 1, 1000]
}

/// Lengths of messages that end, behind the key's block, on both sides of where
/// the padding needs one block more and of a block's end; and one of any length.
/// Their number has no divisor in common with that of a digest length's messages
/// nor with that of the cuts, so that each meets each key and each cut.
fn message_length(generator: &mut Generator, b: u16, turn: usize) -> u16 {
    let other = generator.below(1025) as u16;
    let near = [0, 1, b - 19, b - 18, b - 1, b, b + 1];
    let far = [2 * b - 19, 2 * b - 18, 2 * b - 1, 2 * b, 4 * b - 18, other];
    let lengths = [&near[..], &far].concat();
    lengths[turn % lengths.len()]
}

/// At once, and in pieces of a size that comes in turn. Each piece is followed by
/// a reading and a check, so that single bytes are for short messages.
fn cuts(b: u16, length: u16, turn: usize) -> [u16; CUTS] {
    let few = if length <= b + 1 { 1 } else { 5 };
    let sizes = [few, 7, b - 1, b, b + 1, length.max(1), 64, 13, 1000];
    [0, sizes[turn % sizes.len()]]
}

/// A case whose salt is all zero one time in four.
fn some_salt(generator: &mut Generator, bits: u64, key: u16) -> Case {
    let mut case = Case::keyed(generator, Task::Whole, bits, key);
    if generator.below(4) == 0 {
        case.salt = [0; 16];
    }
    case
}

/// Refused for the digest length, for the salt, and for both, where the lower
/// number has to win; at once and over a tag session, with keys of all sizes.
pub fn refused(generator: &mut Generator) -> Vec<Case> {
    let mut reasons = Vec::new();
    for bits in BITS {
        reasons.extend([(bits, 16, 0), (bits, 16, 5)]);
    }
    for bits in [128, 256, 264, 512] {
        reasons.extend([(bits, 0, 5), (bits, 15, 0), (bits, 15, 5)]);
    }
    for bits in BITS {
        reasons.extend([(bits, 0, 0), (bits, 15, 5)]);
    }
    let mut cases = Vec::new();
    for (bits, salt_length, piece) in reasons {
        let key = keys(192)[cases.len() % KEYS];
        cases.push(Case {
            salt_length,
            piece,
            ..Case::keyed(generator, Task::Whole, bits, key)
        });
    }
    cases
}
