//! Cases on sessions that count bits, with a part of a byte and without, behind all
//! others.

mod no_sessions;
pub mod refused;

use super::forged::{families, forged_bits, last_edge_in_bits, Lengths};
use super::record::{Case, Task};
use plain::mode::MODES;
use plain::refusal::BIT_LIMIT;
use plain::session::{Session, BLANK};
use seeded::Generator;

/// Bits that the padding has behind its "1" and its zeros, and that "1".
const LEAST: u64 = 145;

pub fn cases(generator: &mut Generator) -> Vec<Case> {
    let mut cases = Vec::new();
    for mode in MODES {
        for lengths in families(mode) {
            cases.extend(from_an_opening(generator, &lengths));
            cases.extend(readings(generator, &lengths));
            cases.extend(pieces(generator, &lengths));
            cases.extend(whole_bytes(generator, &lengths));
            cases.extend(bare(generator, &lengths));
            cases.extend(refused::cases(generator, &lengths));
        }
        cases.extend(no_sessions::cases(generator, mode));
    }
    cases
}

/// A session from its opening: two pieces, whose second ends within a byte, and an empty
/// one, each with a reading behind it.
pub fn from_an_opening(generator: &mut Generator, lengths: &Lengths) -> Vec<Case> {
    let Lengths { mode, block, bits } = *lengths;
    let bits = bits[4];
    let salt: [u8; 16] = generator.bytes();
    let (_, mut session) = Session::open(mode, bits, &salt);
    let mut cases = Vec::new();
    for count in [8 * (block - 3), 8 * 24 + 5, 0] {
        let piece = Case::piece(generator, count, session);
        session = piece.answer().session;
        cases.push(piece);
        let room = (bits / 8) as u8;
        cases.push(Case::in_bits(generator, Task::Read, room, session.clone()));
    }
    cases
}

/// A session of a family, whose digest lengths come in turn.
fn in_family(generator: &mut Generator, lengths: &Lengths, turn: usize, taken: u64) -> Session {
    let bits = lengths.bits[turn % lengths.bits.len()];
    forged_bits(generator, lengths.mode, bits, taken)
}

/// Readings on both sides of where the padding needs one block more and of a block's
/// end, with every size of a part of a byte; where the bit count is four bytes long and
/// one longer; and up to the limit.
fn readings(generator: &mut Generator, lengths: &Lengths) -> Vec<Case> {
    let msize = 8 * lengths.block;
    let end = last_edge_in_bits(lengths.block);
    let edges = [msize - LEAST, msize].map(|edge| edge - 8..=edge + 8);
    let near = [0, 1, 7].into_iter().chain(edges.into_iter().flatten());
    let far = [(1 << 32) - 1, 1 << 32, generator.below(end)];
    let last = [end - LEAST, end - LEAST + 1, end - 1, end, end + 1];
    let limit = BIT_LIMIT - 8..=BIT_LIMIT;
    let mut cases = Vec::new();
    for taken in near.chain(far).chain(last).chain(limit) {
        let session = in_family(generator, lengths, cases.len(), taken);
        let more = [0, 1, 7, 0, 64][cases.len() % 5];
        let room = (session.bits / 8) as u8 + more;
        cases.push(Case::in_bits(generator, Task::Read, room, session));
    }
    cases
}

/// Pieces that are empty, behind a part of a byte too; and such that end in a part of a
/// byte of every size, or in a whole one: within a block, in its last byte, and behind
/// one edge or two.
fn pieces(generator: &mut Generator, lengths: &Lengths) -> Vec<Case> {
    let msize = 8 * lengths.block;
    let end = last_edge_in_bits(lengths.block);
    let mut pieces = vec![
        (0, 0),
        (40, 0),
        (43, 0),
        (msize - 3, 0),
        (end + 1, 0),
        (BIT_LIMIT - 7, 0),
        (BIT_LIMIT, 0),
        (8 * generator.below(end / 8), generator.below(2041)),
        (end, BIT_LIMIT - end),
        (end - 8, 8 + BIT_LIMIT - end),
    ];
    for part in 1..=8 {
        pieces.extend([
            (0, part),
            (40, 16 + part),
            (msize - 8, part),
            (0, msize - 8 + part),
            (3 * msize - 24, 24 + part),
            (7 * msize - 8, 8 + msize + part),
            (BIT_LIMIT - 15, 7 + part),
        ]);
    }
    let mut cases = Vec::new();
    for (taken, count) in pieces {
        let session = in_family(generator, lengths, cases.len(), taken);
        cases.push(Case::piece(generator, count, session));
    }
    cases
}

/// Pieces of whole bytes; behind a part of a byte none but an empty one.
fn whole_bytes(generator: &mut Generator, lengths: &Lengths) -> Vec<Case> {
    let msize = 8 * lengths.block;
    let pieces = [
        (0, 0),
        (43, 0),
        (BIT_LIMIT, 0),
        (40, 3),
        (msize - 8, 1),
        (2 * msize - 16, lengths.block + 3),
        (BIT_LIMIT - 31, 3),
    ];
    let mut cases = Vec::new();
    for (taken, bytes) in pieces {
        let session = in_family(generator, lengths, cases.len(), taken);
        let case = Case::in_bits(generator, Task::Add, bytes as u8, session);
        cases.push(case);
    }
    cases
}

/// Sessions with a single bit that is set, the last one in use, for every size of a part
/// of a byte; and the same with each bit behind it in that byte, which are none.
fn bare(generator: &mut Generator, lengths: &Lengths) -> Vec<Case> {
    let Lengths { mode, block, .. } = *lengths;
    let mut cases = Vec::new();
    for part in 1..8 {
        for place in part - 1..8 {
            let turn = cases.len();
            let whole = [0, 5, block - 1][turn % 3];
            let mut session = Session {
                mode,
                bits: lengths.bits[turn % 6],
                taken: 8 * whole + part,
                ..BLANK
            };
            session.waiting[whole as usize] = 0x80 >> place;
            cases.push(Case::in_bits(generator, Task::IsSession, 0, session));
        }
    }
    cases
}
