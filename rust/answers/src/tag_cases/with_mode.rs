//! Cases whose lines tell the mode: tag sessions, and records that are none since a
//! session is in single-pipe, or for a byte behind the blocks of double-pipe.

use super::forged::{changed, forged, Change};
use super::no_tag_sessions::tried;
use super::record::Case;
use super::{additions, from_an_opening, readings, to_the_limit};
use crate::session_cases::forged::{forged as digest_session, FAMILIES};
use plain::family;
use plain::mode::Mode::{self, DoublePipe, SinglePipe};
use plain::session::Session;
use plain::tag_session::TagSession;
use seeded::Generator;

/// The modes of inner and outer session, of which one is wrong at least.
const MODES: [[Mode; 2]; 3] = [
    [SinglePipe, DoublePipe],
    [DoublePipe, SinglePipe],
    [SinglePipe, SinglePipe],
];

pub fn cases(generator: &mut Generator) -> Vec<Case> {
    let mut cases = Vec::new();
    for lengths in FAMILIES {
        cases.extend(from_an_opening(generator, &lengths));
        cases.extend(to_the_limit(generator, &lengths));
        cases.extend(readings(generator, &lengths));
        cases.extend(additions(generator, &lengths));
    }
    for session in records(generator) {
        cases.extend(tried(generator, session));
    }
    for case in &mut cases {
        case.with_mode = true;
    }
    cases
}

/// Records that are no tag session.
pub fn records(generator: &mut Generator) -> Vec<TagSession> {
    let mut records = Vec::new();
    for modes in MODES {
        for bits in [256, 512] {
            records.push(but_for_the_mode(generator, bits, modes));
        }
        for bits in [128, 264] {
            records.push(by_the_mode(generator, bits, modes));
        }
    }
    records.extend(behind_the_blocks(generator));
    records
}

/// With other modes, a tag session: the chaining values are as long as single-pipe
/// has them, so that each part is a digest session in either mode.
pub fn but_for_the_mode(generator: &mut Generator, bits: u64, modes: [Mode; 2]) -> TagSession {
    let block = family::of_bits(DoublePipe, bits).block as u64;
    let chaining = family::of_bits(SinglePipe, bits).chaining;
    let mut session = forged(generator, bits, block + 5);
    for (part, mode) in [&mut session.inner, &mut session.outer]
        .into_iter()
        .zip(modes)
    {
        part.chaining[chaining..].fill(0);
        part.mode = mode;
    }
    session
}

/// What would be a tag session if its blocks were those of each part's mode.
fn by_the_mode(generator: &mut Generator, bits: u64, [inner, outer]: [Mode; 2]) -> TagSession {
    let block = |mode| family::of_bits(mode, bits).block as u64;
    let inner = digest_session(generator, inner, bits, block(inner) + 5);
    let outer = Session {
        salt: inner.salt,
        ..digest_session(generator, outer, bits, block(outer))
    };
    TagSession { inner, outer }
}

/// A byte of the waiting room past 192, which double-pipe has no use for.
fn behind_the_blocks(generator: &mut Generator) -> Vec<TagSession> {
    let changes: [(u64, u64, Change); 4] = [
        (256, 197, |session| session.inner.waiting[192] = 1),
        (512, 133, |session| session.inner.waiting[223] = 0x80),
        (264, 200, |session| session.outer.waiting[192] = 1),
        (128, 200, |session| session.outer.waiting[223] = 0x80),
    ];
    changes
        .map(|(bits, taken, change)| changed(generator, bits, taken, change))
        .into()
}
