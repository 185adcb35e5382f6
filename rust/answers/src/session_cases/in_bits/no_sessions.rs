//! Records that are no session, each for one reason: those of before, in bits, and
//! further ones with a part of a byte.

use super::super::forged::forged_bits;
use super::super::near_sessions;
use super::super::record::{Case, Task};
use super::super::units::in_bits;
use plain::mode::Mode;
use plain::refusal::BIT_LIMIT;
use plain::session::Session;
use seeded::Generator;

/// Each record is asked about, and then read, given an empty piece or no bytes, in turn.
pub fn cases(generator: &mut Generator, mode: Mode) -> Vec<Case> {
    let mut cases = Vec::new();
    for (turn, session) in records(generator, mode).into_iter().enumerate() {
        let asked = Case::in_bits(generator, Task::IsSession, 0, session.clone());
        let tried = match turn % 3 {
            0 => Case::in_bits(generator, Task::Read, 70, session),
            1 => Case::piece(generator, 0, session),
            _ => Case::in_bits(generator, Task::Add, 0, session),
        };
        cases.extend([asked, tried]);
    }
    cases
}

fn records(generator: &mut Generator, mode: Mode) -> Vec<Session> {
    let near = near_sessions::records(generator, mode);
    let mut records: Vec<Session> = near.iter().map(in_bits).collect();
    let near = near_sessions::records(generator, mode);
    let parts = near.iter().filter(|session| session.taken < u64::MAX);
    records.extend(
        (0..)
            .zip(parts)
            .map(|(turn, session)| with_part(turn, session)),
    );
    for bits in [256, 512] {
        records.push(forged_bits(generator, mode, bits, BIT_LIMIT + 1));
        records.push(forged_bits(generator, mode, bits, BIT_LIMIT + 2));
    }
    records
}

/// The same record with a part of a byte more, whose sizes come in turn. The lowest bit of
/// that byte is not in use, and is set where a bit of it was.
fn with_part(turn: u64, session: &Session) -> Session {
    let mut session = in_bits(session);
    session.taken += 1 + turn % 7;
    for byte in &mut session.waiting {
        *byte |= u8::from(*byte != 0);
    }
    session
}
