//! Cases on records that count bits, behind all others: tag sessions, and such that are
//! none for a part of a byte or for the number of their bits.

use super::checks::tag_in_bits;
use super::forged::{forged, with_outer};
use super::no_tag_sessions::would_be_tag_in_bits;
use super::record::{Case, Task};
use super::units::in_bits;
use crate::session_cases::forged::{forged_bits, Lengths, FAMILIES};
use plain::mode::Mode::DoublePipe;
use plain::refusal::{BIT_LIMIT, MESSAGE_LIMIT};
use plain::session::Session;
use plain::tag_session::TagSession;
use seeded::Generator;

pub fn cases(generator: &mut Generator) -> Vec<Case> {
    let mut cases = Vec::new();
    for lengths in FAMILIES {
        cases.extend(from_an_opening(generator, &lengths));
        cases.extend(whole_bytes(generator, &lengths));
        cases.extend(too_long(generator, &lengths));
        cases.extend(too_little_room(generator, &lengths));
        for (turn, session) in parts(generator, &lengths).into_iter().enumerate() {
            cases.push(tried(generator, session, turn));
        }
        for session in records(generator, &lengths) {
            cases.extend([0, 1, 2, 3].map(|turn| tried(generator, session.clone(), turn)));
        }
    }
    for case in &mut cases {
        (case.with_mode, case.in_bits) = (true, true);
    }
    cases
}

/// A tag session from its opening: a piece over a block's end, a reading, a check and the
/// question.
fn from_an_opening(generator: &mut Generator, lengths: &Lengths) -> Vec<Case> {
    let bits = lengths.bits[5];
    let (salt, key): ([u8; 16], [u8; 20]) = (generator.bytes(), generator.bytes());
    let (_, mut session) = TagSession::open(bits, &salt, &key);
    let mut add = Case::on(
        generator,
        Task::Add,
        lengths.block as u8 + 7,
        session.clone(),
    );
    add.in_bits = true;
    session = add.answer().session;
    let tag = tag_in_bits(&session);
    vec![
        add,
        Case::on(generator, Task::Read, (bits / 8) as u8, session.clone()),
        Case::check(generator, session.clone(), &tag),
        Case::on(generator, Task::IsSession, 0, session),
    ]
}

/// Tag sessions near a block's end and at the limit: a piece, up to the limit where there
/// is no more, a reading, the question and a check of the right tag.
fn whole_bytes(generator: &mut Generator, lengths: &Lengths) -> Vec<Case> {
    let b = lengths.block;
    let mut cases = Vec::new();
    for (turn, (taken, piece)) in [
        (b, 1),
        (b + 1, b - 1),
        (2 * b - 18, 0),
        (MESSAGE_LIMIT - 110, 110),
        (MESSAGE_LIMIT, 0),
    ]
    .into_iter()
    .enumerate()
    {
        let bits = lengths.bits[turn];
        let session = in_bits(&forged(generator, bits, taken));
        let tag = tag_in_bits(&session);
        cases.extend([
            Case::on(generator, Task::Add, piece as u8, session.clone()),
            Case::on(generator, Task::Read, 70, session.clone()),
            Case::on(generator, Task::IsSession, 0, session.clone()),
            Case::check(generator, session, &tag),
        ]);
    }
    cases
}

/// Number 4 alone; and with number 3, for a part of a byte.
fn too_long(generator: &mut Generator, lengths: &Lengths) -> Vec<Case> {
    let mut cases = Vec::new();
    for (taken, part, piece) in [
        (MESSAGE_LIMIT, 0, 1),
        (MESSAGE_LIMIT - 5, 0, 6),
        (MESSAGE_LIMIT, 7, 1),
        (MESSAGE_LIMIT - 5, 1, 6),
    ] {
        let bits = lengths.bits[cases.len()];
        let session = with_part(generator, bits, 8 * taken + part);
        cases.push(Case::on(generator, Task::Add, piece, session));
    }
    cases
}

/// Number 5 alone, and with number 3, for a part of a byte.
fn too_little_room(generator: &mut Generator, lengths: &Lengths) -> Vec<Case> {
    let (b, bits) = (lengths.block, lengths.bits[1]);
    [
        (8 * b, bits / 8 - 1),
        (8 * b + 3, bits / 8 - 1),
        (8 * b + 3, 0),
    ]
    .map(|(taken, room)| {
        let session = with_part(generator, bits, taken);
        Case::on(generator, Task::Read, room as u8, session)
    })
    .into()
}

/// Records that are right but for a part of a byte, of every size: in the inner session
/// behind a block, in the last byte of one and at the limit; in the outer one behind its
/// block and in its last byte; and in both.
pub fn parts(generator: &mut Generator, lengths: &Lengths) -> Vec<TagSession> {
    let b = lengths.block;
    let mut records = Vec::new();
    for part in 1..8 {
        let bits = lengths.bits[part as usize % 6];
        for whole in [b, b + 5, 2 * b - 1, MESSAGE_LIMIT] {
            records.push(with_part(generator, bits, 8 * whole + part));
        }
        for whole in [b, b - 1] {
            let mut session = with_part(generator, bits, 8 * (b + 5));
            session.outer = digest_session(generator, &session, 8 * whole + part);
            records.push(session);
        }
        let mut session = with_part(generator, bits, 8 * (b + 5) + part);
        session.outer = digest_session(generator, &session, 8 * b + part);
        records.push(session);
    }
    records
}

/// Records that are none for the number of their bits: a byte and a bit less than a block
/// and more, none, and too many.
pub fn records(generator: &mut Generator, lengths: &Lengths) -> Vec<TagSession> {
    let (b, bits) = (lengths.block, lengths.bits[2]);
    let mut records = Vec::new();
    for (inner, outer) in [(b - 1, b), (b + 5, b - 1), (b + 5, b + 1), (b + 5, 0)] {
        records.push(in_bits(&with_outer(generator, bits, inner, outer)));
    }
    for taken in [8 * b - 1, BIT_LIMIT + 1, u64::MAX] {
        records.push(with_part(generator, bits, taken));
    }
    let mut session = with_part(generator, bits, 8 * b);
    session.outer = digest_session(generator, &session, BIT_LIMIT + 1);
    records.push(session);
    records
}

/// A record with so many bits in the inner session, and a block in the outer one.
fn with_part(generator: &mut Generator, bits: u64, taken: u64) -> TagSession {
    let session = in_bits(&forged(generator, bits, 0));
    TagSession {
        inner: digest_session(generator, &session, taken),
        ..session
    }
}

/// A digest session of so many bits that goes with those of a record.
fn digest_session(generator: &mut Generator, with: &TagSession, taken: u64) -> Session {
    Session {
        salt: with.inner.salt,
        ..forged_bits(generator, DoublePipe, with.inner.bits, taken)
    }
}

/// A record with one of four tasks.
fn tried(generator: &mut Generator, session: TagSession, turn: usize) -> Case {
    match turn % 4 {
        0 => Case::on(generator, Task::Add, (turn / 4 % 3) as u8, session),
        1 => Case::on(generator, Task::Read, 70, session),
        2 => Case::on(generator, Task::IsSession, 0, session),
        _ => {
            let tag = would_be_tag_in_bits(&session);
            Case::check(generator, session, &tag)
        }
    }
}
