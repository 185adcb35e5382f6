//! Records that are no tag session, each for one reason as far as that goes: what
//! makes one of two digest sessions none may make them differ too.

use super::forged::{changed, forged, with_outer, Change};
use super::record::{Case, Task};
use super::units::in_bits;
use crate::session_cases::forged::forged as digest_session;
use plain::mode::Mode::DoublePipe;
use plain::refusal::MESSAGE_LIMIT;
use plain::session::Session;
use plain::tag_session::{TagSession, BLANK};
use seeded::Generator;

/// Each record is added to, read, asked about and checked; those whose salts
/// differ, which are one for each place, have one of these tasks in turn.
pub fn cases(generator: &mut Generator) -> Vec<Case> {
    let mut cases = Vec::new();
    for session in records(generator) {
        cases.extend(tried(generator, session));
    }
    for place in 0..16 {
        let session = salts_differ(generator, place);
        cases.push(case(generator, session, place));
    }
    cases
}

/// A record with each of four tasks.
pub fn tried(generator: &mut Generator, session: TagSession) -> [Case; 4] {
    [0, 1, 2, 3].map(|turn| case(generator, session.clone(), turn))
}

/// A case with one of four tasks: pieces are empty or one byte, rooms enough for
/// any tag, and a check is given what would be the tag.
fn case(generator: &mut Generator, session: TagSession, turn: usize) -> Case {
    match turn % 4 {
        0 => {
            let piece = generator.below(2) as u8;
            Case::on(generator, Task::Add, piece, session)
        }
        1 => Case::on(generator, Task::Read, 70, session),
        2 => Case::on(generator, Task::IsSession, 0, session),
        _ => {
            let tag = would_be_tag(&session);
            Case::check(generator, session, &tag)
        }
    }
}

/// What a reading would give that asks nothing of the record, which counts bytes, but
/// that its two sessions are some; and else as many zeros as the longest tag has bytes.
pub fn would_be_tag(session: &TagSession) -> Vec<u8> {
    would_be_tag_in_bits(&in_bits(session))
}

/// The same of a record that counts bits.
pub fn would_be_tag_in_bits(session: &TagSession) -> Vec<u8> {
    let mut room = [0; 64];
    let mut outer = session.outer.clone();
    let size = |session: &Session| (session.bits / 8).min(64) as usize;
    session.inner.read(&mut room);
    outer.add(&room[..size(&session.inner)]);
    match outer.read(&mut room) {
        0 => room[..size(&outer)].to_vec(),
        _ => vec![0; 64],
    }
}

pub fn records(generator: &mut Generator) -> Vec<TagSession> {
    let mut records = vec![BLANK];
    records.extend(digest_lengths(generator));
    records.extend(numbers_of_bytes(generator));
    records.extend(rooms_not_in_use(generator));
    records
}

/// Digest lengths that are not admitted, in both sessions or in either, and
/// admitted ones that differ, within a family and across both.
fn digest_lengths(generator: &mut Generator) -> Vec<TagSession> {
    let mut records = vec![
        changed(generator, 256, 197, |session| {
            session.inner.bits = 260;
            session.outer.bits = 260;
        }),
        changed(generator, 256, 197, |session| session.inner.bits = 0),
        changed(generator, 256, 197, |session| {
            session.outer.bits += 1 << 32;
        }),
        changed(generator, 256, 197, |session| session.outer.bits = 248),
        changed(generator, 264, 133, |session| session.outer.bits = 512),
    ];
    let inner = digest_session(generator, DoublePipe, 256, 192);
    let outer = Session {
        salt: inner.salt,
        ..digest_session(generator, DoublePipe, 264, 128)
    };
    records.push(TagSession { inner, outer });
    records
}

/// Inner sessions with less than a block or too many bytes, and outer ones with
/// any other number of bytes than those of a block.
fn numbers_of_bytes(generator: &mut Generator) -> Vec<TagSession> {
    let numbers = [
        (256, 191, 192),
        (512, 127, 128),
        (384, 0, 128),
        (224, MESSAGE_LIMIT + 1, 192),
        (256, 200, 0),
        (264, 200, 127),
        (128, 200, 193),
        (512, 200, 256),
        (248, 200, 128),
        (272, 200, 192),
        (504, 200, MESSAGE_LIMIT + 1),
    ];
    numbers
        .map(|(bits, inner, outer)| with_outer(generator, bits, inner, outer))
        .into()
}

/// A byte behind those in use: of the waiting block, of which the outer session
/// uses none, and of a short chaining value.
fn rooms_not_in_use(generator: &mut Generator) -> Vec<TagSession> {
    let changes: [(u64, u64, Change); 6] = [
        (256, 197, |session| session.inner.waiting[5] = 1),
        (512, 133, |session| session.inner.waiting[128] = 0x80),
        (160, 192, |session| session.outer.waiting[0] = 1),
        (264, 200, |session| session.outer.waiting[191] = 0x80),
        (136, 197, |session| session.inner.chaining[64] = 1),
        (224, 197, |session| session.outer.chaining[127] = 0x80),
    ];
    changes
        .map(|(bits, taken, change)| changed(generator, bits, taken, change))
        .into()
}

/// One bit of the outer salt is another.
fn salts_differ(generator: &mut Generator, place: usize) -> TagSession {
    let bits = [256, 512, 128][place % 3];
    let mut session = forged(generator, bits, 200);
    session.outer.salt[place] ^= 1 << (place % 8);
    session
}
