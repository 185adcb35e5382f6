//! Cases that are refused for what is handed over with a tag session, and for
//! that and the tag session, where the lower number has to win.

use super::forged::{changed, forged, Change};
use super::record::{Case, Task};
use plain::refusal::MESSAGE_LIMIT;
use seeded::Generator;

pub fn cases(generator: &mut Generator) -> Vec<Case> {
    let mut cases = too_long(generator);
    cases.extend(too_little_room(generator));
    cases.extend(no_session_and_too_long(generator));
    cases.extend(no_session_and_too_little_room(generator));
    cases
}

/// Number 4 alone, by one byte and by more.
fn too_long(generator: &mut Generator) -> Vec<Case> {
    let pieces = [
        (256, MESSAGE_LIMIT, 1),
        (128, MESSAGE_LIMIT - 254, 255),
        (512, MESSAGE_LIMIT, 255),
        (264, MESSAGE_LIMIT - 5, 6),
    ];
    pieces
        .map(|(bits, taken, piece)| {
            let session = forged(generator, bits, taken);
            Case::on(generator, Task::Add, piece, session)
        })
        .into()
}

/// Number 5 alone, without a room, and with one that is a byte too small.
fn too_little_room(generator: &mut Generator) -> Vec<Case> {
    let rooms = [
        (128, 192, 0),
        (256, MESSAGE_LIMIT, 31),
        (264, 128, 32),
        (512, 129, 63),
    ];
    rooms
        .map(|(bits, taken, room)| {
            let session = forged(generator, bits, taken);
            Case::on(generator, Task::Read, room, session)
        })
        .into()
}

/// Numbers 3 and 4.
fn no_session_and_too_long(generator: &mut Generator) -> Vec<Case> {
    let changes: [(u64, Change, u8); 4] = [
        (256, |session| session.inner.taken += 1, 1),
        (512, |session| session.outer.salt[0] ^= 1, 255),
        (264, |session| session.outer.taken = 256, 1),
        (224, |session| session.outer.bits = 256, 255),
    ];
    changes
        .map(|(bits, change, piece)| {
            let session = changed(generator, bits, MESSAGE_LIMIT, change);
            Case::on(generator, Task::Add, piece, session)
        })
        .into()
}

/// Numbers 3 and 5. In the third no room would be enough.
fn no_session_and_too_little_room(generator: &mut Generator) -> Vec<Case> {
    let changes: [(u64, Change, u8); 4] = [
        (256, |session| session.inner.salt[15] ^= 0x80, 31),
        (512, |session| session.outer.taken = 0, 0),
        (
            248,
            |session| {
                session.inner.bits = u64::MAX;
                session.outer.bits = u64::MAX;
            },
            255,
        ),
        (128, |session| session.outer.taken = 384, 15),
    ];
    changes
        .map(|(bits, change, room)| {
            let session = changed(generator, bits, 200, change);
            Case::on(generator, Task::Read, room, session)
        })
        .into()
}
