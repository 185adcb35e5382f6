//! Cases that are refused for what is handed over with a session, and for that
//! and the session, where the lower number has to win.

use super::forged::{changed, forged, last_edge};
use super::record::{Case, Task};
use plain::mode::Mode;
use plain::refusal::MESSAGE_LIMIT;
use plain::session::Session;
use seeded::Generator;

/// What makes a session none.
type Change = fn(&mut Session);

pub fn cases(generator: &mut Generator, mode: Mode) -> Vec<Case> {
    let mut cases = openings(generator, mode);
    cases.extend(too_long(generator, mode));
    cases.extend(too_little_room(generator, mode));
    cases.extend(no_session_and_too_long(generator, mode));
    cases.extend(no_session_and_too_little_room(generator, mode));
    cases
}

/// Numbers 1 and 2, and one opening that is done: its salt is all of the room,
/// since there is no more.
fn openings(generator: &mut Generator, mode: Mode) -> Vec<Case> {
    let openings = [
        (120, 16),
        (520, 15),
        ((1 << 32) + 256, 16),
        (256, 15),
        (264, 0),
        (512, 255),
    ];
    openings
        .map(|(bits, salt)| {
            let session = changed(generator, mode, 128, 7, |session| session.bits = bits);
            Case::new(generator, Task::Open, salt, session)
        })
        .into()
}

/// Number 4 alone, by one byte and by more, where the piece would fill a block
/// and where not.
fn too_long(generator: &mut Generator, mode: Mode) -> Vec<Case> {
    let pieces = [
        (256, MESSAGE_LIMIT, 1),
        (128, MESSAGE_LIMIT - 254, 255),
        (160, last_edge(192), 108),
        (512, MESSAGE_LIMIT, 255),
        (264, MESSAGE_LIMIT - 5, 6),
        (384, MESSAGE_LIMIT - 149, 150),
    ];
    pieces
        .map(|(bits, taken, piece)| {
            let session = forged(generator, mode, bits, taken);
            Case::new(generator, Task::Add, piece, session)
        })
        .into()
}

/// Number 5 alone, without a room, and with one that is a byte too small.
fn too_little_room(generator: &mut Generator, mode: Mode) -> Vec<Case> {
    let rooms = [
        (128, 0, 0),
        (128, 191, 15),
        (256, MESSAGE_LIMIT, 31),
        (264, 128, 32),
        (512, 1, 63),
        (512, MESSAGE_LIMIT, 0),
    ];
    rooms
        .map(|(bits, taken, room)| {
            let session = forged(generator, mode, bits, taken);
            Case::new(generator, Task::Read, room, session)
        })
        .into()
}

/// Numbers 3 and 4. In the second the number of message bytes would wrap.
fn no_session_and_too_long(generator: &mut Generator, mode: Mode) -> Vec<Case> {
    let changes: [(u64, Change, u8); 5] = [
        (256, |session| session.taken += 1, 1),
        (512, |session| session.taken = u64::MAX, 255),
        (128, |session| session.bits = 127, 1),
        (264, |session| session.waiting[107] = 1, 1),
        (224, |session| session.chaining[127] = 0x80, 255),
    ];
    changes
        .map(|(bits, change, piece)| {
            let session = changed(generator, mode, bits, MESSAGE_LIMIT, change);
            Case::new(generator, Task::Add, piece, session)
        })
        .into()
}

/// Numbers 3 and 5. In the third no room would be enough.
fn no_session_and_too_little_room(generator: &mut Generator, mode: Mode) -> Vec<Case> {
    let changes: [(u64, Change, u8); 5] = [
        (256, |session| session.taken = MESSAGE_LIMIT + 1, 31),
        (512, |session| session.bits = 520, 64),
        (256, |session| session.bits = u64::MAX, 255),
        (512, |session| session.waiting[191] = 1, 0),
        (136, |session| session.chaining[64] = 0x80, 16),
    ];
    changes
        .map(|(bits, change, room)| {
            let session = changed(generator, mode, bits, 5, change);
            Case::new(generator, Task::Read, room, session)
        })
        .into()
}
