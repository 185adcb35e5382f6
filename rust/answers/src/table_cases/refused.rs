//! Cases that are refused: for an unknown kind, for a record cut short, and for
//! what is handed over with a fingerprint, where the lowest number has to win.

use super::record::{Case, Task};
use super::{build, every_task};
use seeded::Generator;

/// Lengths of a salt, of which only the last is right.
const SALT_LENGTHS: [u8; 4] = [0, 1, 15, 16];

/// Lengths of a room, of which the first two are too small.
const ROOM_LENGTHS: [u8; 5] = [0, 31, 32, 33, 40];

pub fn cases(generator: &mut Generator) -> Vec<Case> {
    let mut cases = unknown_kinds(generator);
    cases.extend(unknown_kinds_and_cuts(generator));
    cases.extend(hand_overs(generator));
    cases
}

/// An unknown kind at the front, in the middle and at the end of a table. It is
/// read at its own place, and at the front.
fn unknown_kinds(generator: &mut Generator) -> Vec<Case> {
    let mut cases = Vec::new();
    for kind in build::UNKNOWN {
        let before = build::records(generator, &[4, 2]);
        let behind = build::records(generator, &[1, 3]);
        let place = before.len() as u16;
        let front = [&[kind], &behind[..]].concat();
        let middle = [&before[..], &[kind], &behind].concat();
        let end = [&before[..], &[kind]].concat();
        cases.extend(every_task(generator, &front, [0]));
        cases.extend(every_task(generator, &middle, [0, place]));
        cases.extend(every_task(generator, &end, [0, place]));
    }
    cases
}

/// A record cut short behind an unknown kind, which decides; and a record cut
/// short whose remaining bytes are unknown kinds, which are not seen as kinds.
fn unknown_kinds_and_cuts(generator: &mut Generator) -> Vec<Case> {
    let mut cases = Vec::new();
    for kind in build::UNKNOWN {
        let before = build::record(generator, 3);
        let whole = build::record(generator, 1);
        let place = before.len() as u16;
        let behind = [&before[..], &[kind], &whole[..4]].concat();
        cases.extend(every_task(generator, &behind, [place, place + 1]));
        let body = [&before[..], &[1], &[kind; 5]].concat();
        cases.extend(every_task(generator, &body, [place, place + 1]));
    }
    cases
}

/// Every length of the salt with every length of the room, over a table that is
/// accepted, one with an unknown kind and one cut short.
fn hand_overs(generator: &mut Generator) -> Vec<Case> {
    let accepted = build::records(generator, &[2, 4]);
    let unknown = [&accepted[..], &[6]].concat();
    let cut = &accepted[..7];
    let mut cases = Vec::new();
    for table in [&accepted[..], &unknown, cut] {
        for salt_length in SALT_LENGTHS {
            for room_length in ROOM_LENGTHS {
                cases.push(handed_over(generator, table, salt_length, room_length));
            }
        }
    }
    cases
}

/// A fingerprint with a salt and a room of these lengths.
pub fn handed_over(
    generator: &mut Generator,
    table: &[u8],
    salt_length: u8,
    room_length: u8,
) -> Case {
    Case {
        salt_length,
        room_length,
        ..Case::new(generator, Task::Fingerprint, table)
    }
}
