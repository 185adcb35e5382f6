//! Records in double-pipe that are no session, each for one reason.

use super::forged::{changed, forged};
use super::record::{Case, Task};
use plain::mode::Mode::DoublePipe;
use plain::refusal::MESSAGE_LIMIT;
use plain::session::{Session, BLANK};
use seeded::Generator;

/// Digest lengths that are not admitted. The last but one has an admitted one in
/// its lower half.
pub const BITS: [u64; 8] = [0, 120, 127, 260, 513, 520, (1 << 32) + 256, u64::MAX];

/// A digest length, a number of message bytes, and a place of the waiting block
/// behind those in use: the next one, the last of a block, the one behind it,
/// and the last of the room.
const WAITING: [(u64, u64, usize); 8] = [
    (256, 5, 5),
    (128, 192 * 77, 0),
    (224, 191, 191),
    (248, 5, 191),
    (264, 5, 5),
    (512, 128 * 77, 0),
    (384, 5, 128),
    (504, 127, 191),
];

pub fn cases(generator: &mut Generator) -> Vec<Case> {
    let records = records(generator);
    tried(generator, records)
}

/// Each record is asked about. Then every other one is given an empty piece, and
/// the rest are read into a room that is enough for any digest.
pub fn tried(generator: &mut Generator, records: Vec<Session>) -> Vec<Case> {
    let mut cases = Vec::new();
    for (index, session) in records.into_iter().enumerate() {
        cases.push(Case::new(generator, Task::IsSession, 0, session.clone()));
        let (task, length) = match index % 2 {
            0 => (Task::Add, 0),
            _ => (Task::Read, 70),
        };
        cases.push(Case::new(generator, task, length, session));
    }
    cases
}

pub fn records(generator: &mut Generator) -> Vec<Session> {
    let mut records = vec![BLANK];
    for bits in BITS {
        // In either family nothing else is wrong.
        records.push(changed(generator, DoublePipe, 256, 5, |session| {
            session.bits = bits
        }));
    }
    for bits in [256, 512] {
        for taken in [MESSAGE_LIMIT + 1, u64::MAX] {
            records.push(forged(generator, DoublePipe, bits, taken));
        }
    }
    for (bits, taken, place) in WAITING {
        let byte = some_byte(generator);
        records.push(changed(generator, DoublePipe, bits, taken, |session| {
            session.waiting[place] = byte;
        }));
    }
    for place in [64, 127] {
        let byte = some_byte(generator);
        records.push(changed(generator, DoublePipe, 256, 5, |session| {
            session.chaining[place] = byte;
        }));
    }
    records
}

/// Any byte but zero.
pub fn some_byte(generator: &mut Generator) -> u8 {
    1 + generator.below(255) as u8
}
