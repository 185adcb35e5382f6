//! Records of each mode that are no session, each for one reason.

use super::forged::{changed, forged};
use super::no_sessions::{some_byte, tried, BITS};
use super::record::Case;
use plain::mode::Mode;
use plain::refusal::MESSAGE_LIMIT;
use plain::session::{Session, BLANK};
use seeded::Generator;

/// A digest length, a number of message bytes, and a place of the waiting block
/// behind those in use: the next one, the last of a block, the one behind it, the
/// first behind a block of double-pipe, and the last of the room.
const DOUBLE_WAITING: [(u64, u64, usize); 8] = [
    (256, 5, 192),
    (128, 192 * 77, 223),
    (224, 191, 200),
    (248, 174, 174),
    (264, 5, 128),
    (512, 128 * 77, 192),
    (384, 127, 223),
    (504, 110, 191),
];
const SINGLE_WAITING: [(u64, u64, usize); 12] = [
    (256, 5, 5),
    (128, 224 * 77, 0),
    (224, 223, 223),
    (248, 5, 223),
    (136, 205, 206),
    (160, 191, 192),
    (264, 5, 5),
    (512, 192 * 77, 0),
    (384, 191, 191),
    (504, 5, 192),
    (272, 191, 223),
    (448, 127, 128),
];

/// A digest length and a place of the chaining value behind those in use.
const DOUBLE_CHAINING: [(u64, usize); 2] = [(256, 64), (128, 127)];
const SINGLE_CHAINING: [(u64, usize); 8] = [
    (256, 32),
    (128, 33),
    (224, 63),
    (248, 64),
    (136, 127),
    (264, 64),
    (512, 65),
    (384, 127),
];

pub fn cases(generator: &mut Generator, mode: Mode) -> Vec<Case> {
    let records = records(generator, mode);
    tried(generator, records)
}

pub fn records(generator: &mut Generator, mode: Mode) -> Vec<Session> {
    let (waiting, chaining) = match mode {
        Mode::DoublePipe => (&DOUBLE_WAITING[..], &DOUBLE_CHAINING[..]),
        Mode::SinglePipe => (&SINGLE_WAITING[..], &SINGLE_CHAINING[..]),
    };
    let mut records = vec![Session { mode, ..BLANK }];
    for bits in BITS {
        records.push(changed(generator, mode, 256, 5, |session| {
            session.bits = bits;
        }));
    }
    for bits in [256, 512] {
        for taken in [MESSAGE_LIMIT + 1, u64::MAX] {
            records.push(forged(generator, mode, bits, taken));
        }
    }
    for &(bits, taken, place) in waiting {
        let byte = some_byte(generator);
        records.push(changed(generator, mode, bits, taken, |session| {
            session.waiting[place] = byte;
        }));
    }
    for &(bits, place) in chaining {
        let byte = some_byte(generator);
        records.push(changed(generator, mode, bits, 5, |session| {
            session.chaining[place] = byte;
        }));
    }
    records
}
