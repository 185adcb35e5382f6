//! Cases at the longest table and beyond it.

use super::record::Case;
use super::refused::handed_over;
use super::{build, every_task};
use plain::refusal::TABLE_LIMIT;
use seeded::Generator;

/// At the front, around the longest table's end, and far past it.
const PLACES: [u16; 5] = [0, 4096, 4097, 4098, 65535];

/// Tables of 4096 bytes that are valid, that end with an unknown kind, and that
/// lack the last byte of a note; and one of 4097 bytes, which has that byte.
pub fn cases(generator: &mut Generator) -> Vec<Case> {
    let valid = build::of_length(generator, TABLE_LIMIT);
    let mut unknown = build::of_length(generator, TABLE_LIMIT - 1);
    unknown.push(0);
    let mut over = build::of_length(generator, TABLE_LIMIT - 32);
    over.extend(build::record(generator, 5));
    let cut = &over[..TABLE_LIMIT];
    let mut cases = Vec::new();
    for table in [&valid[..], &unknown, cut, &over] {
        cases.extend(every_task(generator, table, PLACES));
    }
    for (salt_length, room_length) in [(15, 31), (16, 31)] {
        cases.push(handed_over(generator, &over, salt_length, room_length));
    }
    cases
}
