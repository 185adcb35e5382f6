//! Tag sessions that are opened, and openings that are refused.

use super::record::{Case, Task};
use super::whole::{keys, KEYS};
use crate::session_cases::forged::FAMILIES;
use seeded::Generator;

/// Digest lengths and lengths of the salt that are refused.
const REFUSED: [(u64, u8); 12] = [
    (0, 16),
    (120, 16),
    (260, 16),
    (520, 16),
    ((1 << 32) + 256, 16),
    (u64::MAX, 16),
    (128, 0),
    (256, 15),
    (264, 0),
    (512, 15),
    (127, 15),
    (520, 0),
];

/// Each size of a key in both families, and each of those that are refused.
pub fn cases(generator: &mut Generator) -> Vec<Case> {
    let mut cases = Vec::new();
    for lengths in FAMILIES {
        for (key, bits) in keys(lengths.block as u16).into_iter().zip(lengths.bits) {
            cases.push(Case::keyed(generator, Task::Open, bits, key));
        }
    }
    for (turn, (bits, salt_length)) in REFUSED.into_iter().enumerate() {
        let key = keys(192)[turn % KEYS];
        cases.push(Case {
            salt_length,
            ..Case::keyed(generator, Task::Open, bits, key)
        });
    }
    cases
}
