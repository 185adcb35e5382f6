//! Cases from the generator alone: tables of records, and byte strings in which
//! most bytes are kinds.

use super::record::Case;
use super::{build, every_task};
use seeded::Generator;

/// How many tables of records.
pub const TABLES: usize = 55;

/// How many byte strings.
pub const STRINGS: usize = 40;

pub fn cases(generator: &mut Generator) -> Vec<Case> {
    let mut cases = Vec::new();
    for _ in 0..TABLES {
        let table = some_records(generator);
        cases.extend(at_some_place(generator, &table));
    }
    for _ in 0..STRINGS {
        let table = some_bytes(generator);
        cases.extend(at_some_place(generator, &table));
    }
    cases
}

/// Up to four records of any kinds.
fn some_records(generator: &mut Generator) -> Vec<u8> {
    let kinds: Vec<u8> = (0..generator.below(5))
        .map(|_| build::some_kind(generator))
        .collect();
    build::records(generator, &kinds)
}

/// Up to 60 bytes, each from 0 to 7. Short ones are more frequent: in a long one
/// an unknown kind near the front decides nearly always.
fn some_bytes(generator: &mut Generator) -> Vec<u8> {
    let most = generator.below(61);
    (0..generator.below(most + 1))
        .map(|_| generator.below(8) as u8)
        .collect()
}

/// Every task over a table, which is read at a place up to just past its end.
fn at_some_place(generator: &mut Generator, table: &[u8]) -> Vec<Case> {
    let place = generator.below(table.len() as u64 + 2) as u16;
    every_task(generator, table, [place])
}
