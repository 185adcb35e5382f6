//! Cases of the program `table_cases`: tables read at a place, counted and
//! fingerprinted, done and refused.

mod build;
mod long;
mod random;
mod record;
mod refused;
#[cfg(test)]
mod tests;

use crate::file::File;
use plain::hex;
use record::{Case, Task};
use seeded::Generator;

/// The program's input and the output it has to give.
pub fn files() -> Vec<File> {
    let cases = cases();
    vec![
        File {
            path: "crates/table_cases/stdin",
            bytes: cases.iter().flat_map(Case::record).collect(),
        },
        File {
            path: "crates/table_cases/stdout",
            bytes: cases.iter().map(Case::line).collect::<String>().into(),
        },
    ]
}

fn cases() -> Vec<Case> {
    let mut generator = Generator::new(3);
    let mut cases = short(&mut generator);
    cases.extend(truncations(&mut generator));
    cases.extend(refused::cases(&mut generator));
    cases.extend(long::cases(&mut generator));
    cases.extend(random::cases(&mut generator));
    cases.extend(swapped_radios(&mut generator));
    cases.extend(block_edges(&mut generator));
    cases
}

/// Each kind alone, all kinds in one table that is read at every place and past
/// its end, and the empty table.
fn short(generator: &mut Generator) -> Vec<Case> {
    let mut cases = Vec::new();
    for kind in build::KINDS {
        let table = build::record(generator, kind);
        cases.extend(every_task(generator, &table, [0]));
    }
    let table = build::records(generator, &build::KINDS);
    let places = 0..=table.len() as u16 + 2;
    cases.extend(every_task(generator, &table, places));
    cases.extend(every_task(generator, &[], 0..=2));
    cases
}

/// A table of all kinds cut short at every length.
fn truncations(generator: &mut Generator) -> Vec<Case> {
    let mut cases = Vec::new();
    let table = build::records(generator, &build::KINDS);
    for length in 0..table.len() {
        for task in [Task::Count, Task::Fingerprint] {
            cases.push(Case::new(generator, task, &table[..length]));
        }
    }
    cases
}

/// Fingerprints of tables in pairs, each under one salt: the same levels, with
/// the radios swapped.
fn swapped_radios(generator: &mut Generator) -> Vec<Case> {
    let mut cases = Vec::new();
    for (table, swapped) in [
        ("02 003c", "03 003c"),
        ("02 003c 03 0041", "03 003c 02 0041"),
        (
            "01 a20000000007 02 003c 03 0041",
            "01 a20000000007 03 003c 02 0041",
        ),
    ] {
        let case = Case::new(generator, Task::Fingerprint, &hex::decode(table));
        let other = Case {
            table: hex::decode(swapped),
            ..case.clone()
        };
        cases.extend([case, other]);
    }
    cases
}

/// Lengths about those at which a table, alone or with its padding, fills one
/// block of 192 bytes, two, or as many as a table can.
const EDGES: [usize; 16] = [
    172, 173, 174, 191, 192, 193, 365, 366, 383, 384, 385, 4013, 4014, 4031, 4032, 4033,
];

/// Fingerprints of tables of these lengths.
fn block_edges(generator: &mut Generator) -> Vec<Case> {
    let mut cases = Vec::new();
    for length in EDGES {
        let table = build::of_length(generator, length);
        cases.push(Case::new(generator, Task::Fingerprint, &table));
    }
    cases
}

/// A table read at each of the places, counted, and fingerprinted.
fn every_task(
    generator: &mut Generator,
    table: &[u8],
    places: impl IntoIterator<Item = u16>,
) -> Vec<Case> {
    let mut cases = Vec::new();
    for place in places {
        let case = Case::new(generator, Task::ReadAt, table);
        cases.push(Case { place, ..case });
    }
    for task in [Task::Count, Task::Fingerprint] {
        cases.push(Case::new(generator, task, table));
    }
    cases
}
