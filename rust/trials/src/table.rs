//! Steering tables drawn from a generator: some valid, most nearly so.

use seeded::Generator;

/// The kinds of records and the bytes of their bodies.
pub const KINDS: [(u8, usize); 5] = [(1, 6), (2, 2), (3, 2), (4, 4), (5, 32)];

/// The most bytes of a table.
pub const LIMIT: usize = 4096;

/// A table of one sort or another. Long ones are rare: they take the most time,
/// and in a long one something near the front decides nearly always.
pub fn some(generator: &mut Generator) -> Vec<u8> {
    match generator.below(64) {
        0..=12 => random_bytes(generator),
        13..=20 => small_bytes(generator),
        21..=36 => valid(generator),
        37..=48 => cut(generator),
        49..=61 => flipped(generator),
        _ => about_the_limit(generator),
    }
}

/// A record of any kind.
pub fn record(generator: &mut Generator) -> Vec<u8> {
    let (kind, length) = generator.pick(&KINDS);
    let mut record = vec![kind];
    record.extend(generator.vector(length));
    record
}

/// Records of any kinds, the fewest that fill a length or pass it.
pub fn records(generator: &mut Generator, length: usize) -> Vec<u8> {
    let mut table = Vec::new();
    while table.len() < length {
        table.extend(record(generator));
    }
    table
}

/// A valid table of just this length, which must not be 1, 2 or 4.
pub fn of_length(generator: &mut Generator, length: usize) -> Vec<u8> {
    let mut table = Vec::new();
    while table.len() < length {
        let record = record(generator);
        match (length - table.len()).checked_sub(record.len()) {
            // Too long, or what it leaves is no table's length.
            None | Some(1 | 2 | 4) => {}
            Some(_) => table.extend(record),
        }
    }
    table
}

/// A few records, or now and then many.
fn valid(generator: &mut Generator) -> Vec<u8> {
    let most = match generator.below(64) {
        0 => LIMIT - 32,
        _ => 200,
    };
    let length = generator.below(most as u64) as usize;
    records(generator, length)
}

fn random_bytes(generator: &mut Generator) -> Vec<u8> {
    let length = generator.below(80) as usize;
    generator.vector(length)
}

/// Bytes from 0 to 7, most of which are kinds.
fn small_bytes(generator: &mut Generator) -> Vec<u8> {
    let mut bytes = random_bytes(generator);
    for byte in &mut bytes {
        *byte &= 7;
    }
    bytes
}

/// A valid table without some bytes at its end.
fn cut(generator: &mut Generator) -> Vec<u8> {
    let mut table = valid(generator);
    let length = generator.below(table.len() as u64 + 1) as usize;
    table.truncate(length);
    table
}

/// A valid table with one bit flipped, or several.
fn flipped(generator: &mut Generator) -> Vec<u8> {
    let mut table = valid(generator);
    if !table.is_empty() {
        let flips = generator.pick(&[1, 1, 1, 2, 3, 10]);
        for _ in 0..flips {
            let place = generator.below(table.len() as u64) as usize;
            table[place] ^= 1 << generator.below(8);
        }
    }
    table
}

/// Up to the longest table or beyond: valid but for its length, cut there, or
/// wrong somewhere.
fn about_the_limit(generator: &mut Generator) -> Vec<u8> {
    let length = match generator.below(4) {
        0 => LIMIT + 1 + generator.below(400) as usize,
        _ => LIMIT - 4 + generator.below(9) as usize,
    };
    let mut table = match generator.below(2) {
        0 => of_length(generator, length),
        _ => records(generator, length),
    };
    match generator.below(4) {
        0 => table.truncate(length),
        1 => table[length - 1] = 0,
        _ => {}
    }
    table
}

#[cfg(test)]
mod tests {
    use super::*;
    use plain::table::read;
    use std::collections::HashMap;

    #[test]
    fn tables_of_a_length_are_valid() {
        let mut generator = Generator::new(1);
        for length in [0, 3, 5, 6, 7, 40, 4095, 4096] {
            let table = of_length(&mut generator, length);
            assert_eq!(table.len(), length);
            assert!(read(&table).is_ok());
        }
    }

    /// Each outcome is frequent among the tables that are drawn, and both lengths
    /// at the limit are met.
    #[test]
    fn every_outcome_is_met() {
        let mut generator = Generator::new(2);
        let tables: Vec<Vec<u8>> = (0..5000).map(|_| some(&mut generator)).collect();
        let mut numbers = HashMap::new();
        for table in &tables {
            let number = read(table).map_or_else(|(number, _)| number, |_| 0);
            *numbers.entry(number).or_insert(0) += 1;
        }
        for number in [0, 8, 9, 10] {
            assert!(numbers[&number] > 100, "{numbers:?}");
        }
        for length in [LIMIT, LIMIT + 1] {
            assert!(tables.iter().any(|table| table.len() == length));
        }
        let longest = |table: &&Vec<u8>| table.len() == LIMIT && read(table).is_ok();
        assert!(tables.iter().any(|table| longest(&table)));
    }
}
