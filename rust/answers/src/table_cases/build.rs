//! Tables to make cases from, with bodies from the generator.

use plain::table::body_length;
use seeded::Generator;

/// The kinds that records have.
pub const KINDS: [u8; 5] = [1, 2, 3, 4, 5];

/// Kind bytes that no record has.
pub const UNKNOWN: [u8; 3] = [0, 6, 255];

/// A record of a kind.
pub fn record(generator: &mut Generator, kind: u8) -> Vec<u8> {
    let length = body_length(kind).expect("a kind that records have");
    let body: [u8; 32] = generator.bytes();
    [&[kind], &body[..length]].concat()
}

/// Records of these kinds in order.
pub fn records(generator: &mut Generator, kinds: &[u8]) -> Vec<u8> {
    kinds
        .iter()
        .flat_map(|kind| record(generator, *kind))
        .collect()
}

/// A kind from the generator.
pub fn some_kind(generator: &mut Generator) -> u8 {
    generator.pick(&KINDS)
}

/// A valid table of just this length. There is none of 1, 2 or 4 bytes, so a
/// record that would leave room for as many is passed over.
pub fn of_length(generator: &mut Generator, length: usize) -> Vec<u8> {
    assert!(![1, 2, 4].contains(&length), "a length that a table has");
    let mut table = Vec::new();
    while table.len() < length {
        let kind = some_kind(generator);
        let record = record(generator, kind);
        match (length - table.len()).checked_sub(record.len()) {
            None | Some(1 | 2 | 4) => {}
            Some(_) => table.extend(record),
        }
    }
    table
}

#[cfg(test)]
mod tests {
    use super::*;
    use plain::table;

    #[test]
    fn tables_of_a_length_are_valid() {
        let mut generator = Generator::new(3);
        for length in [0, 3, 5, 6, 7, 8, 9, 33, 100, 4096] {
            let table = of_length(&mut generator, length);
            assert_eq!(table.len(), length);
            assert!(table::read(&table).is_ok());
        }
    }

    #[test]
    fn records_are_of_their_kinds() {
        let table = records(&mut Generator::new(3), &KINDS);
        let read = table::read(&table).unwrap();
        let kinds: Vec<u8> = read.iter().map(|record| record.kind).collect();
        assert_eq!(kinds, KINDS);
        assert!(UNKNOWN.iter().all(|kind| body_length(*kind).is_none()));
    }
}
