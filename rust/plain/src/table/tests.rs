use super::*;
use crate::digest::digest;
use crate::mode::Mode::DoublePipe;

/// The lister's example.
const EXAMPLE: &str = "01 a2 00 00 00 00 07 02 00 3c 03 00 41";

#[test]
fn lister_example_byte_for_byte() {
    let listed = "0 01 a20000000007\n7 02 003c\n10 03 0041\nrecords 3\n";
    assert_eq!(list(&hex::decode(EXAMPLE)), listed);
}

#[test]
fn every_kind_has_its_length() {
    let mut table = Vec::new();
    for (kind, length) in [(5, 32), (4, 4), (3, 2), (2, 2), (1, 6)] {
        table.push(kind);
        table.extend(vec![0xa0 | kind; length]);
    }
    let records = read(&table).unwrap();
    let shape: Vec<_> = records
        .iter()
        .map(|record| (record.place, record.kind, record.body.len()))
        .collect();
    assert_eq!(
        shape,
        [(0, 5, 32), (33, 4, 4), (38, 3, 2), (41, 2, 2), (44, 1, 6)]
    );
    assert!(records
        .iter()
        .all(|record| record.body.iter().all(|byte| *byte == 0xa0 | record.kind)));
}

#[test]
fn empty_table_is_valid() {
    assert_eq!(list(b""), "records 0\n");
    assert_eq!(read_at(b"", 0), Ok(None));
}

#[test]
fn reading_at_a_place() {
    let table = hex::decode(EXAMPLE);
    let record = Record {
        place: 7,
        kind: 2,
        body: &[0x00, 0x3c],
    };
    assert_eq!(read_at(&table, 7), Ok(Some((record, 10))));
    assert_eq!(read_at(&table, 13), Ok(None));
    assert_eq!(read_at(&table, 14), Err((6, 0)));
    assert_eq!(read_at(&table, u64::MAX), Err((6, 0)));
    assert_eq!(read_at(&table, 1), Err((9, 1)));
    assert_eq!(read_at(&[0; 4097], 4098), Err((6, 0)));
    assert_eq!(read_at(&[0; 4097], 4097), Err((8, 0)));
}

#[test]
fn the_record_nearer_the_front_decides() {
    assert_eq!(list(&[0]), "refused 9 at 0\n");
    assert_eq!(list(&[6, 1]), "refused 9 at 0\n");
    assert_eq!(list(&[2, 0, 0, 0xff, 1]), "refused 9 at 3\n");
    for kind in 1..=5 {
        let length = body_length(kind).unwrap();
        let mut table = vec![4, 9, 9, 9, 9, kind];
        table.extend(vec![0; length]);
        for cut in 6..table.len() {
            assert_eq!(list(&table[..cut]), "refused 10 at 5\n");
        }
        assert!(list(&table).ends_with("records 2\n"));
    }
}

#[test]
fn the_longest_table() {
    let mut table = [5u8; 33].repeat(124);
    table.extend([4, 1, 2, 3]);
    assert_eq!(table.len(), 4096);
    assert_eq!(read(&table), Err((10, 4092)));
    table[4089..].copy_from_slice(&[1, 1, 2, 3, 4, 5, 6]);
    table[4059..4089].copy_from_slice(&[2, 0, 0].repeat(10));
    assert_eq!(read(&table).unwrap().len(), 123 + 10 + 1);
    table.push(0);
    assert_eq!(list(&table), "refused 8 at 0\n");
}

#[test]
fn fingerprint_program_prints_the_digest_of_the_whole_table() {
    let salt: [u8; 16] = std::array::from_fn(|i| i as u8);
    let input = [&salt[..], &hex::decode(EXAMPLE)].concat();
    let expected = hex::encode(&digest(DoublePipe, 256, &salt, &input[16..]));
    assert_eq!(fingerprint_output(&input), expected + "\n");
    let of_nothing = hex::encode(&digest(DoublePipe, 256, &salt, b"")) + "\n";
    assert_eq!(fingerprint_output(&salt), of_nothing);
}

#[test]
fn swapped_radios_change_the_fingerprint() {
    let print = |table: &str| fingerprint_output(&[&[0; 16][..], &hex::decode(table)].concat());
    assert_ne!(print("02 003c"), print("03 003c"));
    assert_ne!(print("02 003c 03 0041"), print("03 003c 02 0041"));
}

#[test]
fn fingerprint_program_refuses() {
    assert_eq!(fingerprint_output(b""), "refused 2 at 0\n");
    assert_eq!(fingerprint_output(&[1; 15]), "refused 2 at 0\n");
    let after_salt = |table: &[u8]| fingerprint_output(&[&[0; 16], table].concat());
    assert_eq!(after_salt(&[2, 0, 0, 9]), "refused 9 at 3\n");
    assert_eq!(after_salt(&[2, 0]), "refused 10 at 0\n");
    assert_eq!(after_salt(&[2; 4097]), "refused 8 at 0\n");
    assert!(after_salt(&[2; 4095]).len() == 65);
}
