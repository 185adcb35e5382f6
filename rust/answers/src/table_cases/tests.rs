use super::record::{FILL, HEADER, ROOM};
use super::*;
use plain::mode::Mode::DoublePipe;
use plain::{digest, hex, table};
use std::collections::HashSet;

/// A case with nothing from the generator.
fn plain_case(task: Task, place: u16, table: &str) -> Case {
    Case {
        task,
        salt_length: 16,
        room_length: 40,
        place,
        salt: std::array::from_fn(|i| i as u8),
        table: hex::decode(table),
    }
}

#[test]
fn records_have_their_layout() {
    let case = Case {
        salt_length: 15,
        room_length: 31,
        salt: std::array::from_fn(|i| 0x10 + i as u8),
        ..plain_case(Task::Fingerprint, 0x0504, &"07".repeat(0x0102))
    };
    let header = "03 0f 1f 00 0405 0201 101112131415161718191a1b1c1d1e1f";
    let record = [hex::decode(header), vec![7; 0x0102]].concat();
    assert_eq!(case.record(), record);
    for case in cases() {
        assert_eq!(case.record().len(), HEADER + case.table.len());
        assert!(case.salt_length <= 16 && case.room_length <= 40);
        assert!(case.table.len() <= 4097);
    }
}

#[test]
fn lines_of_reading_at_a_place() {
    let note = "0001020304050607 08090a0b0c0d0e0f 1011121314151617 18191a1b1c1d1e1f";
    let table = format!("01 a20000000007 02 003c 03 0041 04 0001d4c0 05 {note}");
    for (place, line) in [
        (0, "found 7 node a20000000007\n"),
        (7, "found 10 floor low 003c\n"),
        (10, "found 13 floor high 0041\n"),
        (13, "found 18 hold 0001d4c0\n"),
        (18, &format!("found 51 note {note}\n")),
        (51, "end\n"),
        (52, "refused 6 at 0\n"),
        (1, "refused 9 at 1\n"),
        (20, "found 27 node 020304050607\n"),
        (24, "refused 10 at 24\n"),
    ] {
        // At 24 stands the note's byte 05, with 26 bytes behind it.
        assert_eq!(plain_case(Task::ReadAt, place, &table).line(), line);
    }
}

#[test]
fn lines_of_counting() {
    for (table, line) in [
        ("", "records 0\n"),
        ("02 003c 04 00000000", "records 2\n"),
        ("02 003c 06", "refused 9 at 3\n"),
        ("02 003c 04 000000", "refused 10 at 3\n"),
    ] {
        assert_eq!(plain_case(Task::Count, 9, table).line(), line);
    }
    let long = "02".repeat(4097);
    assert_eq!(plain_case(Task::Count, 9, &long).line(), "refused 8 at 0\n");
}

#[test]
fn lines_of_fingerprints() {
    let case = plain_case(Task::Fingerprint, 9, "02 003c 04 00000001");
    let digest = digest::digest(DoublePipe, 256, &case.salt, &case.table);
    let room = hex::encode(&digest) + "a5a5a5a5a5a5a5a5";
    assert_eq!(case.line(), format!("0 0 {room}\n"));
    let untouched = "a5".repeat(40);
    let cut = plain_case(Task::Fingerprint, 9, "02 003c 04 000000");
    assert_eq!(cut.line(), format!("10 3 {untouched}\n"));
    for (salt_length, room_length, number) in [(15, 31, 2), (16, 31, 5), (15, 40, 2)] {
        let case = Case {
            salt_length,
            room_length,
            ..cut.clone()
        };
        assert_eq!(case.line(), format!("{number} 0 {untouched}\n"));
    }
}

#[test]
fn fingerprints_write_32_bytes_or_none() {
    let cases = cases().into_iter();
    for case in cases.filter(|case| case.task == Task::Fingerprint) {
        let ((number, place), room) = case.fingerprint();
        assert_eq!(room[32..], [FILL; ROOM - 32]);
        assert_eq!(number == 0, room != [FILL; ROOM]);
        assert!(place == 0 || number == 9 || number == 10);
        let expected = if case.salt_length != 16 {
            2
        } else if case.room_length < 32 {
            5
        } else {
            table::read(&case.table)
                .err()
                .map_or(0, |refused| refused.0)
        };
        assert_eq!(number, expected);
    }
}

#[test]
fn swapped_radios_have_fingerprints_of_their_own() {
    for pair in swapped_radios(&mut Generator::new(3)).chunks(2) {
        let bodies = |case: &Case| -> Vec<Vec<u8>> {
            let records = table::read(&case.table).unwrap();
            records.iter().map(|record| record.body.to_vec()).collect()
        };
        assert_eq!(bodies(&pair[0]), bodies(&pair[1]));
        assert_eq!(pair[0].salt, pair[1].salt);
        assert_ne!(pair[0].line(), pair[1].line());
    }
}

#[test]
fn tables_about_the_end_of_a_block_are_fingerprinted() {
    let cases = block_edges(&mut Generator::new(3));
    let lengths: Vec<usize> = cases.iter().map(|case| case.table.len()).collect();
    assert_eq!(lengths, EDGES);
    assert!(cases.iter().all(|case| case.line().starts_with("0 0 ")));
}

#[test]
fn every_answer_of_every_task_is_met() {
    let lines: Vec<(Task, String)> = cases()
        .iter()
        .map(|case| (case.task, case.line()))
        .collect();
    let met = |task: Task, start: &str| {
        lines
            .iter()
            .any(|(of, line)| *of == task && line.starts_with(start))
    };
    for start in ["end", "refused 6 at 0", "refused 8 at 0", "refused 9 at 0"] {
        assert!(met(Task::ReadAt, start));
    }
    assert!(met(Task::ReadAt, "refused 10 at "));
    for entry in [" node ", " floor low ", " floor high ", " hold ", " note "] {
        assert!(lines.iter().any(|(_, line)| line.contains(entry)));
    }
    for start in ["records 0", "refused 8 at 0", "refused 9 at 4095"] {
        assert!(met(Task::Count, start));
    }
    assert!(met(Task::Count, "refused 10 at 4064"));
    for start in ["0 0 ", "2 0 ", "5 0 ", "8 0 ", "9 4095 ", "10 4064 "] {
        assert!(met(Task::Fingerprint, start));
    }
}

#[test]
fn every_truncation_is_asked_about() {
    let cases = truncations(&mut Generator::new(3));
    assert_eq!(cases.len(), 2 * 51);
    let valid = [0, 7, 10, 13, 18];
    for pair in cases.chunks(2) {
        assert_eq!(pair[0].table, pair[1].table);
        let length = pair[0].table.len();
        let given = if valid.contains(&length) {
            "records"
        } else {
            "refused 10"
        };
        assert!(pair[0].line().starts_with(given));
    }
}

#[test]
fn unknown_kinds_are_refused_where_they_stand() {
    let lines: Vec<String> = refused::cases(&mut Generator::new(3))
        .iter()
        .filter(|case| case.task == Task::Count)
        .map(Case::line)
        .collect();
    let kinds = ["refused 9 at 0\n", "refused 9 at 8\n", "refused 9 at 8\n"];
    let cuts = ["refused 9 at 3\n", "refused 10 at 3\n"];
    assert_eq!(lines, [kinds.repeat(3), cuts.repeat(3)].concat());
}

#[test]
fn longest_tables() {
    let cases = long::cases(&mut Generator::new(3));
    let counts: Vec<String> = cases
        .iter()
        .filter(|case| case.task == Task::Count)
        .map(Case::line)
        .collect();
    assert!(counts[0].starts_with("records "));
    let refused = [
        "refused 9 at 4095\n",
        "refused 10 at 4064\n",
        "refused 8 at 0\n",
    ];
    assert_eq!(counts[1..], refused);
    let over = cases.iter().filter(|case| case.table.len() == 4097);
    let reads = over.clone().filter(|case| case.task == Task::ReadAt);
    let lines: Vec<String> = reads.map(Case::line).collect();
    assert_eq!(lines[..3], ["refused 8 at 0\n"; 3]);
    assert_eq!(lines[3..], ["refused 6 at 0\n"; 2]);
    let prints = over.filter(|case| case.task == Task::Fingerprint);
    let numbers: Vec<u8> = prints.map(|case| case.fingerprint().0 .0).collect();
    assert_eq!(numbers, [8, 2, 5]);
}

#[test]
fn random_cases_are_done_and_refused() {
    let cases = random::cases(&mut Generator::new(3));
    assert_eq!(cases.len(), 3 * (random::TABLES + random::STRINGS));
    let (tables, strings) = cases.split_at(3 * random::TABLES);
    assert!(tables.iter().all(|case| table::read(&case.table).is_ok()));
    let bytes = strings.iter().flat_map(|case| &case.table);
    assert_eq!(bytes.collect::<HashSet<_>>().len(), 8);
    let numbers: HashSet<Option<u8>> = strings
        .iter()
        .map(|case| table::read(&case.table).err().map(|refused| refused.0))
        .collect();
    assert!(numbers.contains(&Some(9)) && numbers.contains(&Some(10)));
}

#[test]
fn the_files_hold_every_case() {
    let files = files();
    let mut rest = &files[0].bytes[..];
    let mut count = 0;
    while !rest.is_empty() {
        let length = u16::from_le_bytes([rest[6], rest[7]]);
        rest = &rest[HEADER + usize::from(length)..];
        count += 1;
    }
    assert_eq!(count, cases().len());
    assert_eq!(files[1].lines(), count);
}
