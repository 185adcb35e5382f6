use super::record::GIVEN;
use super::*;
use plain::hex;
use std::collections::HashSet;

/// A case with nothing from the generator, in a room that counts from 0xe0 on.
fn plain_case(given: Given, room: u8, place: u64) -> Case {
    Case {
        given,
        place,
        room: (0..room).map(|i| 0xe0 + i).collect(),
        filled: [0xcc; GIVEN],
    }
}

fn node(address: u64) -> Given {
    Given::Values(Values::Node { address })
}

fn body(kind: u8, digits: &str) -> Given {
    Given::Body(kind, hex::decode(digits))
}

/// The kind byte of a record, and how long its body is.
fn kind_and_length(case: &Case) -> (u8, usize) {
    match &case.given {
        Given::Values(values) => (values.kind(), size(values.kind()) - 1),
        Given::Body(kind, body) => (*kind, body.len()),
    }
}

#[test]
fn records_have_their_layout() {
    let floor = Values::Floor {
        radio: Radio::High,
        level: 0x0102,
    };
    let note = Values::Note([0x0102_0304_0506_0708, 9, 10, 1 << 56]);
    for (given, front, behind) in [
        (node(0x0102_0304_0506_0708), "04 01 00", "0807060504030201"),
        (Given::Values(floor), "04 03 00", "0201"),
        (
            Given::Values(Values::Hold { time: 0x010203 }),
            "04 04 00",
            "03020100",
        ),
        (
            Given::Values(note),
            "04 05 00",
            "0807060504030201 0900000000000000 0a00000000000000 0000000000000001",
        ),
        (body(6, "010203"), "05 06 03", "010203"),
    ] {
        let header = format!("{front} 000000 0200 0102030000000080 0000000000000000 e0e1");
        let mut record = hex::decode(&header);
        record.extend(hex::decode(behind));
        record.resize(24 + 2 + GIVEN, 0xcc);
        assert_eq!(plain_case(given, 2, 0x8000_0000_0003_0201).record(), record);
    }
}

#[test]
fn lines_of_records_by_their_values() {
    let [low, high] = [Radio::Low, Radio::High].map(|radio| {
        let level = 0x003c;
        Given::Values(Values::Floor { radio, level })
    });
    let hold = Given::Values(Values::Hold { time: 0x0001_d4c0 });
    for (given, room, place, line) in [
        (node(0xa200_0000_0007), 9, 1, "0 8 e001a20000000007e8\n"),
        (node(0xa200_0000_0007), 9, 3, "5 0 e0e1e2e3e4e5e6e7e8\n"),
        (node(1 << 48), 9, 1, "12 0 e0e1e2e3e4e5e6e7e8\n"),
        (node(1 << 48), 9, 3, "5 0 e0e1e2e3e4e5e6e7e8\n"),
        (low, 3, 0, "0 3 02003c\n"),
        (high, 5, 2, "0 5 e0e103003c\n"),
        (hold.clone(), 6, 0, "0 5 040001d4c0e5\n"),
        (hold, 0, 0, "5 0 \n"),
    ] {
        assert_eq!(plain_case(given, room, place).line(), line);
    }
    let note = Given::Values(Values::Note([1, 2, 3, 4]));
    let numbers: String = (1..=4).map(|number| format!("{number:016x}")).collect();
    let line = format!("0 34 e005{numbers}\n");
    assert_eq!(plain_case(note, 34, 1).line(), line);
}

#[test]
fn lines_of_records_by_kind_and_body() {
    for (given, place, line) in [
        (body(3, "0041"), 1, "0 4 e0030041e4\n"),
        (body(3, "0041"), 3, "5 0 e0e1e2e3e4\n"),
        (body(6, "0041"), 1, "9 0 e0e1e2e3e4\n"),
        (body(6, "0041"), 3, "5 0 e0e1e2e3e4\n"),
        (body(6, ""), 4, "9 0 e0e1e2e3e4\n"),
        (body(3, "004100"), 1, "10 0 e0e1e2e3e4\n"),
        (body(3, ""), 4, "10 0 e0e1e2e3e4\n"),
        (body(3, ""), 5, "5 0 e0e1e2e3e4\n"),
        (body(1, "0041"), u64::MAX, "5 0 e0e1e2e3e4\n"),
    ] {
        assert_eq!(plain_case(given, 5, place).line(), line);
    }
}

#[test]
fn a_record_is_put_there_and_nothing_else_or_nothing_at_all() {
    for case in cases() {
        let ((number, next), room) = case.written();
        if number != 0 {
            assert_eq!((next, &room), (0, &case.room));
            continue;
        }
        let (kind, length) = kind_and_length(&case);
        let [from, to] = [case.place, next].map(|place| place as usize);
        assert_eq!((room[from], to), (kind, from + 1 + length));
        assert_eq!(room[..from], case.room[..from]);
        assert_eq!(room[to..], case.room[to..]);
    }
}

#[test]
fn every_set_of_refusals_is_met_and_the_lowest_wins() {
    let mut met = HashSet::new();
    for case in cases() {
        let (kind, length) = kind_and_length(&case);
        let end = u128::from(case.place) + 1 + length as u128;
        let too_high =
            matches!(case.given, Given::Values(Values::Node { address }) if address >> 48 != 0);
        let right = body_length(kind).unwrap_or(0);
        let refusals: Vec<u8> = [
            (5, end > case.room.len() as u128),
            (9, right == 0),
            (10, length != right),
            (12, too_high),
        ]
        .into_iter()
        .filter_map(|(number, applies)| applies.then_some(number))
        .collect();
        assert_eq!(case.written().0 .0, *refusals.first().unwrap_or(&0));
        met.insert((case.record()[0], refusals));
    }
    let right: [(u8, &[u8]); 12] = [
        (4, &[]),
        (4, &[5]),
        (4, &[12]),
        (4, &[5, 12]),
        (5, &[]),
        (5, &[5]),
        (5, &[9]),
        (5, &[10]),
        (5, &[5, 9]),
        (5, &[5, 10]),
        (5, &[9, 10]),
        (5, &[5, 9, 10]),
    ];
    let right = right.map(|(task, refusals)| (task, refusals.to_vec()));
    assert_eq!(met, HashSet::from(right));
}

#[test]
fn every_kind_is_written_and_refused_by_both_tasks() {
    let cases = cases();
    for task in [4, 5] {
        for kind in KINDS {
            for is_written in [true, false] {
                assert!(cases.iter().any(|case| {
                    case.record()[..2] == [task, kind] && (case.written().0 .0 == 0) == is_written
                }));
            }
        }
    }
}

#[test]
fn rooms_of_every_length_to_40_and_the_longest() {
    let lengths: HashSet<usize> = cases().iter().map(|case| case.room.len()).collect();
    assert_eq!(lengths, (0..=ROOM).chain([4096, 4097]).collect());
    assert!((200..500).contains(&cases().len()));
}

#[test]
fn the_files_hold_every_case() {
    let cases = cases();
    let rooms: usize = cases.iter().map(|case| case.room.len()).sum();
    let files = files();
    assert_eq!(files[0].bytes.len(), cases.len() * (24 + GIVEN) + rooms);
    assert_eq!(files[1].lines(), cases.len());
}
