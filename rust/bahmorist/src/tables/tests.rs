use super::*;
use std::vec;
use std::vec::Vec;

/// A record of each kind, and a table of them by hand.
const EACH: [Record; 5] = [
    Record::Node {
        address: [0xa2, 0, 0, 0, 0, 7],
    },
    Record::Floor {
        radio: Radio::Low,
        level: 0x0102,
    },
    Record::Floor {
        radio: Radio::High,
        level: 0xfffe,
    },
    Record::Hold { time: 0x0102_0304 },
    Record::Note([1, 0x0203, u64::MAX, 1 << 63]),
];
const TABLE: [u8; 51] = [
    1, 0xa2, 0, 0, 0, 0, 7, 2, 1, 2, 3, 0xff, 0xfe, 4, 1, 2, 3, 4, 5, 0, 0, 0, 0, 0, 0, 0, 1, 0, 0,
    0, 0, 0, 0, 2, 3, 0xff, 0xff, 0xff, 0xff, 0xff, 0xff, 0xff, 0xff, 0x80, 0, 0, 0, 0, 0, 0, 0,
];
const PLACES: [u64; 5] = [0, 7, 10, 13, 18];

#[test]
fn each_kind_is_written_and_read_back() {
    let mut room = [0xee; 60];
    let mut writer = TableWriter::new(&mut room);
    assert!(writer.is_empty());
    for (record, place) in EACH.iter().zip(PLACES) {
        assert_eq!(writer.len() as u64, place);
        assert_eq!(writer.push(record), Ok(()));
        assert_eq!(writer.table()[place as usize], record.kind());
    }
    assert_eq!(writer.table(), TABLE);
    assert_eq!(writer.into_table(), TABLE);
    assert_eq!(room[51..], [0xee; 9]);
    let read: Result<Vec<_>, _> = records(&TABLE).collect();
    assert_eq!(read, Ok(PLACES.into_iter().zip(EACH).collect()));
    assert_eq!(count(&TABLE), Ok(5));
}

#[test]
fn a_push_that_is_refused_changes_nothing() {
    for length in 0..TABLE.len() {
        let mut room = vec![0xee; length];
        let mut writer = TableWriter::new(&mut room);
        let refused = EACH.iter().find_map(|record| writer.push(record).err());
        assert_eq!(refused, Some(Refusal::Room));
        let written = writer.len();
        assert_eq!(writer.table(), &TABLE[..written]);
        assert!(room[written..].iter().all(|byte| *byte == 0xee));
    }
}

/// Of a longer room no byte past a table's is written.
#[test]
fn a_table_ends_at_its_limit() {
    let mut room = [0xee; MOST_TABLE_BYTES + 10];
    let mut writer = TableWriter::new(&mut room);
    let floor = EACH[1];
    while writer.push(&floor).is_ok() {}
    assert_eq!(writer.push(&floor), Err(Refusal::Room));
    assert_eq!(writer.len(), 4095);
    assert_eq!(count(writer.table()), Ok(1365));
    assert_eq!(room[4095..], [0xee; 11]);
}

#[test]
fn no_record_comes_behind_a_refusal() {
    let refused = |refusal, place| Some(Err(RefusedTable { refusal, place }));
    for cut in 0..TABLE.len() {
        let mut records = records(&TABLE[..cut]);
        let whole = records.by_ref().take_while(Result::is_ok).count();
        let ends = [0, 7, 10, 13, 18, 51].contains(&cut);
        assert_eq!(
            whole,
            PLACES.iter().filter(|place| **place < cut as u64).count() - usize::from(!ends)
        );
        assert_eq!(records.next(), None);
    }
    let mut cut = records(&TABLE[..12]);
    assert_eq!(cut.nth(2), refused(Refusal::CutShort, 10));
    assert_eq!((cut.next(), cut.next()), (None, None));
    let mut unknown = records(&[0]);
    assert_eq!(unknown.next(), refused(Refusal::Kind, 0));
    assert_eq!(unknown.next(), None);
    let mut long = records(&[2; MOST_TABLE_BYTES + 1]);
    assert_eq!(long.next(), refused(Refusal::Table, 0));
    assert_eq!(long.next(), None);
    assert_eq!(records(&[]).next(), None);
}
