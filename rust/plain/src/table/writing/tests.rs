use super::*;
use crate::hex;
use crate::table::{list, read_at, Record};

/// A record of each kind and the bytes that it is, by hand.
fn examples() -> [(Values, Vec<u8>); 5] {
    let (low, high) = (Radio::Low, Radio::High);
    let note = [1, 0x0203, u64::MAX, 0x8000_0000_0000_0000];
    let address = 0xa200_0000_0007;
    let [below, above] = [(low, 60), (high, 0xfffe)];
    let floor = |(radio, level)| Values::Floor { radio, level };
    [
        (Values::Node { address }, hex::decode("01 a20000000007")),
        (floor(below), hex::decode("02 003c")),
        (floor(above), hex::decode("03 fffe")),
        (
            Values::Hold { time: 0x0102_0304 },
            hex::decode("04 01020304"),
        ),
        (
            Values::Note(note),
            hex::decode("05 0000000000000001 0000000000000203 ffffffffffffffff 8000000000000000"),
        ),
    ]
}

#[test]
fn a_record_is_put_at_its_place_and_nowhere_else() {
    for (record, bytes) in examples() {
        for before in 0..3 {
            for behind in 0..3 {
                let mut by_values = vec![0xee; before + bytes.len() + behind];
                let mut by_body = by_values.clone();
                let right = [&vec![0xee; before][..], &bytes, &vec![0xee; behind]].concat();
                let next = (before + bytes.len()) as u64;
                let answer = write_at(&mut by_values, before as u64, &record);
                assert_eq!((answer, by_values), ((0, next), right.clone()));
                let answer = write_body_at(&mut by_body, before as u64, bytes[0], &bytes[1..]);
                assert_eq!((answer, by_body), ((0, next), right));
            }
        }
    }
}

/// What is refused, by values and by body, and that the room stays.
#[test]
fn a_room_that_is_too_short() {
    for (record, bytes) in examples() {
        for length in 0..40 {
            for place in (0..42).chain([1 << 32, u64::MAX - 6, u64::MAX - 1, u64::MAX]) {
                let fits = u128::from(place) + bytes.len() as u128 <= length as u128;
                let mut room = vec![0xee; length];
                let number = if fits { 0 } else { 5 };
                assert_eq!(write_at(&mut room, place, &record).0, number);
                assert_eq!(room == vec![0xee; length], !fits);
                let mut room = vec![0xee; length];
                let answer = write_body_at(&mut room, place, bytes[0], &bytes[1..]);
                assert_eq!(answer.0, number);
                assert_eq!(answer.1 == 0, !fits);
                assert_eq!(room == vec![0xee; length], !fits);
            }
        }
    }
}

#[test]
fn an_address_that_six_bytes_do_not_hold() {
    for (address, number) in [
        (0, 0),
        ((1 << 48) - 1, 0),
        (1 << 48, 12),
        (1 << 63, 12),
        (u64::MAX, 12),
    ] {
        let record = Values::Node { address };
        let mut room = [0xee; 8];
        let next = if number == 0 { 8 } else { 0 };
        assert_eq!(write_at(&mut room, 1, &record), (number, next));
        if number == 0 {
            assert_eq!(room[2..], address.to_be_bytes()[2..]);
        } else {
            assert_eq!(room, [0xee; 8]);
        }
        // The room comes first.
        assert_eq!(write_at(&mut room, 2, &record), (5, 0));
        assert_eq!(write_at(&mut [], 0, &record), (5, 0));
    }
}

#[test]
fn a_kind_that_no_record_has_and_a_body_of_another_length() {
    let mut room = [0xee; 100];
    for kind in 0..=255 {
        for length in 0..60 {
            let number = match (kind, length) {
                (1, 6) | (2 | 3, 2) | (4, 4) | (5, 32) => continue,
                (1..=5, _) => 10,
                _ => 9,
            };
            let body = vec![7; length];
            assert_eq!(write_body_at(&mut room, 40, kind, &body), (number, 0));
            // Where the room is too short for the body that is given, that comes first.
            let place = (100 - length) as u64;
            assert_eq!(write_body_at(&mut room, place, kind, &body), (5, 0));
        }
    }
    assert_eq!(room, [0xee; 100]);
}

/// What was written is read back and listed.
#[test]
fn there_and_back() {
    let mut room = [0; 60];
    let mut place = 0;
    for (record, bytes) in examples() {
        let (number, next) = write_at(&mut room, place, &record);
        assert_eq!(number, 0);
        let (read, behind) = read_at(&room, place).unwrap().unwrap();
        let (kind, body) = (bytes[0], &bytes[1..]);
        assert_eq!(read, Record { place, kind, body });
        assert_eq!(behind, next);
        place = next;
    }
    let listed = "\
0 01 a20000000007
7 02 003c
10 03 fffe
13 04 01020304
18 05 00000000000000010000000000000203ffffffffffffffff8000000000000000
records 5
";
    assert_eq!(place, 51);
    assert_eq!(list(&room[..51]), listed);
}
