use super::*;

fn case(routine: Routine, salt: usize, input: &[u8], lent: usize) -> Case {
    Case {
        routine,
        salt: vec![0; salt],
        key: vec![],
        input: input.to_vec(),
        lent: vec![0; lent],
    }
}

#[test]
fn digests() {
    for (bits, salt, room, number) in [
        (128, 16, 16, 0),
        (512, 16, 64, 0),
        (512, 16, 63, 5),
        (120, 16, 64, 1),
        (130, 15, 0, 1),
        (520, 16, 64, 1),
        (u64::MAX, 17, 0, 1),
        (256, 15, 31, 2),
        (256, 17, 32, 2),
    ] {
        let case = case(Routine::Digest { bits }, salt, b"abc", room);
        assert_eq!(answer(&case), (number, 0), "{case}");
    }
}

/// A tag is refused like a digest, and a check for its room never.
#[test]
fn tags_and_checks() {
    for (bits, salt, lent, number) in [
        (128, 16, 16, 0),
        (512, 16, 64, 0),
        (512, 16, 63, 5),
        (512, 16, 0, 5),
        (120, 16, 64, 1),
        (130, 15, 0, 1),
        (u64::MAX, 17, 0, 1),
        (256, 15, 31, 2),
        (256, 17, 32, 2),
    ] {
        let tag = case(Routine::Hmac { bits }, salt, b"abc", lent);
        assert_eq!(answer(&tag), (number, 0), "{tag}");
        let check = case(Routine::HmacCheck { bits }, salt, b"abc", lent);
        let number = if number == 5 { 0 } else { number };
        assert_eq!(answer(&check), (number, 0), "{check}");
    }
}

#[test]
fn rounds_both_ways() {
    for (square, count, counter, salt, number) in [
        (256, 8, 0, 16, 0),
        (256, 10, u64::MAX - 160, 16, 0),
        (256, 10, u64::MAX - 159, 16, 7),
        (255, 10, u64::MAX, 16, 6),
        (256, 9, 0, 16, 6),
        (0, 0, u64::MAX, 0, 2),
    ] {
        for routine in [
            Routine::Rounds { count, counter },
            Routine::RoundsBack { count, counter },
        ] {
            let case = case(routine, salt, b"", square);
            assert_eq!(answer(&case), (number, 0), "{case}");
        }
    }
}

#[test]
fn compressions() {
    for (chaining, block, counter, salt, number) in [
        (64, 192, u64::MAX - 160, 16, 0),
        (128, 128, 0, 16, 0),
        (192, 64, 0, 16, 6),
        (128, 192, u64::MAX, 16, 6),
        (128, 128, u64::MAX, 16, 7),
        (128, 128, u64::MAX, 15, 2),
    ] {
        let case = case(
            Routine::Compress { counter },
            salt,
            &vec![0; block],
            chaining,
        );
        assert_eq!(answer(&case), (number, 0), "{case}");
    }
}

/// The number of the mode comes last among a digest's.
#[test]
fn digests_in_a_mode() {
    for (mode, bits, salt, room, number) in [
        (0, 128, 16, 16, 0),
        (1, 128, 16, 16, 0),
        (2, 128, 16, 16, 6),
        (255, 512, 16, 64, 6),
        (255, 512, 16, 63, 5),
        (2, 512, 15, 63, 2),
        (2, 520, 15, 63, 1),
        (1, 512, 16, 63, 5),
        (1, 120, 16, 64, 1),
        (1, 256, 17, 32, 2),
    ] {
        let case = case(Routine::DigestIn { mode, bits }, salt, b"abc", room);
        assert_eq!(answer(&case), (number, 0), "{case}");
    }
}

/// The bit count is asked about before the room, and the bytes behind it.
#[test]
fn digests_of_bits() {
    for (mode, bits, salt, message, message_bits, room, number) in [
        (0, 128, 16, &[][..], 0, 16, 0),
        (1, 512, 16, &[0x80], 1, 64, 0),
        (0, 256, 16, &[0xff, 0xe0], 11, 32, 0),
        (0, 256, 16, &[0xff, 0xff], 16, 32, 0),
        (0, 256, 16, &[0xff, 0xf0], 11, 32, 17),
        (0, 256, 16, &[0, 1], 15, 32, 17),
        (0, 256, 16, &[0, 1], 8, 32, 6),
        (0, 256, 16, &[0, 0], 8, 32, 6),
        (0, 256, 16, &[0, 0], 17, 32, 6),
        (2, 256, 16, &[0, 1], 15, 32, 6),
        (2, 256, 16, &[0, 1], 15, 31, 5),
        (0, 256, 16, &[1], 7, 31, 5),
        (0, 256, 16, &[], MOST_BITS, 32, 6),
        (0, 256, 16, &[], MOST_BITS, 31, 5),
        (0, 256, 16, &[], MOST_BITS + 1, 31, 4),
        (2, 256, 16, &[], u64::MAX, 0, 4),
        (2, 256, 17, &[], u64::MAX, 0, 2),
        (2, 260, 17, &[], u64::MAX, 0, 1),
    ] {
        let routine = Routine::DigestBits {
            mode,
            bits,
            message_bits,
        };
        let case = case(routine, salt, message, room);
        assert_eq!(answer(&case), (number, 0), "{case}");
    }
}

#[test]
fn set_bits_behind_the_first_ones() {
    for place in 0..24 {
        let mut bytes = [0; 3];
        bytes[place / 8] = 0x80 >> (place % 8);
        for first in (0..=24).chain([u64::MAX]) {
            assert_eq!(set_behind(&bytes, first), place as u64 >= first);
        }
    }
}

#[test]
fn compressions_in_a_mode() {
    for (mode, chaining, block, counter, salt, number) in [
        (0, 64, 192, u64::MAX - 160, 16, 0),
        (0, 128, 128, 0, 16, 0),
        (0, 32, 224, 0, 16, 6),
        (1, 64, 192, u64::MAX - 160, 16, 0),
        (1, 32, 224, 0, 16, 0),
        (1, 128, 128, 0, 16, 6),
        (1, 32, 192, u64::MAX, 16, 6),
        (1, 32, 224, u64::MAX, 16, 7),
        (1, 31, 224, u64::MAX, 15, 2),
        (2, 64, 192, 0, 16, 6),
        (255, 32, 224, u64::MAX, 16, 6),
        (255, 32, 224, u64::MAX, 15, 2),
    ] {
        let routine = Routine::CompressIn { mode, counter };
        let case = case(routine, salt, &vec![0; block], chaining);
        assert_eq!(answer(&case), (number, 0), "{case}");
    }
}

/// No counter is refused where it has 128 bits.
#[test]
fn from_wide_counters() {
    for counter in [0, u64::MAX.into(), 1 << 64, u128::MAX] {
        for (square, count, salt, number) in [
            (256, 8, 16, 0),
            (256, 10, 16, 0),
            (255, 10, 16, 6),
            (256, 9, 16, 6),
            (256, 8, 17, 2),
            (0, 0, 0, 2),
        ] {
            for routine in [
                Routine::RoundsWide { count, counter },
                Routine::RoundsBackWide { count, counter },
            ] {
                let case = case(routine, salt, b"", square);
                assert_eq!(answer(&case), (number, 0), "{case}");
            }
        }
        for (mode, chaining, block, salt, number) in [
            (0, 64, 192, 16, 0),
            (0, 128, 128, 16, 0),
            (1, 32, 224, 16, 0),
            (1, 64, 192, 16, 0),
            (0, 32, 224, 16, 6),
            (1, 128, 128, 16, 6),
            (2, 64, 192, 16, 6),
            (255, 64, 192, 15, 2),
            (0, 64, 192, 15, 2),
        ] {
            let routine = Routine::CompressWide { mode, counter };
            let case = case(routine, salt, &vec![0; block], chaining);
            assert_eq!(answer(&case), (number, 0), "{case}");
        }
    }
}

#[test]
fn fingerprints() {
    let long = [2; 4097];
    for (table, salt, room, given) in [
        (&b""[..], 16, 32, (0, 0)),
        (&[2, 0, 0x3c, 3, 0, 0x41], 16, 32, (0, 0)),
        (&[2, 0, 0x3c, 3, 0], 16, 32, (10, 3)),
        (&[2, 0, 0x3c, 6, 3, 0], 16, 32, (9, 3)),
        (&[3, 0, 0, 2, 6], 16, 32, (10, 3)),
        (&[0], 16, 31, (5, 0)),
        (&[0], 15, 31, (2, 0)),
        (&long, 16, 32, (8, 0)),
        (&long[..4096], 16, 32, (10, 4095)),
    ] {
        let case = case(Routine::Fingerprint, salt, table, room);
        assert_eq!(answer(&case), given, "{case}");
    }
}

#[test]
fn all_that_apply_are_told() {
    let long = [[0].repeat(4097), vec![1]].concat();
    let case = case(Routine::Fingerprint, 0, &long, 0);
    assert_eq!(refusals(&case), [(2, 0), (5, 0), (8, 0), (9, 0)]);
}

/// With the place behind the record, at the table's end that place itself.
#[test]
fn readings() {
    let long = [2; 4098];
    let table = [2, 0, 0x3c, 6, 4, 1, 2, 3];
    for (table, place, given) in [
        (&b""[..], 0, (0, 0)),
        (b"", 1, (6, 0)),
        (b"", u64::MAX, (6, 0)),
        (&table, 0, (0, 3)),
        (&table, 1, (9, 1)),
        (&table, 3, (9, 3)),
        (&table, 4, (10, 4)),
        (&table, 7, (10, 7)),
        (&table, 8, (0, 8)),
        (&table, 9, (6, 0)),
        (&table, 1 << 32, (6, 0)),
        (&long, 4099, (6, 0)),
        (&long, 4098, (8, 0)),
        (&long, 0, (8, 0)),
        (&long[..4096], 4093, (0, 4096)),
        (&long[..4096], 4094, (10, 4094)),
    ] {
        let case = case(Routine::ReadAt { place }, 0, table, 0);
        assert_eq!(answer(&case), given, "{case}");
    }
}

#[test]
fn counts() {
    for (table, given) in [
        (&b""[..], (0, 0)),
        (&[2, 0, 0x3c, 3, 0, 0x41], (0, 0)),
        (&[2, 0, 0x3c, 3, 0], (10, 3)),
        (&[2, 0, 0x3c, 6, 3, 0], (9, 3)),
        (&[0; 4097], (8, 0)),
    ] {
        let case = case(Routine::Count, 0, table, 0);
        assert_eq!(answer(&case), given, "{case}");
    }
}

#[test]
fn writings() {
    for (room, place, kind, body, given) in [
        (3, 0, 2, 2, (0, 3)),
        (40, 7, 5, 32, (0, 40)),
        (39, 7, 5, 32, (5, 0)),
        (0, 0, 2, 2, (5, 0)),
        (3, 3, 0, 0, (5, 0)),
        (3, 2, 0, 0, (9, 0)),
        (3, 1, 3, 1, (10, 0)),
        (3, 1, 6, 1, (9, 0)),
        (3, 1, 255, 2, (5, 0)),
        (3, u64::MAX, 2, 2, (5, 0)),
        (3, u64::MAX - 2, 2, 2, (5, 0)),
        (8, 1, 1, 6, (0, 8)),
        (8, 1, 1, 5, (10, 0)),
        (8, 1, 4, 6, (10, 0)),
    ] {
        let case = case(Routine::WriteAt { place, kind }, 0, &vec![7; body], room);
        assert_eq!(answer(&case), given, "{case}");
    }
}
