use super::*;
use crate::mode::MODES;

const SALT: [u8; 16] = [9; 16];

#[test]
fn digest_fills_only_its_room() {
    let mut out = [0xee; 40];
    assert_eq!(digest(256, &SALT, b"abc", &mut out), 0);
    assert_eq!(
        out[..32],
        crate::digest::digest(DoublePipe, 256, &SALT, b"abc")
    );
    assert_eq!(out[32..], [0xee; 8]);
}

#[test]
fn digest_refuses_the_lowest_number_and_writes_nothing() {
    let mut out = [0xee; 32];
    for (bits, salt, room, number) in [
        (0, 16, 32, 1),
        (120, 0, 0, 1),
        (257, 16, 32, 1),
        (520, 17, 32, 1),
        (256, 15, 0, 2),
        (256, 17, 32, 2),
        (256, 16, 31, 5),
        (264, 16, 32, 5),
    ] {
        let refused = digest(bits, &[9; 17][..salt], b"abc", &mut out[..room]);
        assert_eq!(refused, number);
    }
    assert_eq!(out, [0xee; 32]);
}

#[test]
fn digest_in_a_mode() {
    for mode in MODES {
        for bits in [128, 256, 264, 512] {
            let size = bits as usize / 8;
            let mut out = [0xee; 80];
            let number = digest_in(mode.number(), bits, &SALT, b"abc", &mut out);
            assert_eq!(number, 0);
            let expected = crate::digest::digest(mode, bits, &SALT, b"abc");
            assert_eq!(out[..size], expected);
            assert_eq!(out[size..], [0xee; 80][size..]);
        }
    }
}

/// The number of a mode is asked about last.
#[test]
fn a_number_of_no_mode_is_refused_where_nothing_else_is() {
    let mut out = [0xee; 32];
    for (bits, salt, room, number) in [
        (256, 16, 32, 6),
        (128, 16, 32, 6),
        (256, 16, 31, 5),
        (256, 15, 32, 2),
        (257, 16, 32, 1),
        (120, 15, 0, 1),
    ] {
        for mode in [2, 3, 128, 255] {
            let salt = &[9; 17][..salt];
            let refused = digest_in(mode, bits, salt, b"abc", &mut out[..room]);
            assert_eq!(refused, number);
        }
    }
    assert_eq!(out, [0xee; 32]);
}

#[test]
fn digest_refuses_messages_that_no_memory_holds() {
    assert_eq!(digest_refusal(256, 16, (1 << 61) - 21, 32), 0);
    assert_eq!(digest_refusal(256, 16, (1 << 61) - 20, 32), 4);
    assert_eq!(digest_refusal(256, 16, u64::MAX, 31), 4);
    assert_eq!(digest_refusal(256, 15, u64::MAX, 31), 2);
    assert_eq!(digest_refusal(100, 15, u64::MAX, 31), 1);
}

#[test]
fn digest_of_bits() {
    for mode in MODES {
        for bits in [128, 256, 264, 512] {
            let size = bits as usize / 8;
            for (message, length) in [
                (&[][..], 0),
                (&[0x80], 1),
                (&[0], 1),
                (&[0xfe], 7),
                (&[0xff], 8),
                (&[0xff, 0x80], 9),
            ] {
                let mut out = [0xee; 80];
                let number = mode.number();
                let done = digest_bits(number, bits, &SALT, message, length, &mut out);
                assert_eq!(done, 0);
                let expected = crate::digest::digest_bits(mode, bits, &SALT, message, length);
                assert_eq!(out[..size], expected);
                assert_eq!(out[size..], [0xee; 80][size..]);
            }
        }
    }
}

/// In every place of a part of a byte, and alone where nothing else is wrong.
#[test]
fn digest_of_bits_refuses_set_bits_behind_the_last_one() {
    for mode in MODES {
        let number = mode.number();
        for length in 1..8 {
            for place in 0..8 {
                let message = [0x33, 0x80 >> place];
                let refused = digest_bits(number, 256, &SALT, &message, 8 + length, &mut [0; 32]);
                assert_eq!(refused, if place < length { 0 } else { 17 });
            }
        }
    }
}

/// Mode, digest length, salt, message in bytes and bits, and room.
#[test]
fn digest_of_bits_refuses_the_lowest_number_and_writes_nothing() {
    let most = u64::MAX - 160;
    let mut out = [0xee; 32];
    for (mode, bits, salt, bytes, length, room, number) in [
        (2, 127, 15, 1, u64::MAX, 0, 1),
        (2, 256, 17, 1, u64::MAX, 0, 2),
        (2, 256, 16, 1, most + 1, 0, 4),
        (0, 256, 16, 1, most + 1, 32, 4),
        (0, 256, 16, 1, most, 31, 5),
        (0, 256, 16, 1, most, 32, 6),
        (2, 256, 16, 1, 1, 31, 5),
        (2, 256, 16, 1, 1, 32, 6),
        (255, 256, 16, 1, 8, 32, 6),
        (1, 256, 16, 1, 0, 32, 6),
        (1, 256, 16, 1, 9, 32, 6),
        (1, 256, 16, 2, 8, 32, 6),
        (1, 256, 16, 0, 1, 32, 6),
        (1, 256, 16, 1, 1, 31, 5),
        (1, 256, 16, 1, 1, 32, 17),
        (0, 256, 16, 3, 23, 32, 17),
    ] {
        let (salt, message) = (&[9; 17][..salt], &[0xff; 3][..bytes]);
        let refused = digest_bits(mode, bits, salt, message, length, &mut out[..room]);
        assert_eq!(refused, number, "{length} bits");
        assert_eq!(out, [0xee; 32]);
    }
}

#[test]
fn digest_of_bits_refuses_messages_that_no_memory_holds() {
    let most = u64::MAX - 160;
    assert_eq!(digest_bits_refusal(256, 16, most, 32), 0);
    assert_eq!(digest_bits_refusal(256, 16, most + 1, 32), 4);
    assert_eq!(digest_bits_refusal(256, 16, most, 31), 5);
    assert_eq!(digest_bits_refusal(256, 16, u64::MAX, 31), 4);
    assert_eq!(digest_bits_refusal(256, 15, u64::MAX, 31), 2);
    assert_eq!(digest_bits_refusal(100, 15, u64::MAX, 31), 1);
}

#[test]
fn a_tag_fills_only_its_room() {
    let mut out = [0xee; 40];
    assert_eq!(hmac(264, &SALT, b"key", b"abc", &mut out), 0);
    assert_eq!(out[..33], crate::hmac::hmac(264, &SALT, b"key", b"abc"));
    assert_eq!(out[33..], [0xee; 7]);
}

#[test]
fn tags_refuse_the_lowest_number_and_write_nothing() {
    let mut out = [0xee; 32];
    for (bits, salt, room, number) in [
        (0, 16, 32, 1),
        (120, 0, 0, 1),
        (520, 17, 32, 1),
        (256, 15, 0, 2),
        (256, 17, 32, 2),
        (256, 16, 31, 5),
        (264, 16, 32, 5),
    ] {
        let salt = &[9; 17][..salt];
        let refused = hmac(bits, salt, b"key", b"abc", &mut out[..room]);
        assert_eq!(refused, number);
        // A check has no room, and takes bytes of any length.
        let checked = hmac_check(bits, salt, b"key", b"abc", &out[..room]);
        let number = if number == 5 { 0 } else { number };
        assert_eq!(checked, (number, false));
    }
    assert_eq!(out, [0xee; 32]);
}

/// Key and message each at the limit, with the key's block before the message.
#[test]
fn tags_refuse_keys_and_messages_that_no_memory_holds() {
    let limit = (1 << 61) - 21;
    for (bits, block) in [(128, 192), (256, 192), (264, 128), (512, 128)] {
        for (sizes, number) in [
            ((0, limit - block), 0),
            ((0, limit - block + 1), 4),
            ((0, limit), 4),
            ((0, u64::MAX), 4),
            ((limit, 0), 0),
            ((limit, limit - block), 0),
            ((limit + 1, 0), 4),
            ((u64::MAX, u64::MAX), 4),
        ] {
            assert_eq!(hmac_check_refusal(bits, 16, sizes), number);
            assert_eq!(hmac_refusal(bits, 16, sizes, 64), number);
        }
    }
    let far = (u64::MAX, u64::MAX);
    assert_eq!(hmac_refusal(256, 16, far, 31), 4);
    assert_eq!(hmac_refusal(256, 15, far, 31), 2);
    assert_eq!(hmac_refusal(100, 15, far, 31), 1);
    assert_eq!(hmac_refusal(256, 16, (0, 0), 31), 5);
}

#[test]
fn a_check_says_yes_to_the_whole_tag_alone() {
    for bits in [128, 264] {
        let check = |key: &[u8], message: &[u8], tag: &[u8]| {
            let (number, yes) = hmac_check(bits, &SALT, key, message, tag);
            assert_eq!(number, 0);
            yes
        };
        let tag = crate::hmac::hmac(bits, &SALT, b"key", b"abc");
        assert!(check(b"key", b"abc", &tag));
        assert!(!check(b"kez", b"abc", &tag));
        assert!(!check(b"key", b"abd", &tag));
        assert!(!check(b"key", b"abc", &tag[1..]));
        assert!(!check(b"key", b"abc", &tag[..tag.len() - 1]));
        assert!(!check(b"key", b"abc", &[&tag[..], &[0]].concat()));
        assert!(!check(b"key", b"abc", b""));
        for bit in 0..8 * tag.len() {
            let mut wrong = tag.clone();
            wrong[bit / 8] ^= 1 << (bit % 8);
            assert!(!check(b"key", b"abc", &wrong));
        }
    }
}

#[test]
fn rounds_refuse_the_lowest_number_and_write_nothing() {
    let mut lent = [0xee; 257];
    for (size, count, counter, salt, number) in [
        (256, 8, 0, 15, 2),
        (255, 9, u64::MAX, 17, 2),
        (0, 8, 0, 16, 6),
        (255, 8, 0, 16, 6),
        (257, 10, u64::MAX, 16, 6),
        (256, 0, 0, 16, 6),
        (256, 9, u64::MAX, 16, 6),
        (256, 8, u64::MAX - 159, 16, 7),
        (256, 10, u64::MAX, 16, 7),
    ] {
        for work in [rounds, rounds_back] {
            let refused = work(&mut lent[..size], count, counter, &[9; 17][..salt]);
            assert_eq!(refused, number);
            assert_eq!(lent, [0xee; 257]);
        }
    }
}

#[test]
fn rounds_do_the_work_of_the_square() {
    for count in [8, 10] {
        let mut lent = [0xee; 256];
        let mut expected = lent;
        square::rounds(&mut expected, count, COUNTER_LIMIT.into(), &SALT);
        assert_eq!(rounds(&mut lent, count, u64::MAX - 160, &SALT), 0);
        assert_eq!(lent, expected);
        assert_eq!(rounds_back(&mut lent, count, u64::MAX - 160, &SALT), 0);
        assert_eq!(lent, [0xee; 256]);
    }
}

/// Counters of 128 bits: at both ends, and where those of 64 bits are refused.
const WIDE: [u128; 6] = [
    0,
    COUNTER_LIMIT as u128,
    COUNTER_LIMIT as u128 + 1,
    u64::MAX as u128,
    1 << 64,
    u128::MAX,
];

#[test]
fn wide_rounds_are_refused_for_no_counter() {
    let mut lent = [0xee; 257];
    for counter in WIDE {
        for (size, count, salt, number) in [
            (256, 8, 15, 2),
            (256, 10, 17, 2),
            (255, 9, 0, 2),
            (0, 8, 16, 6),
            (255, 8, 16, 6),
            (257, 10, 16, 6),
            (256, 0, 16, 6),
            (256, 9, 16, 6),
            (256, (1 << 32) + 8, 16, 6),
        ] {
            for work in [rounds_wide, rounds_back_wide] {
                let refused = work(&mut lent[..size], count, counter, &[9; 17][..salt]);
                assert_eq!(refused, number);
                assert_eq!(lent, [0xee; 257]);
            }
        }
        for count in [8, 10] {
            let square = &mut lent[..256];
            let mut expected = [0xee; 256];
            square::rounds(&mut expected, count, counter, &SALT);
            assert_eq!(rounds_wide(square, count, counter, &SALT), 0);
            assert_eq!(square, expected);
            assert_eq!(rounds_back_wide(square, count, counter, &SALT), 0);
            assert_eq!(lent, [0xee; 257]);
        }
    }
}

/// Where the counter in 64 bits is not refused, and where it is.
#[test]
fn wide_and_not_agree_up_to_the_limit() {
    let limit = COUNTER_LIMIT;
    for counter in [0, 1536, limit - 1, limit, limit + 1, u64::MAX] {
        let number = if counter > limit { 7 } else { 0 };
        for count in [8, 10] {
            let (mut one, mut other) = ([0xee; 256], [0xee; 256]);
            assert_eq!(rounds(&mut one, count, counter, &SALT), number);
            assert_eq!(rounds_wide(&mut other, count, counter.into(), &SALT), 0);
            assert_eq!(one == other, number == 0);
            let (mut one, mut other) = ([0xee; 256], [0xee; 256]);
            assert_eq!(rounds_back(&mut one, count, counter, &SALT), number);
            let wide = rounds_back_wide(&mut other, count, counter.into(), &SALT);
            assert_eq!((wide, one == other), (0, number == 0));
        }
        for mode in MODES {
            for family in family::of_mode(mode) {
                let (mut one, block) = (vec![0xee; family.chaining], vec![3; family.block]);
                let mut other = one.clone();
                let mode = mode.number();
                let given = compress_in(mode, &mut one, &block, counter, &SALT);
                let wide = compress_wide(mode, &mut other, &block, counter.into(), &SALT);
                assert_eq!((given, wide), (number, 0));
                assert_eq!(one == other, number == 0);
            }
        }
    }
}

#[test]
fn wide_compressions_are_refused_for_no_counter() {
    let (mut chaining, block) = ([0xee; 128], [3; 256]);
    for counter in WIDE {
        for (mode, a, b, salt, number) in [
            (0, 64, 192, 0, 2),
            (1, 63, 192, 15, 2),
            (2, 64, 192, 17, 2),
            (2, 64, 192, 16, 6),
            (255, 32, 224, 16, 6),
            (0, 32, 224, 16, 6),
            (1, 128, 128, 16, 6),
            (0, 64, 193, 16, 6),
            (1, 33, 223, 16, 6),
            (0, 0, 0, 16, 6),
        ] {
            let (lent, salt) = (&mut chaining[..a], &[9; 17][..salt]);
            let refused = compress_wide(mode, lent, &block[..b], counter, salt);
            assert_eq!(refused, number);
            assert_eq!(chaining, [0xee; 128]);
        }
    }
}

#[test]
fn compress_refuses_the_lowest_number_and_writes_nothing() {
    let mut chaining = [0xee; 192];
    let block = [3; 193];
    for (a, b, counter, salt, number) in [
        (64, 192, 0, 0, 2),
        (63, 192, u64::MAX, 15, 2),
        (64, 193, 0, 16, 6),
        (128, 192, 0, 16, 6),
        (192, 64, 0, 16, 6),
        (0, 0, u64::MAX, 16, 6),
        (64, 192, u64::MAX - 159, 16, 7),
        (128, 128, u64::MAX, 16, 7),
    ] {
        let refused = compress(&mut chaining[..a], &block[..b], counter, &[9; 17][..salt]);
        assert_eq!(refused, number);
        assert_eq!(chaining, [0xee; 192]);
    }
    assert_eq!(compress(&mut chaining[..64], &block[..192], 0, &SALT), 0);
    assert_ne!(chaining[..64], [0xee; 64]);
}

#[test]
fn compress_in_a_mode() {
    for mode in MODES {
        for family in family::of_mode(mode) {
            let (a, b) = (family.chaining, family.block);
            let (mut chaining, block) = (vec![0xee; a], vec![3; b]);
            let mut expected = chaining.clone();
            let (number, counter) = (mode.number(), COUNTER_LIMIT);
            compression::compress(mode, &mut expected, &block, counter.into(), &SALT);
            let refused = compress_in(number, &mut chaining, &block, counter, &SALT);
            assert_eq!(refused, 0);
            assert_eq!(chaining, expected);
        }
    }
}

/// Sizes of chaining value and block, and the modes that take them.
#[test]
fn compress_refuses_the_sizes_of_the_other_mode() {
    let (mut chaining, block) = ([0xee; 128], [3; 256]);
    for (a, b, modes) in [
        (64, 192, &[0, 1][..]),
        (128, 128, &[0]),
        (32, 224, &[1]),
        (64, 128, &[]),
        (32, 192, &[]),
        (31, 224, &[]),
        (32, 225, &[]),
        (33, 223, &[]),
        (0, 0, &[]),
    ] {
        for mode in [0, 1, 2, 255] {
            let taken = modes.contains(&mode);
            let before = chaining;
            let lent = &mut chaining[..a];
            let number = compress_in(mode, lent, &block[..b], 7, &SALT);
            assert_eq!(number, if taken { 0 } else { 6 });
            assert_eq!(chaining != before, taken);
            // The lowest number is given, and nothing changes.
            let (before, lent) = (chaining, &mut chaining[..a]);
            let number = compress_in(mode, lent, &block[..b], u64::MAX, &SALT);
            assert_eq!(number, if taken { 7 } else { 6 });
            let lent = &mut chaining[..a];
            let number = compress_in(mode, lent, &block[..b], u64::MAX, &SALT[1..]);
            assert_eq!(number, 2);
            assert_eq!(chaining, before);
        }
    }
}

#[test]
fn fingerprint_is_the_digest_of_the_whole_table() {
    let mut out = [0xee; 33];
    let table = [2, 0, 0x3c, 3, 0, 0x41];
    assert_eq!(fingerprint(&SALT, &table, &mut out), (0, 0));
    assert_eq!(
        out[..32],
        crate::digest::digest(DoublePipe, 256, &SALT, &table)
    );
    assert_eq!(out[32], 0xee);
}

#[test]
fn fingerprint_refuses_the_lowest_number_and_writes_nothing() {
    let mut out = [0xee; 32];
    let long = [0xff; 4097];
    for (salt, table, room, given) in [
        (15, &long[..], 0, (2, 0)),
        (16, &long, 31, (5, 0)),
        (16, &long, 32, (8, 0)),
        (16, &[2, 0, 1, 7], 32, (9, 3)),
        (16, &[2, 0, 1, 2, 0], 32, (10, 3)),
    ] {
        let refused = fingerprint(&SALT[..salt], table, &mut out[..room]);
        assert_eq!(refused, given);
        assert_eq!(out, [0xee; 32]);
    }
}
