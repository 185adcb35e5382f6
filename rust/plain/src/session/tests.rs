use super::*;
use crate::digest::{digest, digest_bits};
use Mode::{DoublePipe, SinglePipe};

const SALT: Word = [9; 16];

/// The most bytes of a message, 2^61 - 21, and its most bits, 2^64 - 161.
const LIMIT: u64 = 2_305_843_009_213_693_931;
const MOST: u64 = 18_446_744_073_709_551_455;

/// Digest lengths at the edges of each family, with its mode and bytes of a block.
const LENGTHS: [(Mode, u64, usize); 8] = [
    (DoublePipe, 128, 192),
    (DoublePipe, 256, 192),
    (DoublePipe, 264, 128),
    (DoublePipe, 512, 128),
    (SinglePipe, 128, 224),
    (SinglePipe, 256, 224),
    (SinglePipe, 264, 192),
    (SinglePipe, 512, 192),
];

fn block(mode: Mode, bits: u64) -> usize {
    match (mode, bits <= 256) {
        (SinglePipe, true) => 224,
        (DoublePipe, true) | (SinglePipe, false) => 192,
        (DoublePipe, false) => 128,
    }
}

fn opened(mode: Mode, bits: u64) -> Session {
    let (number, session) = Session::open(mode, bits, &SALT);
    assert_eq!(number, 0);
    session
}

/// A session that no opening made, of so many bytes: with its waiting bytes in use all
/// 77, and its chaining value all 55.
fn forged(mode: Mode, bits: u64, bytes: u64) -> Session {
    forged_bits(mode, bits, 8 * bytes)
}

/// The same of so many bits: of a part of a byte, its front of 77.
fn forged_bits(mode: Mode, bits: u64, taken: u64) -> Session {
    let b = block(mode, bits);
    let mut session = Session {
        mode,
        bits,
        salt: SALT,
        taken,
        ..BLANK
    };
    let in_use = taken % (8 * b as u64);
    let whole = in_use as usize / 8;
    session.waiting[..whole].fill(0x77);
    session.waiting[whole] = front(0x77, in_use % 8);
    session.chaining[..256 - b].fill(0x55);
    session
}

/// The first bits of a byte, and zeros behind them.
fn front(byte: u8, count: u64) -> u8 {
    (0..count).fold(0, |front, place| front | byte & 0x80 >> place)
}

fn read(session: &Session) -> Vec<u8> {
    let mut out = vec![0; session.bits as usize / 8];
    assert_eq!(session.read(&mut out), 0);
    out
}

#[test]
fn from_an_opening_every_cut_gives_the_digest() {
    for (mode, bits, b) in LENGTHS {
        for length in [0, 1, b - 19, b - 18, b - 1, b, b + 1, 2 * b, 2 * b + 1] {
            let message: Vec<u8> = (0..length).map(|i| (7 * i + 3) as u8).collect();
            let expected = digest(mode, bits, &SALT, &message);
            for cut in 0..=length {
                let mut session = opened(mode, bits);
                for (piece, so_far) in [(&message[..cut], cut), (&message[cut..], length)] {
                    assert_eq!(session.add(piece), 0);
                    assert!(session.is_session());
                    assert_eq!(session.taken, 8 * so_far as u64);
                }
                assert_eq!(read(&session), expected);
            }
        }
    }
}

#[test]
fn single_bytes_with_a_reading_after_each_give_every_digest() {
    for (mode, bits, _) in LENGTHS {
        let message: Vec<u8> = (0..460).map(|i| (11 * i + 5) as u8).collect();
        let mut session = opened(mode, bits);
        for n in 0..message.len() {
            assert_eq!(read(&session), digest(mode, bits, &SALT, &message[..n]));
            assert_eq!(session.add(&message[n..=n]), 0);
        }
    }
}

#[test]
fn openings() {
    for mode in [DoublePipe, SinglePipe] {
        for (bits, salt, number) in [(0, 16, 1), (127, 15, 1), (520, 16, 1), (256, 15, 2)] {
            let answer = Session::open(mode, bits, &SALT[..salt]);
            assert_eq!(answer, (number, BLANK));
        }
    }
    assert!(!BLANK.is_session());
    for (mode, bits, words) in [
        (DoublePipe, 136, 4),
        (DoublePipe, 264, 8),
        (SinglePipe, 136, 2),
        (SinglePipe, 264, 4),
    ] {
        let session = opened(mode, bits);
        assert_eq!((session.mode, session.bits), (mode, bits));
        assert_eq!((session.taken, session.waiting), (0, [0; 224]));
        let (value, rest) = session.chaining.split_at(16 * words);
        for word in value.chunks(16) {
            assert_eq!(word[..2], (bits as u16).to_le_bytes());
            assert_eq!(word[2..], [0; 14]);
        }
        assert!(rest.iter().all(|byte| *byte == 0));
    }
}

#[test]
fn what_is_no_session() {
    let changed = |change: fn(&mut Session), mode, bits: u64, taken: u64| {
        let mut session = forged(mode, bits, taken);
        assert!(session.is_session());
        change(&mut session);
        session.is_session()
    };
    for (mode, bits, b) in LENGTHS {
        assert!(!changed(|s| s.bits = 0, mode, bits, 5));
        assert!(!changed(|s| s.bits += 1, mode, bits, 5));
        assert!(!changed(|s| s.bits += 1 << 32, mode, bits, 5));
        assert!(!changed(|s| s.waiting[5] = 1, mode, bits, 5));
        // A multiple of each block.
        assert!(!changed(|s| s.waiting[0] = 1, mode, bits, 2688));
        assert!(changed(|s| s.taken += 7, mode, bits, LIMIT));
        assert!(!changed(|s| s.taken += 8, mode, bits, LIMIT));
        // The waiting bits no longer fit the smaller number.
        assert!(!changed(|s| s.taken -= 1, mode, bits, 5));
        assert!(!changed(|s| s.taken -= 8, mode, bits, 5));
        assert!(changed(|s| s.taken += 1, mode, bits, 5));
        assert!(changed(|s| s.taken += 8, mode, bits, 5));
        for place in 5..224 {
            let mut session = forged(mode, bits, 5);
            session.waiting[place] = 1;
            assert!(!session.is_session());
        }
        for place in 0..128 {
            let mut session = forged(mode, bits, 5);
            session.chaining[place] = 1;
            assert_eq!(session.is_session(), place < 256 - b);
        }
    }
    for mode in [DoublePipe, SinglePipe] {
        assert!(!changed(|s| s.bits = 520, mode, 512, 5));
        assert!(!changed(|s| s.bits = 120, mode, 128, 5));
        assert!(!changed(|s| s.taken = u64::MAX, mode, 256, 0));
    }
}

/// What is a session in one mode may be none in the other: where the chaining
/// value is too long there, or fewer bytes are waiting.
#[test]
fn the_mode_decides_which_room_is_in_use() {
    let other = |mode, bits, taken, chaining: usize| {
        let mut session = forged(mode, bits, taken);
        session.chaining[chaining..].fill(0);
        assert!(session.is_session());
        session.mode = match mode {
            DoublePipe => SinglePipe,
            SinglePipe => DoublePipe,
        };
        session.is_session()
    };
    for (bits, single) in [(256, 32), (512, 64)] {
        assert!(other(DoublePipe, bits, 5, single));
        assert!(!other(DoublePipe, bits, 5, single + 1));
        assert!(other(SinglePipe, bits, 5, single));
    }
    assert!(other(SinglePipe, 256, 191, 32));
    assert!(!other(SinglePipe, 256, 192, 32));
    assert!(other(SinglePipe, 512, 127, 64));
    assert!(!other(SinglePipe, 512, 128, 64));
    assert!(other(DoublePipe, 256, 192, 32));
    assert!(!other(DoublePipe, 256, 225, 32));
}

#[test]
fn adding_refuses_the_lowest_number_and_changes_nothing() {
    for mode in [DoublePipe, SinglePipe] {
        let mut bad = forged(mode, 256, LIMIT);
        bad.chaining[127] = 1;
        for (session, piece, number) in [
            (forged(mode, 256, LIMIT), 1, 4),
            (forged(mode, 512, LIMIT - 5), 6, 4),
            (forged(mode, 256, LIMIT + 1), 0, 3),
            (forged(mode, 256, LIMIT + 1), 1, 3),
            (forged_bits(mode, 512, MOST + 1), 1, 3),
            (forged_bits(mode, 512, u64::MAX), 1, 3),
            (forged_bits(mode, 512, u64::MAX), 0, 3),
            (bad.clone(), 0, 3),
            (bad, 1, 3),
            (BLANK, 1, 3),
        ] {
            let mut same = session.clone();
            assert_eq!(same.add(&[1; 9][..piece]), number);
            assert_eq!(same, session);
        }
    }
}

#[test]
fn reading_refuses_the_lowest_number_and_writes_nothing() {
    for mode in [DoublePipe, SinglePipe] {
        let mut bad = forged(mode, 264, 7);
        bad.waiting[192] = 1;
        let mut out = [0xee; 40];
        for (session, room, number) in [
            (forged(mode, 256, 7), 31, 5),
            (forged(mode, 256, LIMIT), 0, 5),
            (forged(mode, 264, 7), 32, 5),
            (bad.clone(), 33, 3),
            (bad, 32, 3),
            (BLANK, 0, 3),
        ] {
            assert_eq!(session.read(&mut out[..room]), number);
            assert_eq!(out, [0xee; 40]);
        }
    }
}

#[test]
fn reading_fills_only_its_room() {
    for mode in [DoublePipe, SinglePipe] {
        let session = forged(mode, 264, 7);
        let mut out = [0xee; 40];
        assert_eq!(session.read(&mut out), 0);
        assert_eq!(out[..33], read(&session));
        assert_eq!(out[33..], [0xee; 7]);
    }
}

#[test]
fn an_empty_piece_changes_nothing() {
    for (mode, bits, _) in LENGTHS {
        for taken in [0, 5, 192, 224, LIMIT - 107, LIMIT] {
            let mut session = forged(mode, bits, taken);
            assert_eq!(session.add(&[]), 0);
            assert_eq!(session, forged(mode, bits, taken));
        }
    }
}

#[test]
fn the_limit_can_be_reached() {
    for (mode, bits, _) in LENGTHS {
        let mut session = forged(mode, bits, LIMIT - 5);
        assert_eq!(session.add(&[0x77; 5]), 0);
        assert_eq!(session, forged(mode, bits, LIMIT));
        // The last block's end before the limit.
        let mut session = forged(mode, bits, LIMIT - 108);
        assert_eq!(session.add(&[0x77; 2]), 0);
        assert_eq!(session.taken, 8 * (LIMIT - 106));
        assert_eq!(session.waiting[0], 0x77);
        assert_eq!(session.waiting[1..], [0; 223]);
    }
}

/// The two blocks that a piece fills, each written out.
#[test]
fn adding_goes_on_from_a_forged_session() {
    for (mode, bits, b) in LENGTHS {
        let n = b as u64 * 1_000_000_007 + b as u64 - 2;
        let mut session = forged(mode, bits, n);
        let piece: Vec<u8> = (0..b + 5).map(|i| i as u8).collect();
        assert_eq!(session.add(&piece), 0);
        let first = [&vec![0x77; b - 2][..], &[0, 1]].concat();
        let second = &piece[2..b + 2];
        let end = n + 2 + b as u64;
        let mut chaining = vec![0x55; 256 - b];
        let bits_so_far = |bytes: u64| u128::from(8 * bytes);
        compress(mode, &mut chaining, &first, bits_so_far(n + 2), &SALT);
        compress(mode, &mut chaining, second, bits_so_far(end), &SALT);
        let mut expected = Session {
            mode,
            bits,
            salt: SALT,
            taken: 8 * (end + 3),
            ..BLANK
        };
        expected.chaining[..256 - b].copy_from_slice(&chaining);
        expected.waiting[..3].copy_from_slice(&piece[b + 2..]);
        assert_eq!(session, expected);
    }
}

/// A digest of [`forged`] with the blocks that are left and their counters
/// written out.
fn by_hand(mode: Mode, bits: u64, n: u64, counters: &[u64]) -> Vec<u8> {
    let b = block(mode, bits);
    let mut bytes = vec![0x77; n as usize % b];
    bytes.push(0x80);
    bytes.resize(b * counters.len() - 18, 0);
    bytes.extend((bits as u16).to_le_bytes());
    bytes.extend((8 * n).to_le_bytes());
    bytes.extend([0; 8]);
    let mut chaining = vec![0x55; 256 - b];
    for (block, counter) in bytes.chunks(b).zip(counters) {
        compress(mode, &mut chaining, block, u128::from(*counter), &SALT);
    }
    chaining.truncate(bits as usize / 8);
    chaining
}

/// One block for as many bytes in use as leave room for the padding, two for one
/// more, the second without a message bit, and one of pure padding for none.
#[test]
fn reading_goes_on_from_a_forged_session() {
    for (mode, bits, b) in LENGTHS {
        let b = b as u64;
        let end = LIMIT - 107;
        for begin in [0, b, 1_000_000_007 * b, end - b] {
            for (used, counters) in [
                (0, &[0][..]),
                (1, &[8 * begin + 8]),
                (b - 19, &[8 * (begin + b - 19)]),
                (b - 18, &[8 * (begin + b - 18), 0]),
                (b - 1, &[8 * (begin + b - 1), 0]),
            ] {
                let n = begin + used;
                let expected = by_hand(mode, bits, n, counters);
                assert_eq!(read(&forged(mode, bits, n)), expected);
            }
        }
        let expected = by_hand(mode, bits, end, &[0]);
        assert_eq!(read(&forged(mode, bits, end)), expected);
        let expected = by_hand(mode, bits, LIMIT, &[u64::MAX - 167]);
        assert_eq!(read(&forged(mode, bits, LIMIT)), expected);
    }
}

/// Every bit behind those in use, for each size of a part of a byte, at the front, in the
/// middle and at the end of a block.
#[test]
fn a_set_bit_behind_those_in_use_makes_it_none() {
    for (mode, bits, b) in LENGTHS {
        let end = 8 * b as u64;
        for begin in [0, 8, 8 * 77, end - 8] {
            for in_use in begin..begin + 8 {
                let session = forged_bits(mode, bits, 3 * end + in_use);
                assert!(session.is_session());
                for place in 0..8 * 224 {
                    let mut other = session.clone();
                    other.waiting[place / 8] ^= 0x80 >> (place % 8);
                    assert_eq!(other.is_session(), (place as u64) < in_use);
                }
            }
        }
    }
}

#[test]
fn the_limit_counts_bits() {
    for (mode, bits, _) in LENGTHS {
        assert!(forged_bits(mode, bits, MOST).is_session());
        assert!(!forged_bits(mode, bits, MOST + 1).is_session());
        // Seven bits more than so many bytes, and no eighth.
        let longest = forged(mode, bits, LIMIT);
        let mut session = longest.clone();
        assert_eq!(session.add_bits(&[0x76], 7), 0);
        assert_eq!(session, forged_bits(mode, bits, MOST));
        assert_eq!(read(&session).len() as u64, bits / 8);
        let mut same = longest.clone();
        assert_eq!([same.add(&[0x77]), same.add_bits(&[0x77], 8)], [4, 4]);
        assert_eq!(same, longest);
    }
}

/// Every length to past two blocks: in one piece, and cut between bytes, with an empty
/// piece behind a part of a byte.
#[test]
fn from_an_opening_every_length_in_bits_gives_the_digest() {
    for (mode, bits, b) in LENGTHS {
        let message: Vec<u8> = (0..2 * b + 3).map(|i| (7 * i + 3) as u8).collect();
        for length in 0..=16 * b as u64 + 17 {
            let mut piece = message[..length.div_ceil(8) as usize].to_vec();
            if let Some(last) = piece.last_mut().filter(|_| length % 8 != 0) {
                *last = front(*last, length % 8);
            }
            let expected = digest_bits(mode, bits, &SALT, &piece, length);
            let mut session = opened(mode, bits);
            assert_eq!(session.add_bits(&piece, length), 0);
            assert!(session.is_session());
            assert_eq!((session.taken, read(&session)), (length, expected.clone()));
            let cut = length as usize / 8 * (length as usize % 11) / 10;
            let mut session = opened(mode, bits);
            assert_eq!(session.add(&piece[..cut]), 0);
            assert_eq!(session.add_bits(&piece[cut..], length - 8 * cut as u64), 0);
            assert_eq!(session.add(&[]), 0);
            assert_eq!(read(&session), expected);
        }
    }
}

/// A byte in part at the end of a block leaves it waiting.
#[test]
fn a_part_of_a_blocks_last_byte_fills_no_block() {
    for (mode, bits, b) in LENGTHS {
        let end = 8 * b as u64;
        for count in 1..8 {
            let mut session = forged_bits(mode, bits, end - 8);
            assert_eq!(session.add_bits(&[front(0x77, count)], count), 0);
            assert_eq!(session, forged_bits(mode, bits, end - 8 + count));
            let piece = [&vec![0x77; b - 1][..], &[front(0x77, count)]].concat();
            let mut session = forged_bits(mode, bits, 5 * end);
            assert_eq!(session.add_bits(&piece, end - 8 + count), 0);
            assert_eq!(session, forged_bits(mode, bits, 6 * end - 8 + count));
        }
    }
}

/// Numbers of a piece are given the lowest first, and change nothing.
#[test]
fn adding_bits_refuses_the_lowest_number() {
    for mode in [DoublePipe, SinglePipe] {
        let mut none = forged_bits(mode, 256, MOST);
        none.waiting[223] = 1;
        let (whole, part) = (forged_bits(mode, 256, 40), forged_bits(mode, 256, 43));
        let (near, last) = (
            forged_bits(mode, 512, MOST - 7),
            forged_bits(mode, 512, MOST),
        );
        for (session, piece, count, number) in [
            (&none, &[0xff; 3][..], u64::MAX, 3),
            (&none, &[], 0, 3),
            (&near, &[0xff], 8, 4),
            (&near, &[], 8, 4),
            (&last, &[0xff], 1, 4),
            (&part, &[0xff], u64::MAX, 4),
            (&part, &[0xff], 0, 6),
            (&part, &[], 1, 6),
            (&part, &[0xff, 0xff], 3, 6),
            (&part, &[0xff], 3, 16),
            (&part, &[0xe0], 3, 16),
            (&part, &[0xff], 8, 16),
            (&last, &[], 0, 0),
            (&part, &[], 0, 0),
            (&whole, &[0xff; 2], 8, 6),
            (&whole, &[0xff; 2], 17, 6),
            (&whole, &[], u64::MAX - 200, 6),
            (&whole, &[0xff; 2], 15, 17),
            (&whole, &[0xff, 0x01], 9, 17),
            (&near, &[0xff], 7, 17),
            (&whole, &[0x10], 3, 17),
        ] {
            let mut same = session.clone();
            assert_eq!(same.add_bits(piece, count), number);
            assert_eq!(same, *session);
        }
        for piece in [&[0xff][..], &[0; 200]] {
            let mut same = part.clone();
            assert_eq!(same.add(piece), 16);
            assert_eq!(same, part);
        }
    }
}

/// Two blocks that a piece of bits fills, and the reading behind it, written out.
#[test]
fn bits_go_on_from_a_forged_session() {
    for (mode, bits, b) in LENGTHS {
        let begin = 8 * b as u64 * 1_000_000_007;
        let mut session = forged_bits(mode, bits, begin + 8 * (b as u64 - 1));
        let piece = [&[0xc3][..], &vec![0x3c; b], &[0b0101_0000]].concat();
        assert_eq!(session.add_bits(&piece, 8 * (b as u64 + 1) + 4), 0);
        let taken = begin + 16 * b as u64 + 4;
        assert_eq!(session.taken, taken);
        let first = [&vec![0x77; b - 1][..], &[0xc3]].concat();
        let mut chaining = vec![0x55; 256 - b];
        let ends = [taken - 4 - 8 * b as u64, taken - 4].map(u128::from);
        compress(mode, &mut chaining, &first, ends[0], &SALT);
        compress(mode, &mut chaining, &vec![0x3c; b], ends[1], &SALT);
        assert_eq!(session.chaining[..256 - b], chaining);
        assert_eq!(session.waiting[0], 0b0101_0000);
        let mut last = vec![0b0101_1000];
        last.resize(b - 18, 0);
        last.extend((bits as u16).to_le_bytes());
        last.extend(u128::from(taken).to_le_bytes());
        compress(mode, &mut chaining, &last, taken.into(), &SALT);
        assert_eq!(read(&session), chaining[..bits as usize / 8]);
    }
}
