use super::*;
use crate::compression::compress;
use crate::digest::{digest, initial};
use crate::hmac::hmac;
use crate::mode::Mode::{self, SinglePipe};

const SALT: Word = [9; 16];
const LIMIT: u64 = 2_305_843_009_213_693_931;

/// Digest lengths at the edges of both families.
const LENGTHS: [u64; 4] = [128, 256, 264, 512];

fn block(bits: u64) -> usize {
    if bits <= 256 {
        192
    } else {
        128
    }
}

/// Bytes that differ from their neighbours.
fn bytes(length: usize) -> Vec<u8> {
    (0..length).map(|i| (7 * i + 3) as u8).collect()
}

fn opened(bits: u64, key: &[u8]) -> TagSession {
    let (number, session) = TagSession::open(bits, &SALT, key);
    assert_eq!(number, 0);
    session
}

/// A digest session of so many bytes that no opening made: with its waiting bytes in
/// use all 77, and its chaining value all of one byte.
fn digest_session(bits: u64, bytes: u64, chaining: u8) -> Session {
    let mut session = Session {
        bits,
        salt: SALT,
        taken: 8 * bytes,
        ..session::BLANK
    };
    session.waiting[..bytes as usize % block(bits)].fill(0x77);
    session.chaining[..256 - block(bits)].fill(chaining);
    session
}

/// A tag session that no opening made.
fn forged(bits: u64, taken: u64) -> TagSession {
    TagSession {
        inner: digest_session(bits, taken, 0x55),
        outer: digest_session(bits, block(bits) as u64, 0x66),
    }
}

fn tag(session: &TagSession) -> Vec<u8> {
    let mut out = vec![0; session.inner.bits as usize / 8];
    assert_eq!(session.read(&mut out), 0);
    out
}

#[test]
fn from_an_opening_every_cut_gives_the_tag() {
    for bits in LENGTHS {
        let b = block(bits);
        for (key, length) in [(0, 0), (1, 1), (b - 1, b - 19), (b, b - 18), (b + 1, b + 1)] {
            let (key, message) = (bytes(key), bytes(length));
            let expected = hmac(bits, &SALT, &key, &message);
            for cut in 0..=length {
                let mut session = opened(bits, &key);
                for (piece, so_far) in [(&message[..cut], cut), (&message[cut..], length)] {
                    assert_eq!(session.add(piece), 0);
                    assert!(session.is_session());
                    assert_eq!(session.inner.taken, 8 * (b + so_far) as u64);
                }
                assert_eq!(tag(&session), expected);
            }
        }
    }
}

#[test]
fn single_bytes_with_a_reading_and_a_check_after_each_give_every_tag() {
    for bits in LENGTHS {
        let (key, message) = (bytes(33), bytes(300));
        let mut session = opened(bits, &key);
        for n in 0..message.len() {
            let expected = hmac(bits, &SALT, &key, &message[..n]);
            assert_eq!(tag(&session), expected);
            assert_eq!(session.check(&expected), (0, true));
            assert_eq!(session.add(&message[n..=n]), 0);
            assert_eq!(session.check(&expected), (0, false));
        }
    }
}

#[test]
fn refused_openings() {
    for (bits, salt, number) in [(0, 16, 1), (127, 15, 1), (520, 16, 1), (256, 15, 2)] {
        let answer = TagSession::open(bits, &SALT[..salt], b"key");
        assert_eq!(answer, (number, BLANK));
    }
    assert!(!BLANK.is_session());
}

#[test]
fn openings_with_keys_that_no_memory_holds() {
    assert_eq!(opening_refusal(256, 16, LIMIT), 0);
    assert_eq!(opening_refusal(512, 16, LIMIT + 1), 4);
    assert_eq!(opening_refusal(256, 16, u64::MAX), 4);
    assert_eq!(opening_refusal(256, 15, u64::MAX), 2);
    assert_eq!(opening_refusal(260, 17, u64::MAX), 1);
}

/// One compression each, of the key with its zeros, written out.
#[test]
fn an_opening_takes_a_block_into_both_sessions() {
    for bits in LENGTHS {
        let b = block(bits);
        let session = opened(bits, &[0xf0; 5]);
        for (part, first, rest) in [
            (&session.inner, 0xf0 ^ 0x36, 0x36),
            (&session.outer, 0xf0 ^ 0x5c, 0x5c),
        ] {
            let mut taken = vec![rest; b];
            taken[..5].fill(first);
            let mut chaining = initial(DoublePipe, bits);
            compress(DoublePipe, &mut chaining, &taken, 8 * b as u128, &SALT);
            assert_eq!(part.chaining[..256 - b], chaining);
            assert_eq!(part.chaining[256 - b..], [0; 128][..b - 128]);
            assert_eq!((part.bits, part.salt), (bits, SALT));
            assert_eq!((part.taken, part.waiting), (8 * b as u64, [0; 224]));
        }
    }
}

#[test]
fn a_key_that_is_longer_than_a_block_opens_as_its_digest() {
    for bits in LENGTHS {
        let b = block(bits);
        let long = bytes(b + 1);
        assert_eq!(
            opened(bits, &long),
            opened(bits, &digest(DoublePipe, bits, &SALT, &long))
        );
        let whole = &long[..b];
        assert_ne!(
            opened(bits, whole),
            opened(bits, &digest(DoublePipe, bits, &SALT, whole))
        );
    }
}

#[test]
fn what_is_no_tag_session() {
    let changed = |change: fn(&mut TagSession), bits: u64, taken: u64| {
        let mut session = forged(bits, taken);
        assert!(session.is_session());
        change(&mut session);
        session.is_session()
    };
    for bits in LENGTHS {
        let b = block(bits) as u64;
        // Either is no digest session.
        assert!(!changed(|s| s.inner.bits += 1, bits, b + 5));
        assert!(!changed(|s| s.outer.bits += 1, bits, b + 5));
        assert!(!changed(|s| s.inner.waiting[5] = 1, bits, b + 5));
        assert!(!changed(|s| s.outer.waiting[0] = 1, bits, b + 5));
        assert!(!changed(|s| s.outer.waiting[191] = 1, bits, b + 5));
        assert!(!changed(|s| s.inner.waiting[192] = 1, bits, b + 5));
        assert!(!changed(|s| s.outer.waiting[223] = 1, bits, b + 5));
        assert!(!changed(|s| s.inner.taken += 8, bits, LIMIT));
        assert!(!changed(|s| s.outer.taken = u64::MAX, bits, b));
        let long = bits > 256;
        assert_eq!(changed(|s| s.inner.chaining[64] = 1, bits, b), long);
        assert_eq!(changed(|s| s.outer.chaining[127] = 1, bits, b), long);
        // Each is one, but they have another number of bytes behind them.
        assert!(!changed(|s| s.outer.taken = 0, bits, b));
        assert!(!changed(|s| s.outer.taken -= 8, bits, b));
        assert!(!changed(|s| s.outer.taken += 8, bits, b));
        assert!(!changed(|s| s.outer.taken *= 2, bits, b));
        assert!(!changed(|s| s.inner.taken = 0, bits, b));
        assert!(!changed(|s| s.inner.taken -= 8, bits, b));
        assert!(changed(|s| s.inner.taken += 8, bits, b));
        for place in 0..16 {
            for outer in [false, true] {
                let mut session = forged(bits, b);
                let one = match outer {
                    true => &mut session.outer,
                    false => &mut session.inner,
                };
                one.salt[place] ^= 0x80;
                assert!(one.is_session());
                assert!(!session.is_session());
            }
        }
    }
    // Another admitted digest length, of the same family and of the other, whose
    // block is not the one that was taken.
    assert!(!changed(|s| s.inner.bits = 248, 256, 192));
    assert!(!changed(|s| s.outer.bits = 504, 512, 192));
    assert!(!changed(|s| s.inner.bits = 256, 264, 192));
    assert!(!changed(|s| s.outer.bits = 264, 256, 192));
    assert!(!changed(|s| s.outer.taken = 8 * 128, 256, 192));
    assert!(!changed(|s| s.outer.taken = 8 * 192, 264, 192));
    assert!(!changed(|s| s.inner.taken = 8 * 128, 256, 192));
}

/// A part of a byte in either session, of every size, each of which is a digest
/// session; in the inner one near a block and at the limit.
#[test]
fn a_part_of_a_byte_makes_it_none() {
    for bits in LENGTHS {
        let b = block(bits) as u64;
        for part in 1..8 {
            for taken in [b, b + 5, LIMIT] {
                for outer in [false, true] {
                    let mut session = forged(bits, taken);
                    let one = match outer {
                        true => &mut session.outer,
                        false => &mut session.inner,
                    };
                    one.taken += part;
                    assert!(one.is_session());
                    assert!(!session.is_session());
                    let mut same = session.clone();
                    assert_eq!([same.add(&[]), same.add(&[0])], [3, 3]);
                    assert_eq!(same, session);
                    assert_eq!(session.read(&mut [0; 64]), 3);
                    assert_eq!(session.check(&[]), (3, false));
                }
            }
        }
    }
}

/// Right but for the mode of one session or of both, each of which is a digest
/// session in that mode, and has taken the one mode's block or the other's.
#[test]
fn no_session_of_a_tag_session_is_single_pipe() {
    let with = |bits, modes: [Mode; 2], taken: u64| {
        let [mut inner, mut outer] = [0x55, 0x66].map(|byte| digest_session(bits, 0, byte));
        for (part, mode) in [&mut inner, &mut outer].into_iter().zip(modes) {
            (part.mode, part.taken) = (mode, 8 * taken);
            part.chaining[32..].fill(0);
            assert!(part.is_session());
        }
        TagSession { inner, outer }
    };
    for (bits, double, single) in [(256, 192, 224), (512, 128, 192)] {
        assert!(with(bits, [DoublePipe, DoublePipe], double).is_session());
        for modes in [
            [SinglePipe, DoublePipe],
            [DoublePipe, SinglePipe],
            [SinglePipe, SinglePipe],
        ] {
            for taken in [double, single] {
                let session = with(bits, modes, taken);
                assert!(!session.is_session());
                let mut same = session.clone();
                assert_eq!(same.add(&[]), 3);
                assert_eq!(same, session);
                assert_eq!(session.read(&mut [0; 64]), 3);
                assert_eq!(session.check(&[]), (3, false));
            }
        }
    }
}

/// Digest lengths of the two families, each with the other's block taken.
#[test]
fn the_block_is_that_of_the_digest_length() {
    let with = |bits, inner, outer| TagSession {
        inner: digest_session(bits, inner, 0x55),
        outer: digest_session(bits, outer, 0x66),
    };
    assert!(with(256, 192, 192).is_session());
    assert!(!with(256, 192, 128).is_session());
    assert!(!with(256, 128, 192).is_session());
    assert!(with(264, 192, 128).is_session());
    assert!(!with(264, 192, 192).is_session());
    assert!(with(264, 128, 128).is_session());
}

#[test]
fn adding_refuses_the_lowest_number_and_changes_nothing() {
    let mut bad = forged(256, LIMIT);
    bad.outer.salt[0] ^= 1;
    for (session, piece, number) in [
        (forged(256, LIMIT), 1, 4),
        (forged(512, LIMIT - 5), 6, 4),
        (forged(256, LIMIT + 1), 0, 3),
        (forged(256, LIMIT + 1), 1, 3),
        (bad.clone(), 0, 3),
        (bad, 1, 3),
        (BLANK, 1, 3),
    ] {
        let mut same = session.clone();
        assert_eq!(same.add(&[1; 9][..piece]), number);
        assert_eq!(same, session);
    }
}

#[test]
fn adding_goes_on_in_the_inner_session_alone() {
    for bits in LENGTHS {
        for taken in [block(bits) as u64, LIMIT - 197] {
            let mut session = forged(bits, taken);
            let mut inner = session.inner.clone();
            assert_eq!([session.add(&bytes(197)), inner.add(&bytes(197))], [0, 0]);
            assert_eq!(session.inner, inner);
            assert_eq!(session.outer, forged(bits, taken).outer);
        }
    }
}

#[test]
fn reading_refuses_the_lowest_number_and_writes_nothing() {
    let mut bad = forged(264, 128);
    bad.outer.taken = 8 * 129;
    let mut out = [0xee; 40];
    for (session, room, number) in [
        (forged(256, 192), 31, 5),
        (forged(256, LIMIT), 0, 5),
        (forged(264, 128), 32, 5),
        (bad.clone(), 33, 3),
        (bad, 32, 3),
        (BLANK, 0, 3),
    ] {
        assert_eq!(session.read(&mut out[..room]), number);
        assert_eq!(out, [0xee; 40]);
    }
}

#[test]
fn reading_fills_only_its_room() {
    let session = forged(264, 140);
    let mut out = [0xee; 40];
    assert_eq!(session.read(&mut out), 0);
    assert_eq!(out[..33], tag(&session));
    assert_eq!(out[33..], [0xee; 7]);
}

/// The outer block that is left, written out, behind the inner digest.
#[test]
fn reading_goes_on_from_a_forged_session() {
    for (bits, taken) in [(224, 192), (224, LIMIT), (392, 128), (392, 1 << 40)] {
        let (b, size) = (block(bits), bits as usize / 8);
        let session = forged(bits, taken);
        let mut last = vec![0; size];
        assert_eq!(session.inner.read(&mut last), 0);
        last.push(0x80);
        last.resize(b - 18, 0);
        last.extend((bits as u16).to_le_bytes());
        let n = (b + size) as u64;
        last.extend((8 * n).to_le_bytes());
        last.extend([0; 8]);
        let mut chaining = vec![0x66; 256 - b];
        compress(DoublePipe, &mut chaining, &last, (8 * n).into(), &SALT);
        assert_eq!(tag(&session), chaining[..size]);
    }
}

#[test]
fn a_check_says_yes_to_the_whole_tag_alone() {
    for bits in LENGTHS {
        for session in [forged(bits, 192), forged(bits, LIMIT), opened(bits, b"key")] {
            let right = tag(&session);
            assert_eq!(session.check(&right), (0, true));
            for length in 0..right.len() {
                assert_eq!(session.check(&right[..length]), (0, false));
            }
            for more in [1, 32, 200] {
                let longer = [&right[..], &vec![0; more]].concat();
                assert_eq!(session.check(&longer), (0, false));
            }
            for bit in 0..8 * right.len() {
                let mut wrong = right.clone();
                wrong[bit / 8] ^= 1 << (bit % 8);
                assert_eq!(session.check(&wrong), (0, false));
            }
        }
    }
}

#[test]
fn a_refused_check_says_no() {
    let good = forged(256, 192);
    let mut bad = good.clone();
    bad.inner.salt[7] ^= 1;
    let zeros = [0; 64];
    for given in [&tag(&good)[..], b"", &zeros, &zeros[..32]] {
        assert_eq!(bad.check(given), (3, false));
        assert_eq!(BLANK.check(given), (3, false));
    }
}
