//! The C functions themselves, with NULL wherever a length is 0: the header
//! allows any pointer there. Slices have no such pointer, so that the functions
//! are declared here once more, as a reader of the header would declare them.

#![allow(unsafe_code)]

use crate::case::{Case, Routine};
use crate::draw;
use crate::expected;
use crate::family::{Family, Run};
use crate::implementation::Implementation;
use std::ptr;

pub const FAMILY: Family = Family {
    name: "NULL for what is empty, in every combination",
    run,
};

extern "C" {
    fn bahmorist_digest(
        bits: u64,
        salt: *const u8,
        salt_len: usize,
        message: *const u8,
        message_len: usize,
        out: *mut u8,
        out_len: usize,
    ) -> u8;
    fn bahmorist_digest_in(
        mode: u8,
        bits: u64,
        salt: *const u8,
        salt_len: usize,
        message: *const u8,
        message_len: usize,
        out: *mut u8,
        out_len: usize,
    ) -> u8;
    fn bahmorist_digest_bits(
        mode: u8,
        bits: u64,
        salt: *const u8,
        salt_len: usize,
        message: *const u8,
        message_len: usize,
        message_bits: u64,
        out: *mut u8,
        out_len: usize,
    ) -> u8;
    fn bahmorist_hmac(
        bits: u64,
        salt: *const u8,
        salt_len: usize,
        key: *const u8,
        key_len: usize,
        message: *const u8,
        message_len: usize,
        out: *mut u8,
        out_len: usize,
    ) -> u8;
    fn bahmorist_hmac_check(
        bits: u64,
        salt: *const u8,
        salt_len: usize,
        key: *const u8,
        key_len: usize,
        message: *const u8,
        message_len: usize,
        tag: *const u8,
        tag_len: usize,
        yes: *mut u8,
    ) -> u8;
    fn bahmorist_hmac_verify(
        bits: u64,
        salt: *const u8,
        salt_len: usize,
        key: *const u8,
        key_len: usize,
        message: *const u8,
        message_len: usize,
        tag: *const u8,
        tag_len: usize,
    ) -> u8;
    fn bahmorist_same(a: *const u8, a_len: usize, b: *const u8, b_len: usize) -> u8;
    fn bahmorist_rounds(
        square: *mut u8,
        square_len: usize,
        rounds: u64,
        counter: u64,
        salt: *const u8,
        salt_len: usize,
    ) -> u8;
    fn bahmorist_rounds_back(
        square: *mut u8,
        square_len: usize,
        rounds: u64,
        counter: u64,
        salt: *const u8,
        salt_len: usize,
    ) -> u8;
    fn bahmorist_compress(
        chaining: *mut u8,
        chaining_len: usize,
        block: *const u8,
        block_len: usize,
        counter: u64,
        salt: *const u8,
        salt_len: usize,
    ) -> u8;
    fn bahmorist_compress_in(
        mode: u8,
        chaining: *mut u8,
        chaining_len: usize,
        block: *const u8,
        block_len: usize,
        counter: u64,
        salt: *const u8,
        salt_len: usize,
    ) -> u8;
    fn bahmorist_rounds_wide(
        square: *mut u8,
        square_len: usize,
        rounds: u64,
        low: u64,
        high: u64,
        salt: *const u8,
        salt_len: usize,
    ) -> u8;
    fn bahmorist_rounds_back_wide(
        square: *mut u8,
        square_len: usize,
        rounds: u64,
        low: u64,
        high: u64,
        salt: *const u8,
        salt_len: usize,
    ) -> u8;
    fn bahmorist_compress_wide(
        mode: u8,
        chaining: *mut u8,
        chaining_len: usize,
        block: *const u8,
        block_len: usize,
        low: u64,
        high: u64,
        salt: *const u8,
        salt_len: usize,
    ) -> u8;
    fn bahmorist_fingerprint(
        salt: *const u8,
        salt_len: usize,
        table: *const u8,
        table_len: usize,
        out: *mut u8,
        out_len: usize,
        place: *mut u64,
    ) -> u8;
    fn bahmorist_read_at(
        table: *const u8,
        table_len: usize,
        place: u64,
        kind: *mut u8,
        next: *mut u64,
    ) -> u8;
    fn bahmorist_count(table: *const u8, table_len: usize, count: *mut u64, place: *mut u64) -> u8;
    fn bahmorist_write_at(
        room: *mut u8,
        room_len: usize,
        place: u64,
        kind: u8,
        body: *const u8,
        body_len: usize,
        next: *mut u64,
    ) -> u8;
}

// SAFETY, for all eighteen: the pointer of a slice and its length, or NULL and 0; what
// is written comes from a `&mut`.
pub const WITH_NULL: Implementation = Implementation {
    digest: |bits, salt, message, out| {
        let (salt, salt_len) = read(salt);
        let (message, message_len) = read(message);
        let (out, out_len) = written(out);
        unsafe { bahmorist_digest(bits, salt, salt_len, message, message_len, out, out_len) }
    },
    digest_in: |mode, bits, salt, message, out| {
        let (salt, salt_len) = read(salt);
        let (message, message_len) = read(message);
        let (out, out_len) = written(out);
        unsafe {
            bahmorist_digest_in(
                mode,
                bits,
                salt,
                salt_len,
                message,
                message_len,
                out,
                out_len,
            )
        }
    },
    digest_bits: |mode, bits, salt, message, message_bits, out| {
        let (salt, salt_len) = read(salt);
        let (message, message_len) = read(message);
        let (out, out_len) = written(out);
        unsafe {
            bahmorist_digest_bits(
                mode,
                bits,
                salt,
                salt_len,
                message,
                message_len,
                message_bits,
                out,
                out_len,
            )
        }
    },
    hmac: |bits, salt, key, message, out| {
        let (salt, salt_len) = read(salt);
        let (key, key_len) = read(key);
        let (message, message_len) = read(message);
        let (out, out_len) = written(out);
        unsafe {
            bahmorist_hmac(
                bits,
                salt,
                salt_len,
                key,
                key_len,
                message,
                message_len,
                out,
                out_len,
            )
        }
    },
    hmac_check: |bits, salt, key, message, tag| {
        let (salt, salt_len) = read(salt);
        let (key, key_len) = read(key);
        let (message, message_len) = read(message);
        let (tag, tag_len) = read(tag);
        // Neither yes nor no: it has to be written on every call.
        let mut yes = 0xa5;
        let number = unsafe {
            bahmorist_hmac_check(
                bits,
                salt,
                salt_len,
                key,
                key_len,
                message,
                message_len,
                tag,
                tag_len,
                &mut yes,
            )
        };
        (number, yes)
    },
    hmac_verify: |bits, salt, key, message, tag| {
        let (salt, salt_len) = read(salt);
        let (key, key_len) = read(key);
        let (message, message_len) = read(message);
        let (tag, tag_len) = read(tag);
        unsafe {
            bahmorist_hmac_verify(
                bits,
                salt,
                salt_len,
                key,
                key_len,
                message,
                message_len,
                tag,
                tag_len,
            )
        }
    },
    same: |a, b| {
        let (a, a_len) = read(a);
        let (b, b_len) = read(b);
        unsafe { bahmorist_same(a, a_len, b, b_len) }
    },
    rounds: |square, count, counter, salt| {
        let (square, square_len) = written(square);
        let (salt, salt_len) = read(salt);
        unsafe { bahmorist_rounds(square, square_len, count, counter, salt, salt_len) }
    },
    rounds_back: |square, count, counter, salt| {
        let (square, square_len) = written(square);
        let (salt, salt_len) = read(salt);
        unsafe { bahmorist_rounds_back(square, square_len, count, counter, salt, salt_len) }
    },
    compress: |chaining, block, counter, salt| {
        let (chaining, chaining_len) = written(chaining);
        let (block, block_len) = read(block);
        let (salt, salt_len) = read(salt);
        unsafe {
            bahmorist_compress(
                chaining,
                chaining_len,
                block,
                block_len,
                counter,
                salt,
                salt_len,
            )
        }
    },
    compress_in: |mode, chaining, block, counter, salt| {
        let (chaining, chaining_len) = written(chaining);
        let (block, block_len) = read(block);
        let (salt, salt_len) = read(salt);
        unsafe {
            bahmorist_compress_in(
                mode,
                chaining,
                chaining_len,
                block,
                block_len,
                counter,
                salt,
                salt_len,
            )
        }
    },
    rounds_wide: |square, count, counter, salt| {
        let (square, square_len) = written(square);
        let (low, high) = halves(counter);
        let (salt, salt_len) = read(salt);
        unsafe { bahmorist_rounds_wide(square, square_len, count, low, high, salt, salt_len) }
    },
    rounds_back_wide: |square, count, counter, salt| {
        let (square, square_len) = written(square);
        let (low, high) = halves(counter);
        let (salt, salt_len) = read(salt);
        unsafe { bahmorist_rounds_back_wide(square, square_len, count, low, high, salt, salt_len) }
    },
    compress_wide: |mode, chaining, block, counter, salt| {
        let (chaining, chaining_len) = written(chaining);
        let (block, block_len) = read(block);
        let (low, high) = halves(counter);
        let (salt, salt_len) = read(salt);
        unsafe {
            bahmorist_compress_wide(
                mode,
                chaining,
                chaining_len,
                block,
                block_len,
                low,
                high,
                salt,
                salt_len,
            )
        }
    },
    fingerprint: |salt, table, out| {
        let (salt, salt_len) = read(salt);
        let (table, table_len) = read(table);
        let (out, out_len) = written(out);
        // No place is so high: it has to be written on every call.
        let mut place = u64::MAX;
        let number = unsafe {
            bahmorist_fingerprint(salt, salt_len, table, table_len, out, out_len, &mut place)
        };
        (number, place)
    },
    read_at: |table, place| {
        let (table, table_len) = read(table);
        // No kind, and a place that no table has: both have to be written on every call.
        let (mut kind, mut next) = (0xa5, UNWRITTEN);
        let number = unsafe { bahmorist_read_at(table, table_len, place, &mut kind, &mut next) };
        (number, kind.into(), next)
    },
    count: |table| {
        let (table, table_len) = read(table);
        let (mut count, mut place) = (UNWRITTEN, UNWRITTEN);
        let number = unsafe { bahmorist_count(table, table_len, &mut count, &mut place) };
        (number, count, place)
    },
    write_at: |room, place, kind, body| {
        let (room, room_len) = written(room);
        let (body, body_len) = read(body);
        let mut next = UNWRITTEN;
        let number =
            unsafe { bahmorist_write_at(room, room_len, place, kind, body, body_len, &mut next) };
        (number, next)
    },
};

/// A number that no call over tables gives.
const UNWRITTEN: u64 = u64::MAX - 7;

/// The halves of a counter, the lower one first.
fn halves(counter: u128) -> (u64, u64) {
    ((counter % (1 << 64)) as u64, (counter / (1 << 64)) as u64)
}

/// Pointer and length of bytes to be read; NULL where there are none.
fn read(bytes: &[u8]) -> (*const u8, usize) {
    match bytes {
        [] => (ptr::null(), 0),
        _ => (bytes.as_ptr(), bytes.len()),
    }
}

/// The same of bytes to be written.
fn written(bytes: &mut [u8]) -> (*mut u8, usize) {
    match bytes {
        [] => (ptr::null_mut(), 0),
        _ => (bytes.as_mut_ptr(), bytes.len()),
    }
}

fn run(run: &mut Run) -> Result<(), String> {
    run.subject = WITH_NULL;
    let routines = routines().into_iter().chain(in_modes());
    for (routine, input, lent) in routines.chain(wide()).chain(of_bits()) {
        for empty in 0..8 {
            let case = with_empty(run, empty, routine, 0, input, lent);
            run.check(&case)?;
        }
    }
    for (routine, key, input, lent) in keyed() {
        for empty in 0..16 {
            let case = with_empty(run, empty, routine, key, input, lent);
            run.check(&case)?;
        }
    }
    for (routine, input, lent) in over_tables() {
        for empty in 0..8 {
            let case = with_empty(run, empty, routine, 0, input, lent);
            run.check(&case)?;
        }
    }
    Ok(())
}

/// A case with these lengths, or 0 where a bit of `empty` says so. A check that is
/// given a tag is given the right one, if there is any.
fn with_empty(
    run: &mut Run,
    empty: usize,
    routine: Routine,
    key: usize,
    input: usize,
    lent: usize,
) -> Case {
    let length = |bit: usize, length: usize| if empty >> bit & 1 == 1 { 0 } else { length };
    let mut case = Case {
        routine,
        salt: run.generator.vector(length(0, 16)),
        key: run.generator.vector(length(3, key)),
        input: zeros_after_twos(length(1, input)),
        lent: run.generator.vector(length(2, lent)),
    };
    if let Routine::HmacCheck { bits } | Routine::HmacVerify { bits } = routine {
        let checked = case.with(Routine::HmacCheck { bits });
        if expected::refusals(&checked).is_empty() && !case.lent.is_empty() {
            case.lent = draw::right_tag(bits, &case);
        }
    }
    case
}

/// Routines, with the lengths of the input and of what is lent that they would
/// not refuse. Some are refused for a number all the same.
fn routines() -> [(Routine, usize, usize); 13] {
    let counter = 1536;
    [
        (Routine::Digest { bits: 128 }, 5, 16),
        (Routine::Digest { bits: 256 }, 192, 32),
        (Routine::Digest { bits: 512 }, 200, 64),
        (Routine::Digest { bits: 0 }, 5, 64),
        (Routine::Rounds { count: 8, counter }, 0, 256),
        (Routine::Rounds { count: 0, counter }, 0, 256),
        (Routine::RoundsBack { count: 10, counter }, 0, 256),
        (Routine::Compress { counter }, 192, 64),
        (Routine::Compress { counter }, 128, 128),
        (Routine::Compress { counter: u64::MAX }, 128, 128),
        (Routine::Fingerprint, 6, 32),
        (Routine::Fingerprint, 7, 40),
        (Routine::Same, 5, 5),
    ]
}

/// The same of routines in a mode.
fn in_modes() -> [(Routine, usize, usize); 10] {
    let digest = |mode, bits| Routine::DigestIn { mode, bits };
    let compress = |mode, counter| Routine::CompressIn { mode, counter };
    [
        (digest(0, 256), 192, 32),
        (digest(1, 128), 5, 16),
        (digest(1, 256), 224, 32),
        (digest(1, 512), 200, 64),
        (digest(2, 256), 5, 32),
        (compress(0, 1536), 192, 64),
        (compress(1, 1792), 224, 32),
        (compress(1, 1536), 192, 64),
        (compress(1, u64::MAX), 192, 64),
        (compress(255, 1536), 192, 64),
    ]
}

/// The same of routines whose counter has 128 bits.
fn wide() -> [(Routine, usize, usize); 9] {
    let counter = (5 << 64) - 80;
    let compress = |mode| Routine::CompressWide { mode, counter };
    [
        (Routine::RoundsWide { count: 8, counter }, 0, 256),
        (Routine::RoundsWide { count: 0, counter }, 0, 256),
        (Routine::RoundsBackWide { count: 10, counter }, 0, 256),
        (Routine::RoundsBackWide { count: 9, counter }, 0, 256),
        (compress(0), 192, 64),
        (compress(0), 128, 128),
        (compress(1), 224, 32),
        (compress(1), 192, 64),
        (compress(2), 192, 64),
    ]
}

/// The same of messages with a bit count: the last but two has a set bit behind it, and
/// the last two bits that are no message's.
fn of_bits() -> [(Routine, usize, usize); 11] {
    let digest = |mode, bits, message_bits| Routine::DigestBits {
        mode,
        bits,
        message_bits,
    };
    [
        (digest(0, 256, 0), 0, 32),
        (digest(1, 512, 0), 0, 64),
        (digest(0, 256, 1536), 192, 32),
        (digest(0, 512, 1025), 129, 64),
        (digest(1, 128, 37), 5, 16),
        (digest(1, 512, 1600), 200, 64),
        (digest(2, 256, 37), 5, 32),
        (digest(0, 0, 37), 5, 64),
        (digest(1, 256, 3), 1, 32),
        (digest(0, 256, expected::MOST_BITS), 5, 32),
        (digest(1, 256, u64::MAX), 5, 32),
    ]
}

/// The same of routines over tables: some places are past the end.
fn over_tables() -> [(Routine, usize, usize); 12] {
    let write_at = |place, kind| Routine::WriteAt { place, kind };
    [
        (Routine::ReadAt { place: 0 }, 6, 0),
        (Routine::ReadAt { place: 3 }, 7, 0),
        (Routine::ReadAt { place: 6 }, 7, 0),
        (Routine::ReadAt { place: 7 }, 7, 0),
        (Routine::ReadAt { place: u64::MAX }, 6, 0),
        (Routine::Count, 6, 0),
        (Routine::Count, 7, 0),
        (write_at(0, 2), 2, 3),
        (write_at(5, 4), 4, 10),
        (write_at(1, 0), 0, 2),
        (write_at(0, 3), 0, 1),
        (write_at(u64::MAX, 1), 6, 7),
    ]
}

/// The same of routines that have a key, whose length comes first.
fn keyed() -> [(Routine, usize, usize, usize); 11] {
    [
        (Routine::Hmac { bits: 128 }, 5, 5, 16),
        (Routine::Hmac { bits: 512 }, 129, 200, 64),
        (Routine::Hmac { bits: 0 }, 5, 5, 64),
        (Routine::HmacCheck { bits: 128 }, 5, 5, 16),
        (Routine::HmacCheck { bits: 256 }, 193, 192, 32),
        (Routine::HmacCheck { bits: 512 }, 128, 200, 64),
        (Routine::HmacCheck { bits: 0 }, 5, 5, 64),
        (Routine::HmacVerify { bits: 128 }, 5, 5, 16),
        (Routine::HmacVerify { bits: 256 }, 193, 192, 32),
        (Routine::HmacVerify { bits: 512 }, 128, 200, 64),
        (Routine::HmacVerify { bits: 0 }, 5, 5, 64),
    ]
}

/// Bytes whose first three are a record, and the next three; a fourth one behind
/// them is cut short.
fn zeros_after_twos(length: usize) -> Vec<u8> {
    (0..length)
        .map(|place| if place % 3 == 0 { 2 } else { 0 })
        .collect()
}
