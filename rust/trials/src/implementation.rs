//! An implementation under trial: its eighteen routines, as functions on slices.

use crate::case::Routine;
use plain::{checked, table};

/// The routines of one implementation. Each answers a refusal number, or 0; a
/// fingerprint answers a place too, and a check 1 for yes or 0 for no, which is all that
/// a comparison answers.
#[derive(Clone, Copy)]
pub struct Implementation {
    /// By digest length, salt, message and output room.
    pub digest: fn(u64, &[u8], &[u8], &mut [u8]) -> u8,
    pub digest_in: DigestIn,
    pub digest_bits: DigestBits,
    pub hmac: Hmac,
    pub hmac_check: HmacCheck,
    pub hmac_verify: HmacVerify,
    /// By two strings of bytes.
    pub same: fn(&[u8], &[u8]) -> u8,
    /// By square, round count, starting counter and salt.
    pub rounds: fn(&mut [u8], u64, u64, &[u8]) -> u8,
    /// Like `rounds`.
    pub rounds_back: fn(&mut [u8], u64, u64, &[u8]) -> u8,
    /// By chaining value, block, counter and salt.
    pub compress: fn(&mut [u8], &[u8], u64, &[u8]) -> u8,
    pub compress_in: CompressIn,
    /// By square, round count, starting counter and salt.
    pub rounds_wide: fn(&mut [u8], u64, u128, &[u8]) -> u8,
    /// Like `rounds_wide`.
    pub rounds_back_wide: fn(&mut [u8], u64, u128, &[u8]) -> u8,
    pub compress_wide: CompressWide,
    /// By salt, table and output room.
    pub fingerprint: fn(&[u8], &[u8], &mut [u8]) -> Placed,
    /// By table and place.
    pub read_at: fn(&[u8], u64) -> Told,
    /// By table.
    pub count: fn(&[u8]) -> Told,
    /// By room, place, kind byte and body.
    pub write_at: fn(&mut [u8], u64, u8, &[u8]) -> Placed,
}

/// By the number of the mode, and what a digest without one goes by.
pub type DigestIn = fn(u8, u64, &[u8], &[u8], &mut [u8]) -> u8;

/// By the number of the mode, digest length, salt, message, its bits and output room.
pub type DigestBits = fn(u8, u64, &[u8], &[u8], u64, &mut [u8]) -> u8;

/// By the number of the mode, and what a compression without one goes by.
pub type CompressIn = fn(u8, &mut [u8], &[u8], u64, &[u8]) -> u8;

/// By the number of the mode, chaining value, block, counter and salt.
pub type CompressWide = fn(u8, &mut [u8], &[u8], u128, &[u8]) -> u8;

/// By digest length, salt, key, message and output room.
pub type Hmac = fn(u64, &[u8], &[u8], &[u8], &mut [u8]) -> u8;

/// By digest length, salt, key, message and tag.
pub type HmacCheck = fn(u64, &[u8], &[u8], &[u8], &[u8]) -> (u8, u8);

/// Like [`HmacCheck`].
pub type HmacVerify = fn(u64, &[u8], &[u8], &[u8], &[u8]) -> u8;

/// A refusal number, or 0, and a place, or 0.
pub type Placed = (u8, u64);

/// A refusal number, or 0; a kind byte or a number of records, or 0; and a place, or 0.
pub type Told = (u8, u64, u64);

/// What a routine reads besides what it is lent; empty where it has none.
pub struct Inputs<'a> {
    pub salt: &'a [u8],
    pub key: &'a [u8],
    /// Message, block, table or body.
    pub input: &'a [u8],
}

/// What a routine answers.
pub struct Answer {
    /// A refusal number, or 0.
    pub number: u8,
    /// A place, or 0.
    pub place: u64,
    /// A kind byte or a number of records, or 0.
    pub told: u64,
    /// 1 where a check or a comparison says yes, else 0.
    pub yes: u8,
}

/// The proved library. Its four routines in a mode take the numbers of a mode alone,
/// since Rust's functions take an enum, and tags are verified under salts of 16 bytes
/// alone, since Rust's function takes an array; the C functions are tried with all
/// numbers and all salts.
pub const LIBRARY: Implementation = Implementation {
    digest: |bits, salt, message, out| number(bahmorist::digest(bits, salt, message, out)),
    digest_in: |mode, bits, salt, message, out| {
        let mode = in_rust(mode);
        number(bahmorist::digest_in(mode, bits, salt, message, out))
    },
    digest_bits: |mode, bits, salt, message, message_bits, out| {
        let mode = in_rust(mode);
        number(bahmorist::digest_bits(
            mode,
            bits,
            salt,
            message,
            message_bits,
            out,
        ))
    },
    hmac: |bits, salt, key, message, out| number(bahmorist::hmac(bits, salt, key, message, out)),
    hmac_check: |bits, salt, key, message, tag| {
        let answer = bahmorist::hmac_check(bits, salt, key, message, tag);
        answer.map_or_else(|refusal| (refusal.number(), 0), |yes| (0, yes.into()))
    },
    hmac_verify: |bits, salt, key, message, tag| {
        let salt = salt.try_into().expect("a salt of 16 bytes");
        number(bahmorist::hmac_verify(bits, salt, key, message, tag))
    },
    same: |a, b| bahmorist::same(a, b).into(),
    rounds: |square, count, counter, salt| number(bahmorist::rounds(square, count, counter, salt)),
    rounds_back: |square, count, counter, salt| {
        number(bahmorist::rounds_back(square, count, counter, salt))
    },
    compress: |chaining, block, counter, salt| {
        number(bahmorist::compress(chaining, block, counter, salt))
    },
    compress_in: |mode, chaining, block, counter, salt| {
        let mode = in_rust(mode);
        number(bahmorist::compress_in(mode, chaining, block, counter, salt))
    },
    rounds_wide: |square, count, counter, salt| {
        number(bahmorist::rounds_wide(square, count, counter, salt))
    },
    rounds_back_wide: |square, count, counter, salt| {
        number(bahmorist::rounds_back_wide(square, count, counter, salt))
    },
    compress_wide: |mode, chaining, block, counter, salt| {
        let mode = in_rust(mode);
        number(bahmorist::compress_wide(
            mode, chaining, block, counter, salt,
        ))
    },
    fingerprint: |salt, table, out| match bahmorist::fingerprint(salt, table, out) {
        Ok(()) => (0, 0),
        Err(refused) => (refused.refusal.number(), refused.place),
    },
    read_at: |table, place| match bahmorist::read_at(table, place) {
        Ok(Some((kind, next))) => (0, kind.into(), next),
        Ok(None) => (0, 0, place),
        Err(refused) => (refused.refusal.number(), 0, refused.place),
    },
    count: |table| match bahmorist::count(table) {
        Ok(count) => (0, count, 0),
        Err(refused) => (refused.refusal.number(), 0, refused.place),
    },
    write_at: |room, place, kind, body| {
        let written = bahmorist::write_at(room, place, kind, body);
        written.map_or_else(|refusal| (refusal.number(), 0), |next| (0, next))
    },
};

/// The second implementation.
pub const PLAIN: Implementation = Implementation {
    digest: checked::digest,
    digest_in: checked::digest_in,
    digest_bits: checked::digest_bits,
    hmac: checked::hmac,
    hmac_check: |bits, salt, key, message, tag| {
        let (number, yes) = checked::hmac_check(bits, salt, key, message, tag);
        (number, yes.into())
    },
    hmac_verify: checked::hmac_verify,
    same: |a, b| (a == b).into(),
    rounds: checked::rounds,
    rounds_back: checked::rounds_back,
    compress: checked::compress,
    compress_in: checked::compress_in,
    rounds_wide: checked::rounds_wide,
    rounds_back_wide: checked::rounds_back_wide,
    compress_wide: checked::compress_wide,
    fingerprint: checked::fingerprint,
    read_at: |table, place| match table::read_at(table, place) {
        Ok(Some((record, next))) => (0, record.kind.into(), next),
        Ok(None) => (0, 0, place),
        Err((number, place)) => (number, 0, place),
    },
    count: |table| match table::read(table) {
        Ok(records) => (0, records.len() as u64, 0),
        Err((number, place)) => (number, 0, place),
    },
    write_at: table::write_body_at,
};

fn number(answer: Result<(), bahmorist::Refusal>) -> u8 {
    answer.map_or_else(bahmorist::Refusal::number, |()| 0)
}

fn in_rust(mode: u8) -> bahmorist::Mode {
    match mode {
        0 => bahmorist::Mode::DoublePipe,
        1 => bahmorist::Mode::SinglePipe,
        _ => panic!("no mode has the number {mode}"),
    }
}

impl Implementation {
    /// Calls a routine: with what it reads, and what it may write.
    pub fn call(&self, routine: Routine, inputs: &Inputs, lent: &mut [u8]) -> Answer {
        let Inputs { salt, key, input } = *inputs;
        let alone = |number| Answer {
            number,
            place: 0,
            told: 0,
            yes: 0,
        };
        let told = |(number, told, place)| Answer {
            place,
            told,
            ..alone(number)
        };
        match routine {
            Routine::Digest { bits } => alone((self.digest)(bits, salt, input, lent)),
            Routine::DigestIn { mode, bits } => {
                alone((self.digest_in)(mode, bits, salt, input, lent))
            }
            Routine::DigestBits {
                mode,
                bits,
                message_bits,
            } => alone((self.digest_bits)(
                mode,
                bits,
                salt,
                input,
                message_bits,
                lent,
            )),
            Routine::Hmac { bits } => alone((self.hmac)(bits, salt, key, input, lent)),
            Routine::HmacCheck { bits } => {
                let (number, yes) = (self.hmac_check)(bits, salt, key, input, lent);
                Answer {
                    yes,
                    ..alone(number)
                }
            }
            Routine::HmacVerify { bits } => alone((self.hmac_verify)(bits, salt, key, input, lent)),
            Routine::Same => Answer {
                yes: (self.same)(input, lent),
                ..alone(0)
            },
            Routine::Rounds { count, counter } => alone((self.rounds)(lent, count, counter, salt)),
            Routine::RoundsBack { count, counter } => {
                alone((self.rounds_back)(lent, count, counter, salt))
            }
            Routine::Compress { counter } => alone((self.compress)(lent, input, counter, salt)),
            Routine::CompressIn { mode, counter } => {
                alone((self.compress_in)(mode, lent, input, counter, salt))
            }
            Routine::RoundsWide { count, counter } => {
                alone((self.rounds_wide)(lent, count, counter, salt))
            }
            Routine::RoundsBackWide { count, counter } => {
                alone((self.rounds_back_wide)(lent, count, counter, salt))
            }
            Routine::CompressWide { mode, counter } => {
                alone((self.compress_wide)(mode, lent, input, counter, salt))
            }
            Routine::Fingerprint => {
                let (number, place) = (self.fingerprint)(salt, input, lent);
                told((number, 0, place))
            }
            Routine::ReadAt { place } => told((self.read_at)(input, place)),
            Routine::Count => told((self.count)(input)),
            Routine::WriteAt { place, kind } => {
                let (number, next) = (self.write_at)(lent, place, kind, input);
                told((number, 0, next))
            }
        }
    }
}
