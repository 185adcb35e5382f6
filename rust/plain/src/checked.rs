//! The same work on any input: each call answers with a refusal number, or 0
//! when it did its work. A refused call writes nothing.

use crate::aes::Word;
use crate::mode::Mode::{self, DoublePipe};
use crate::refusal::{self, BIT_LIMIT, COUNTER_LIMIT, MESSAGE_LIMIT};
use crate::square::Square;
use crate::{bits, compression, family, square, table};

/// Bytes of a fingerprint.
pub const FINGERPRINT: usize = 32;

/// The digest of `bits` bits in double-pipe, into the first bits / 8 bytes of
/// `out`; those behind them stay. Refusals 1, 2, 4, 5.
pub fn digest(bits: u64, salt: &[u8], message: &[u8], out: &mut [u8]) -> u8 {
    digest_in(DoublePipe.number(), bits, salt, message, out)
}

/// The same in the mode of a number. Refusals 1, 2, 4, 5, 6.
pub fn digest_in(mode: u8, bits: u64, salt: &[u8], message: &[u8], out: &mut [u8]) -> u8 {
    digest_bits(
        mode,
        bits,
        salt,
        message,
        in_bits(message.len() as u64),
        out,
    )
}

/// The same of a message of so many bits, the most significant bit of a byte first.
/// Refusals 1, 2, 4, 5, 6, 17.
pub fn digest_bits(
    mode: u8,
    bits: u64,
    salt: &[u8],
    message: &[u8],
    message_bits: u64,
    out: &mut [u8],
) -> u8 {
    let refused = digest_bits_refusal(bits, salt.len(), message_bits, out.len());
    if refused != refusal::NONE {
        return refused;
    }
    let Some(mode) = Mode::of_number(mode) else {
        return refusal::SHAPE;
    };
    if message.len() as u64 != message_bits.div_ceil(8) {
        return refusal::SHAPE;
    }
    if !bits::zero_behind(message, message_bits) {
        return refusal::SET_BITS;
    }
    let digest = crate::digest::digest_bits(mode, bits, &word(salt), message, message_bits);
    out[..digest.len()].copy_from_slice(&digest);
    refusal::NONE
}

/// The answer of [`digest`] by the sizes alone, so that it can be asked about
/// messages that no memory holds. It is that of [`digest_in`] too, where the
/// number has a mode.
pub fn digest_refusal(bits: u64, salt: usize, message: u64, room: usize) -> u8 {
    digest_bits_refusal(bits, salt, in_bits(message), room)
}

/// The same of [`digest_bits`], where the number has a mode, and the bytes are those
/// of the message.
pub fn digest_bits_refusal(bits: u64, salt: usize, message_bits: u64, room: usize) -> u8 {
    if !family::admitted(bits) {
        refusal::DIGEST_LENGTH
    } else if salt != 16 {
        refusal::SALT
    } else if message_bits > BIT_LIMIT {
        refusal::MESSAGE
    } else if room < bits as usize / 8 {
        refusal::ROOM
    } else {
        refusal::NONE
    }
}

/// The bits of so many bytes; where no number of 64 bits holds them, one that is over
/// the limit as they are.
fn in_bits(bytes: u64) -> u64 {
    bytes.saturating_mul(8)
}

/// The tag of `bits` bits under a key, into the first bits / 8 bytes of `out`;
/// those behind them stay. Refusals 1, 2, 4, 5.
pub fn hmac(bits: u64, salt: &[u8], key: &[u8], message: &[u8], out: &mut [u8]) -> u8 {
    let sizes = (key.len() as u64, message.len() as u64);
    let refused = hmac_refusal(bits, salt.len(), sizes, out.len());
    if refused == refusal::NONE {
        let tag = crate::hmac::hmac(bits, &word(salt), key, message);
        out[..tag.len()].copy_from_slice(&tag);
    }
    refused
}

/// Whether bytes are the tag that [`hmac`] gives, all of it; a refusal says no.
/// Refusals 1, 2, 4.
pub fn hmac_check(bits: u64, salt: &[u8], key: &[u8], message: &[u8], tag: &[u8]) -> (u8, bool) {
    let sizes = (key.len() as u64, message.len() as u64);
    let refused = hmac_check_refusal(bits, salt.len(), sizes);
    let yes = refused == refusal::NONE && tag == crate::hmac::hmac(bits, &word(salt), key, message);
    (refused, yes)
}

/// 0 for the tag that [`hmac`] gives alone. Refusals 1, 2, 4, 19.
pub fn hmac_verify(bits: u64, salt: &[u8], key: &[u8], message: &[u8], tag: &[u8]) -> u8 {
    match hmac_check(bits, salt, key, message, tag) {
        (refusal::NONE, false) => refusal::TAG,
        (refused, _) => refused,
    }
}

/// The answer of [`hmac`] by the sizes alone, those of key and message together.
pub fn hmac_refusal(bits: u64, salt: usize, sizes: (u64, u64), room: usize) -> u8 {
    match hmac_check_refusal(bits, salt, sizes) {
        refusal::NONE if room < bits as usize / 8 => refusal::ROOM,
        refused => refused,
    }
}

/// The number that [`hmac_check`] answers by the sizes alone.
pub fn hmac_check_refusal(bits: u64, salt: usize, (key, message): (u64, u64)) -> u8 {
    if !family::admitted(bits) {
        return refusal::DIGEST_LENGTH;
    }
    if salt != 16 {
        return refusal::SALT;
    }
    let block = family::of_bits(DoublePipe, bits).block as u64;
    if key > MESSAGE_LIMIT || message > MESSAGE_LIMIT - block {
        return refusal::MESSAGE;
    }
    refusal::NONE
}

/// Rounds forward over a lent square. Refusals 2, 6, 7.
pub fn rounds(lent: &mut [u8], count: u64, counter: u64, salt: &[u8]) -> u8 {
    match square_refusal(lent, count, salt) {
        refusal::NONE if counter > COUNTER_LIMIT => refusal::COUNTER,
        _ => rounds_wide(lent, count, counter.into(), salt),
    }
}

/// The same from any counter of 128 bits. Refusals 2, 6.
pub fn rounds_wide(lent: &mut [u8], count: u64, counter: u128, salt: &[u8]) -> u8 {
    on_square(lent, count, counter, salt, square::rounds)
}

/// Rounds backward over a lent square, from the starting counter of the way
/// forward. Refusals 2, 6, 7.
pub fn rounds_back(lent: &mut [u8], count: u64, counter: u64, salt: &[u8]) -> u8 {
    match square_refusal(lent, count, salt) {
        refusal::NONE if counter > COUNTER_LIMIT => refusal::COUNTER,
        _ => rounds_back_wide(lent, count, counter.into(), salt),
    }
}

/// The same from any counter of 128 bits. Refusals 2, 6.
pub fn rounds_back_wide(lent: &mut [u8], count: u64, counter: u128, salt: &[u8]) -> u8 {
    on_square(lent, count, counter, salt, square::rounds_back)
}

fn on_square(
    lent: &mut [u8],
    count: u64,
    counter: u128,
    salt: &[u8],
    work: fn(&mut Square, u64, u128, &Word),
) -> u8 {
    let refused = square_refusal(lent, count, salt);
    if refused == refusal::NONE {
        let square = lent.try_into().expect("a square of 256 bytes");
        work(square, count, counter, &word(salt));
    }
    refused
}

/// What a square, a round count and a salt are refused by.
fn square_refusal(lent: &[u8], count: u64, salt: &[u8]) -> u8 {
    let counts = [family::SHORT.rounds, family::LONG.rounds];
    if salt.len() != 16 {
        refusal::SALT
    } else if lent.len() != size_of::<Square>() || !counts.contains(&count) {
        refusal::SHAPE
    } else {
        refusal::NONE
    }
}

/// Takes a block into a lent chaining value, in double-pipe. Refusals 2, 6, 7.
pub fn compress(chaining: &mut [u8], block: &[u8], counter: u64, salt: &[u8]) -> u8 {
    compress_in(DoublePipe.number(), chaining, block, counter, salt)
}

/// The same in the mode of a number. Refusals 2, 6, 7.
pub fn compress_in(mode: u8, chaining: &mut [u8], block: &[u8], counter: u64, salt: &[u8]) -> u8 {
    match compressed_in(mode, chaining, block, salt) {
        Ok(_) if counter > COUNTER_LIMIT => refusal::COUNTER,
        _ => compress_wide(mode, chaining, block, counter.into(), salt),
    }
}

/// The same from any counter of 128 bits. Refusals 2, 6.
pub fn compress_wide(
    mode: u8,
    chaining: &mut [u8],
    block: &[u8],
    counter: u128,
    salt: &[u8],
) -> u8 {
    match compressed_in(mode, chaining, block, salt) {
        Ok(mode) => {
            compression::compress(mode, chaining, block, counter, &word(salt));
            refusal::NONE
        }
        Err(refused) => refused,
    }
}

/// The mode of a compression, or what its number, the sizes and the salt are
/// refused by.
fn compressed_in(mode: u8, chaining: &[u8], block: &[u8], salt: &[u8]) -> Result<Mode, u8> {
    if salt.len() != 16 {
        return Err(refusal::SALT);
    }
    let fits = |mode: &Mode| family::of_sizes(*mode, chaining.len(), block.len()).is_some();
    let mode = Mode::of_number(mode).filter(fits);
    mode.ok_or(refusal::SHAPE)
}

/// The fingerprint of a steering table: the 256-bit digest of the whole table,
/// kind bytes included, into the first 32 bytes of `out`. Answers with a number
/// and a place, which is 0 except with 9 and 10. Refusals 2, 5, 8, 9, 10.
pub fn fingerprint(salt: &[u8], table: &[u8], out: &mut [u8]) -> (u8, u64) {
    if salt.len() != 16 {
        return (refusal::SALT, 0);
    }
    if out.len() < FINGERPRINT {
        return (refusal::ROOM, 0);
    }
    match table::read(table) {
        Ok(_) => (digest(256, salt, table, out), 0),
        Err(refused) => refused,
    }
}

fn word(salt: &[u8]) -> Word {
    salt.try_into().expect("a salt of 16 bytes")
}

#[cfg(test)]
mod tests;
