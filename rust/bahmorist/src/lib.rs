//! ECHO 2.0 digests in both modes, of bytes and of bits, tags of messages under a
//! key, the round mixing below them, and steering tables read, written and
//! fingerprinted, by the proved library: a safe face of its C functions, which
//! `include/bahmorist.h` describes.
//!
//! Every number and every length is checked by the library itself. A call that
//! is refused writes nothing. Nothing is allocated and nothing is kept between
//! calls.
//!
//! The library is linked from the folder that the environment variable
//! `BAHMORIST_LIB_DIR` names while this package is built, for any target. Without it,
//! from `target/native` for x86-64 Linux, where `tools/library` puts it, and from
//! `target/aarch64` for Linux on Arm. Nothing of Rust's `std` is used.

#![no_std]
#![deny(missing_docs)]

#[cfg(test)]
extern crate std;

mod face;
mod mode;
mod refusal;
mod tables;
mod tags;

pub use mode::Mode;
pub use refusal::{NoRefusal, Refusal, RefusedTable};
pub use tables::{count, read_at, records, write_at};
pub use tables::{Radio, Record, Records, TableWriter, MOST_TABLE_BYTES};
pub use tags::{hmac, hmac_array, hmac_check, hmac_verify, same};

/// The version of this package.
pub const VERSION: &str = env!("CARGO_PKG_VERSION");

/// The version of the archive that is linked: 10,000 times its first part, 100 times
/// the second and the third, added up. It is that of [`VERSION`] where the archive was
/// made from the same sources.
///
/// ```
/// assert_eq!(bahmorist::version() / 10_000, 0);
/// ```
pub fn version() -> u32 {
    // SAFETY: it takes nothing and touches no memory.
    unsafe { face::bahmorist_version() }
}

/// Puts the digest of a message in double-pipe, `bits` / 8 bytes, at the front of
/// `out`; bytes behind it stay. The salt is sixteen zeros where there is none.
/// Refuses by 1, 2, 4 or 5.
///
/// The published digests of the empty message:
///
/// ```
/// for (bits, published) in [
///     (224, "17da087595166f733fff7cdb0bca6438f303d0e00c48b5e7a3075905"),
///     (256, "4496cd09d425999aefa75189ee7fd3c97362aa9e4ca898328002d20a4b519788"),
/// ] {
///     let mut out = [0; 64];
///     bahmorist::digest(bits, &[0; 16], b"", &mut out)?;
///     let digest = &out[..bits as usize / 8];
///     let hex: String = digest.iter().map(|byte| format!("{byte:02x}")).collect();
///     assert_eq!(hex, published);
/// }
/// # Ok::<(), bahmorist::Refusal>(())
/// ```
///
/// What is refused, and that the room stays as it is:
///
/// ```
/// use bahmorist::Refusal;
///
/// let mut out = [7; 32];
/// let refused = bahmorist::digest(512, &[0; 16], b"abc", &mut out);
/// assert_eq!(refused, Err(Refusal::Room));
/// assert_eq!(out, [7; 32]);
/// ```
pub fn digest(bits: u64, salt: &[u8], message: &[u8], out: &mut [u8]) -> Result<(), Refusal> {
    // SAFETY: each pointer comes with its slice's length; see `face`.
    answer(unsafe {
        face::bahmorist_digest(
            bits,
            salt.as_ptr(),
            salt.len(),
            message.as_ptr(),
            message.len(),
            out.as_mut_ptr(),
            out.len(),
        )
    })
}

/// Puts the digest of a message at the front of `out`, like [`digest`], in either
/// mode. Refuses by 1, 2, 4 or 5.
///
/// ```
/// use bahmorist::{digest, digest_in, Mode};
///
/// let (mut double, mut single, mut same) = ([0; 32], [0; 32], [0; 32]);
/// digest(256, &[0; 16], b"abc", &mut double)?;
/// digest_in(Mode::DoublePipe, 256, &[0; 16], b"abc", &mut same)?;
/// assert_eq!(same, double);
///
/// digest_in(Mode::SinglePipe, 256, &[0; 16], b"abc", &mut single)?;
/// assert_ne!(single, double);
/// # Ok::<(), bahmorist::Refusal>(())
/// ```
///
/// What is refused does not depend on the mode:
///
/// ```
/// use bahmorist::{digest_in, Mode, Refusal};
///
/// let mut out = [7; 31];
/// for mode in [Mode::DoublePipe, Mode::SinglePipe] {
///     let refused = digest_in(mode, 256, &[0; 16], b"abc", &mut out);
///     assert_eq!(refused, Err(Refusal::Room));
/// }
/// assert_eq!(out, [7; 31]);
/// ```
pub fn digest_in(
    mode: Mode,
    bits: u64,
    salt: &[u8],
    message: &[u8],
    out: &mut [u8],
) -> Result<(), Refusal> {
    // SAFETY: each pointer comes with its slice's length; see `face`.
    answer(unsafe {
        face::bahmorist_digest_in(
            mode.number(),
            bits,
            salt.as_ptr(),
            salt.len(),
            message.as_ptr(),
            message.len(),
            out.as_mut_ptr(),
            out.len(),
        )
    })
}

/// The digest of a message as an array, of 8 * `N` bits, like [`digest_in`]. Refuses by
/// 1 or 4.
///
/// ```
/// use bahmorist::{digest_array, Mode, Refusal};
///
/// let digest: [u8; 32] = digest_array(Mode::default(), &[0; 16], b"")?;
/// assert_eq!(digest[..4], [0x44, 0x96, 0xcd, 0x09]);
///
/// let refused = digest_array::<65>(Mode::default(), &[0; 16], b"");
/// assert_eq!(refused, Err(Refusal::DigestLength));
/// # Ok::<(), Refusal>(())
/// ```
pub fn digest_array<const N: usize>(
    mode: Mode,
    salt: &[u8; 16],
    message: &[u8],
) -> Result<[u8; N], Refusal> {
    let mut digest = [0; N];
    digest_in(mode, bits::<N>(), salt, message, &mut digest)?;
    Ok(digest)
}

/// Puts the digest of a message of `message_bits` bits at the front of `out`, like
/// [`digest_in`]. The most significant bit of a byte comes first, the message is as many
/// bytes as its bits over 8, rounded up, and bits behind the last one are zero. Refuses
/// by 1, 2, 4, 5, 6 or 17.
///
/// A capture that ends within a byte is another message than its bytes:
///
/// ```
/// use bahmorist::{digest_bits, digest_in, Mode, Refusal};
///
/// let (capture, salt) = ([0xa5, 0b1101_0000], [0; 16]);
/// let (mut bits, mut bytes, mut same) = ([0; 32], [0; 32], [0; 32]);
/// digest_bits(Mode::DoublePipe, 256, &salt, &capture, 12, &mut bits)?;
/// digest_in(Mode::DoublePipe, 256, &salt, &capture, &mut bytes)?;
/// assert_ne!(bits, bytes);
///
/// // With all of its bits it is the same.
/// digest_bits(Mode::DoublePipe, 256, &salt, &capture, 16, &mut same)?;
/// assert_eq!(same, bytes);
/// # Ok::<(), Refusal>(())
/// ```
///
/// What is refused, and that the room stays as it is:
///
/// ```
/// use bahmorist::{digest_bits, Mode, Refusal};
///
/// let mut out = [7; 32];
/// let mut refused = |message: &[u8], message_bits| {
///     digest_bits(Mode::SinglePipe, 256, &[0; 16], message, message_bits, &mut out)
/// };
/// // The fourth bit is set, and three are used.
/// assert_eq!(refused(&[0b1101_0000], 3), Err(Refusal::SetBits));
/// assert_eq!(refused(&[0b1101_0000], 9), Err(Refusal::Shape));
/// assert_eq!(refused(&[], 1), Err(Refusal::Shape));
/// assert_eq!(refused(&[], u64::MAX), Err(Refusal::Message));
/// assert_eq!(out, [7; 32]);
/// ```
pub fn digest_bits(
    mode: Mode,
    bits: u64,
    salt: &[u8],
    message: &[u8],
    message_bits: u64,
    out: &mut [u8],
) -> Result<(), Refusal> {
    // SAFETY: each pointer comes with its slice's length; see `face`.
    answer(unsafe {
        face::bahmorist_digest_bits(
            mode.number(),
            bits,
            salt.as_ptr(),
            salt.len(),
            message.as_ptr(),
            message.len(),
            message_bits,
            out.as_mut_ptr(),
            out.len(),
        )
    })
}

/// Rewrites a square of 256 bytes by 8 or 10 of ECHO's rounds, whose inner
/// counter starts at `counter`. Refuses by 2, 6 or 7.
///
/// ```
/// use bahmorist::Refusal;
///
/// let (start, salt) = ([7; 256], [0; 16]);
/// let mut square = start;
/// bahmorist::rounds(&mut square, 8, 1536, &salt)?;
/// assert_ne!(square, start);
/// bahmorist::rounds_back(&mut square, 8, 1536, &salt)?;
/// assert_eq!(square, start);
///
/// let refused = bahmorist::rounds(&mut square, 9, 1536, &salt);
/// assert_eq!(refused, Err(Refusal::Shape));
/// # Ok::<(), Refusal>(())
/// ```
pub fn rounds(square: &mut [u8], rounds: u64, counter: u64, salt: &[u8]) -> Result<(), Refusal> {
    // SAFETY: each pointer comes with its slice's length; see `face`.
    answer(unsafe {
        face::bahmorist_rounds(
            square.as_mut_ptr(),
            square.len(),
            rounds,
            counter,
            salt.as_ptr(),
            salt.len(),
        )
    })
}

/// Undoes [`rounds`] with the same round count, counter and salt. Refuses by 2,
/// 6 or 7.
///
/// ```
/// let (end, salt) = ([0xa5; 256], [3; 16]);
/// let mut square = end;
/// bahmorist::rounds_back(&mut square, 10, 0, &salt)?;
/// bahmorist::rounds(&mut square, 10, 0, &salt)?;
/// assert_eq!(square, end);
/// # Ok::<(), bahmorist::Refusal>(())
/// ```
pub fn rounds_back(
    square: &mut [u8],
    rounds: u64,
    counter: u64,
    salt: &[u8],
) -> Result<(), Refusal> {
    // SAFETY: each pointer comes with its slice's length; see `face`.
    answer(unsafe {
        face::bahmorist_rounds_back(
            square.as_mut_ptr(),
            square.len(),
            rounds,
            counter,
            salt.as_ptr(),
            salt.len(),
        )
    })
}

/// Rewrites a square like [`rounds`], whose inner counter has 128 bits: the first
/// key is all sixteen bytes of it, and behind 2^128 - 1 comes 0. Where [`rounds`]
/// takes the counter both give the same. Refuses by 2 or 6.
///
/// A counter that goes over from the lower half into the upper on the way, and one
/// that goes over to 0:
///
/// ```
/// use bahmorist::{rounds, rounds_back_wide, rounds_wide, Refusal};
///
/// let (start, salt) = ([7; 256], [0; 16]);
/// for counter in [(1 << 64) - 80, u128::MAX - 79] {
///     let mut square = start;
///     rounds_wide(&mut square, 10, counter, &salt)?;
///     assert_ne!(square, start);
///     rounds_back_wide(&mut square, 10, counter, &salt)?;
///     assert_eq!(square, start);
/// }
///
/// // In 64 bits there is no such counter.
/// let mut square = start;
/// let refused = rounds(&mut square, 10, u64::MAX - 79, &salt);
/// assert_eq!(refused, Err(Refusal::Counter));
/// # Ok::<(), Refusal>(())
/// ```
///
/// What both take:
///
/// ```
/// use bahmorist::{rounds, rounds_wide, Refusal};
///
/// let (mut one, mut other, salt) = ([7; 256], [7; 256], [0; 16]);
/// rounds(&mut one, 8, 1536, &salt)?;
/// rounds_wide(&mut other, 8, 1536, &salt)?;
/// assert_eq!(one, other);
///
/// let refused = rounds_wide(&mut other, 9, u128::MAX, &salt);
/// assert_eq!(refused, Err(Refusal::Shape));
/// assert_eq!(one, other);
/// # Ok::<(), Refusal>(())
/// ```
pub fn rounds_wide(
    square: &mut [u8],
    rounds: u64,
    counter: u128,
    salt: &[u8],
) -> Result<(), Refusal> {
    let (low, high) = halves(counter);
    // SAFETY: each pointer comes with its slice's length; see `face`.
    answer(unsafe {
        face::bahmorist_rounds_wide(
            square.as_mut_ptr(),
            square.len(),
            rounds,
            low,
            high,
            salt.as_ptr(),
            salt.len(),
        )
    })
}

/// Undoes [`rounds_wide`] with the same round count, counter and salt. Refuses by 2
/// or 6.
///
/// ```
/// let (end, salt) = ([0xa5; 256], [3; 16]);
/// let mut square = end;
/// bahmorist::rounds_back_wide(&mut square, 8, 5 << 64, &salt)?;
/// bahmorist::rounds_wide(&mut square, 8, 5 << 64, &salt)?;
/// assert_eq!(square, end);
/// # Ok::<(), bahmorist::Refusal>(())
/// ```
pub fn rounds_back_wide(
    square: &mut [u8],
    rounds: u64,
    counter: u128,
    salt: &[u8],
) -> Result<(), Refusal> {
    let (low, high) = halves(counter);
    // SAFETY: each pointer comes with its slice's length; see `face`.
    answer(unsafe {
        face::bahmorist_rounds_back_wide(
            square.as_mut_ptr(),
            square.len(),
            rounds,
            low,
            high,
            salt.as_ptr(),
            salt.len(),
        )
    })
}

/// Rewrites a chaining value to the one after this block, in double-pipe: 64 bytes
/// and a block of 192 with 8 rounds, or 128 bytes and a block of 128 with 10.
/// Refuses by 2, 6 or 7.
///
/// The empty message is one block of padding, with the counter 0, and its 256-bit
/// digest is the front of the chaining value behind it:
///
/// ```
/// let mut chaining = [0; 64];
/// for word in chaining.chunks_mut(16) {
///     word[..2].copy_from_slice(&256u16.to_le_bytes());
/// }
/// let mut block = [0; 192];
/// block[0] = 0x80;
/// block[174..176].copy_from_slice(&256u16.to_le_bytes());
/// bahmorist::compress(&mut chaining, &block, 0, &[0; 16])?;
///
/// let mut digest = [0; 32];
/// bahmorist::digest(256, &[0; 16], b"", &mut digest)?;
/// assert_eq!(chaining[..32], digest);
/// # Ok::<(), bahmorist::Refusal>(())
/// ```
pub fn compress(
    chaining: &mut [u8],
    block: &[u8],
    counter: u64,
    salt: &[u8],
) -> Result<(), Refusal> {
    // SAFETY: each pointer comes with its slice's length; see `face`.
    answer(unsafe {
        face::bahmorist_compress(
            chaining.as_mut_ptr(),
            chaining.len(),
            block.as_ptr(),
            block.len(),
            counter,
            salt.as_ptr(),
            salt.len(),
        )
    })
}

/// Rewrites a chaining value to the one after this block, in either mode: in
/// double-pipe like [`compress`], and in single-pipe 32 bytes and a block of 224
/// with 8 rounds, or 64 bytes and a block of 192 with 10. Refuses by 2, 6 or 7.
///
/// The empty message is one block of padding, with the counter 0, and in
/// single-pipe its 256-bit digest is the chaining value behind it:
///
/// ```
/// use bahmorist::{compress_in, digest_in, Mode, Refusal};
///
/// let mut chaining = [0; 32];
/// for word in chaining.chunks_mut(16) {
///     word[..2].copy_from_slice(&256u16.to_le_bytes());
/// }
/// let mut block = [0; 224];
/// block[0] = 0x80;
/// block[206..208].copy_from_slice(&256u16.to_le_bytes());
/// compress_in(Mode::SinglePipe, &mut chaining, &block, 0, &[0; 16])?;
///
/// let mut digest = [0; 32];
/// digest_in(Mode::SinglePipe, 256, &[0; 16], b"", &mut digest)?;
/// assert_eq!(chaining, digest);
///
/// // These sizes are not those of the other mode.
/// let refused = compress_in(Mode::DoublePipe, &mut chaining, &block, 0, &[0; 16]);
/// assert_eq!(refused, Err(Refusal::Shape));
/// # Ok::<(), Refusal>(())
/// ```
pub fn compress_in(
    mode: Mode,
    chaining: &mut [u8],
    block: &[u8],
    counter: u64,
    salt: &[u8],
) -> Result<(), Refusal> {
    // SAFETY: each pointer comes with its slice's length; see `face`.
    answer(unsafe {
        face::bahmorist_compress_in(
            mode.number(),
            chaining.as_mut_ptr(),
            chaining.len(),
            block.as_ptr(),
            block.len(),
            counter,
            salt.as_ptr(),
            salt.len(),
        )
    })
}

/// Rewrites a chaining value like [`compress_in`], with an inner counter of 128 bits
/// as in [`rounds_wide`]. Where [`compress_in`] takes the counter both give the same.
/// Refuses by 2 or 6.
///
/// ```
/// use bahmorist::{compress_in, compress_wide, Mode, Refusal};
///
/// let (start, block, salt) = ([7; 64], [1; 192], [0; 16]);
/// let (mut one, mut other) = (start, start);
/// compress_in(Mode::DoublePipe, &mut one, &block, 1536, &salt)?;
/// compress_wide(Mode::DoublePipe, &mut other, &block, 1536, &salt)?;
/// assert_eq!(one, other);
///
/// // Too high for 64 bits, and then all of 128.
/// let refused = compress_in(Mode::DoublePipe, &mut one, &block, u64::MAX, &salt);
/// assert_eq!(refused, Err(Refusal::Counter));
/// compress_wide(Mode::DoublePipe, &mut one, &block, u64::MAX.into(), &salt)?;
/// compress_wide(Mode::DoublePipe, &mut other, &block, u128::MAX, &salt)?;
/// assert_ne!(one, other);
///
/// let refused = compress_wide(Mode::SinglePipe, &mut one[..32], &block, 0, &salt);
/// assert_eq!(refused, Err(Refusal::Shape));
/// # Ok::<(), Refusal>(())
/// ```
pub fn compress_wide(
    mode: Mode,
    chaining: &mut [u8],
    block: &[u8],
    counter: u128,
    salt: &[u8],
) -> Result<(), Refusal> {
    let (low, high) = halves(counter);
    // SAFETY: each pointer comes with its slice's length; see `face`.
    answer(unsafe {
        face::bahmorist_compress_wide(
            mode.number(),
            chaining.as_mut_ptr(),
            chaining.len(),
            block.as_ptr(),
            block.len(),
            low,
            high,
            salt.as_ptr(),
            salt.len(),
        )
    })
}

/// Puts the fingerprint of a steering table, 32 bytes, at the front of `out`;
/// bytes behind it stay. It is the 256-bit digest of the whole table, kind bytes
/// included, in double-pipe. Refuses by 2, 5, 8, 9 or 10.
///
/// A node address, then the join floors at 2.4 and at 5 GHz:
///
/// ```
/// use bahmorist::{Refusal, RefusedTable};
///
/// let table = [1, 0xa2, 0, 0, 0, 0, 7, 2, 0, 0x3c, 3, 0, 0x41];
/// let salt = [9; 16];
///
/// let mut fingerprint = [0; 32];
/// bahmorist::fingerprint(&salt, &table, &mut fingerprint)?;
/// let mut digest = [0; 32];
/// bahmorist::digest(256, &salt, &table, &mut digest).unwrap();
/// assert_eq!(fingerprint, digest);
///
/// // Without its last byte, the record at place 10 is cut short.
/// let refused = bahmorist::fingerprint(&salt, &table[..12], &mut fingerprint);
/// let (refusal, place) = (Refusal::CutShort, 10);
/// assert_eq!(refused, Err(RefusedTable { refusal, place }));
/// # Ok::<(), RefusedTable>(())
/// ```
pub fn fingerprint(salt: &[u8], table: &[u8], out: &mut [u8]) -> Result<(), RefusedTable> {
    let mut place = 0;
    // SAFETY: each pointer comes with its slice's length, and the place is a
    // variable of this function; see `face`.
    answer(unsafe {
        face::bahmorist_fingerprint(
            salt.as_ptr(),
            salt.len(),
            table.as_ptr(),
            table.len(),
            out.as_mut_ptr(),
            out.len(),
            &mut place,
        )
    })
    .map_err(|refusal| RefusedTable { refusal, place })
}

/// The bits of `N` bytes. No digest has so many bytes that 64 bits don't hold their bits.
fn bits<const N: usize>() -> u64 {
    (N as u64).saturating_mul(8)
}

/// The halves of a counter, the lower one first.
fn halves(counter: u128) -> (u64, u64) {
    (counter as u64, (counter >> 64) as u64)
}

/// What a number says: 0 is done, and the library gives none that is no refusal.
fn answer(number: u8) -> Result<(), Refusal> {
    match number {
        0 => Ok(()),
        number => Err(Refusal::from_number(number).expect("a number of a refusal")),
    }
}
