//! ECHO 2.0 by tables that hold SubBytes and MixColumns together: the measure of
//! what portable code can do, without unsafe code and without any instruction
//! that only some processors have.
//!
//! It is written for speed. `plain` says the same in the paper's own steps, and
//! the tests hold one against the other. As with all table look-ups, the time can
//! depend on the bytes that are digested, by which entries the processor has in
//! its caches.

#![forbid(unsafe_code)]

mod message;
mod square;
mod table;
#[cfg(test)]
mod tests;

/// Sixteen bytes: a word of the square, a salt.
pub type Word = [u8; 16];

/// The digest of `bits` bits. Panics unless the digest length is a multiple of 8
/// from 128 to 512.
pub fn digest(bits: u64, salt: &Word, message: &[u8]) -> Vec<u8> {
    assert!(
        (128..=512).contains(&bits) && bits.is_multiple_of(8),
        "no digest has {bits} bits"
    );
    message::digest(bits, salt, message)
}
