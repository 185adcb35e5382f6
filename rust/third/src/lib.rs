//! ECHO 2.0 by the processor's own AES instruction: a third opinion, whose AES
//! round stands in no source text, and the measure of what a machine can do.
//!
//! The instruction is used where the processor has it, which is asked at run
//! time. Everywhere else the answers say that there is none.

#[cfg(any(target_arch = "x86_64", target_arch = "aarch64"))]
mod by_instruction;
mod hmac;
#[cfg(any(target_arch = "x86_64", target_arch = "aarch64"))]
mod message;
#[cfg(any(target_arch = "x86_64", target_arch = "aarch64"))]
mod processor;
#[cfg(any(target_arch = "x86_64", target_arch = "aarch64"))]
mod square;
#[cfg(test)]
mod tests;

#[cfg(not(any(target_arch = "x86_64", target_arch = "aarch64")))]
mod by_instruction {
    //! No such instruction is known here.

    use crate::{Mode, Word};

    pub fn round(_: Word, _: Word) -> Option<Word> {
        None
    }

    pub fn rounds(_: &mut [u8; 256], _: u64, _: u128, _: &Word) -> bool {
        false
    }

    pub fn compress(_: Mode, _: &mut [u8], _: &[u8], _: u128, _: &Word) -> bool {
        false
    }

    pub fn digest(_: Mode, _: u64, _: &Word, _: &[u8], _: u64) -> Option<Vec<u8>> {
        None
    }
}

/// Sixteen bytes: a word of the square, a key, a salt.
pub type Word = [u8; 16];

/// How the square is shared out between chaining value and block.
#[derive(Debug, Clone, Copy, PartialEq, Eq)]
pub enum Mode {
    /// ECHO: four chaining words up to 256 bits, and eight above.
    DoublePipe,
    /// ECHO-SP: half as many.
    SinglePipe,
}

/// SubBytes, ShiftRows, MixColumns, AddRoundKey; none where the processor has
/// no such instruction.
pub fn round(word: Word, key: Word) -> Option<Word> {
    by_instruction::round(word, key)
}

/// ECHO's BIG.ROUND, `count` times. Gives false and leaves the square alone
/// where the processor has no such instruction.
pub fn rounds(square: &mut [u8; 256], count: u64, counter: u128, salt: &Word) -> bool {
    by_instruction::rounds(square, count, counter, salt)
}

/// Takes a block into a chaining value. Gives false and leaves the chaining value
/// alone where the processor has no such instruction. Panics on sizes that the mode
/// does not have.
pub fn compress(mode: Mode, chaining: &mut [u8], block: &[u8], counter: u128, salt: &Word) -> bool {
    let sizes = match mode {
        Mode::DoublePipe => [64, 128],
        Mode::SinglePipe => [32, 64],
    };
    assert!(
        sizes.contains(&chaining.len()) && chaining.len() + block.len() == 256,
        "sizes that are not the mode's"
    );
    by_instruction::compress(mode, chaining, block, counter, salt)
}

/// The digest of `bits` bits of a message of whole bytes; none where the processor has
/// no such instruction. Panics unless the digest length is a multiple of 8 from 128 to
/// 512.
pub fn digest(mode: Mode, bits: u64, salt: &Word, message: &[u8]) -> Option<Vec<u8>> {
    digest_bits(mode, bits, salt, message, 8 * message.len() as u64)
}

/// The same of a message of so many bits, the most significant bit of a byte first.
/// Panics too unless they fill the bytes but for fewer than eight zeros at the end.
pub fn digest_bits(
    mode: Mode,
    bits: u64,
    salt: &Word,
    message: &[u8],
    message_bits: u64,
) -> Option<Vec<u8>> {
    assert!(
        (128..=512).contains(&bits) && bits.is_multiple_of(8),
        "no digest has {bits} bits"
    );
    let unused = (8 * message.len() as u64).wrapping_sub(message_bits);
    let last = message.last().copied().unwrap_or(0);
    assert!(
        unused < 8 && u64::from(last.trailing_zeros()) >= unused,
        "bytes of another message than one of {message_bits} bits"
    );
    by_instruction::digest(mode, bits, salt, message, message_bits)
}

/// The tag of `bits` bits under a key, by digests in double-pipe; none where the
/// processor has no such instruction. Panics unless the digest length is a multiple
/// of 8 from 128 to 512.
pub fn hmac(bits: u64, salt: &Word, key: &[u8], message: &[u8]) -> Option<Vec<u8>> {
    hmac::hmac(bits, salt, key, message)
}
