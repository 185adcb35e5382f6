//! Vectors of sixteen bytes on each kind of processor that has an AES
//! instruction.
//!
//! What is marked with `target_feature` may only run where [`present`] has said
//! yes. Such functions call each other freely and are joined into one by the
//! compiler; the question is asked once, outside.

#[cfg(target_arch = "aarch64")]
mod aarch64;
#[cfg(target_arch = "x86_64")]
mod x86_64;

#[cfg(target_arch = "aarch64")]
pub use aarch64::{counter_key, double, present, round, xor, Vector};
#[cfg(target_arch = "x86_64")]
pub use x86_64::{counter_key, double, present, round, xor, Vector};

use crate::Word;
use std::mem::transmute;

/// The vector of a word's bytes, in their order.
#[inline]
pub fn load(word: Word) -> Vector {
    // SAFETY: both are sixteen bytes, and any bytes are a value of either.
    unsafe { transmute::<Word, Vector>(word) }
}

/// The bytes of a vector, in their order.
#[inline]
pub fn store(vector: Vector) -> Word {
    // SAFETY: both are sixteen bytes, and any bytes are a value of either.
    unsafe { transmute::<Vector, Word>(vector) }
}

/// The vectors of consecutive words.
#[inline]
pub fn load_all<const N: usize>(bytes: &[u8]) -> [Vector; N] {
    let mut vectors = [load([0; 16]); N];
    for (vector, word) in vectors.iter_mut().zip(bytes.chunks_exact(16)) {
        *vector = load(word.try_into().expect("16 bytes"));
    }
    vectors
}
