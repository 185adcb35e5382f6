//! On x86-64 `aesenc` is the full round. All else is SSE2, which each such
//! processor has.

use std::arch::x86_64::{
    __m128i, _mm_add_epi8, _mm_aesenc_si128, _mm_and_si128, _mm_cmplt_epi8, _mm_set1_epi8,
    _mm_set_epi64x, _mm_setzero_si128, _mm_xor_si128,
};

pub type Vector = __m128i;

pub fn present() -> bool {
    is_x86_feature_detected!("aes")
}

/// SubBytes, ShiftRows, MixColumns, AddRoundKey.
#[inline]
#[target_feature(enable = "aes")]
pub fn round(word: Vector, key: Vector) -> Vector {
    _mm_aesenc_si128(word, key)
}

#[inline]
#[target_feature(enable = "aes")]
pub fn xor(left: Vector, right: Vector) -> Vector {
    _mm_xor_si128(left, right)
}

/// Each byte doubled: added to itself, with 1b xored in where it was negative.
#[inline]
#[target_feature(enable = "aes")]
pub fn double(vector: Vector) -> Vector {
    let top_set = _mm_cmplt_epi8(vector, _mm_setzero_si128());
    _mm_xor_si128(
        _mm_add_epi8(vector, vector),
        _mm_and_si128(top_set, _mm_set1_epi8(0x1b)),
    )
}

/// The counter as sixteen bytes, least significant first: its lower half, and then
/// its upper one.
#[inline]
#[target_feature(enable = "aes")]
pub fn counter_key(low: u64, high: u64) -> Vector {
    _mm_set_epi64x(high as i64, low as i64)
}
