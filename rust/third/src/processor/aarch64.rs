//! On aarch64 `aese` xors a key and then does SubBytes and ShiftRows; `aesmc`
//! does MixColumns. With a zero key there, the round's key is xored in last.

use std::arch::aarch64::{
    uint8x16_t, vaeseq_u8, vaesmcq_u8, vandq_u8, vcltzq_s8, vcombine_u64, vcreate_u64, vdupq_n_u8,
    veorq_u8, vreinterpretq_s8_u8, vreinterpretq_u8_u64, vshlq_n_u8,
};

pub type Vector = uint8x16_t;

pub fn present() -> bool {
    std::arch::is_aarch64_feature_detected!("aes")
}

/// SubBytes, ShiftRows, MixColumns, AddRoundKey.
#[inline]
#[target_feature(enable = "aes")]
pub fn round(word: Vector, key: Vector) -> Vector {
    veorq_u8(vaesmcq_u8(vaeseq_u8(word, vdupq_n_u8(0))), key)
}

#[inline]
#[target_feature(enable = "aes")]
pub fn xor(left: Vector, right: Vector) -> Vector {
    veorq_u8(left, right)
}

/// Each byte doubled: shifted, with 1b xored in where it was negative.
#[inline]
#[target_feature(enable = "aes")]
pub fn double(vector: Vector) -> Vector {
    let top_set = vcltzq_s8(vreinterpretq_s8_u8(vector));
    veorq_u8(vshlq_n_u8::<1>(vector), vandq_u8(top_set, vdupq_n_u8(0x1b)))
}

/// The counter as sixteen bytes, least significant first: its lower half, and then
/// its upper one.
#[inline]
#[target_feature(enable = "aes")]
pub fn counter_key(low: u64, high: u64) -> Vector {
    vreinterpretq_u8_u64(vcombine_u64(vcreate_u64(low), vcreate_u64(high)))
}
