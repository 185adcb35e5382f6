//! The full AES round on a word of 16 bytes, and its way back: FIPS 197,
//! sections 5.1 and 5.3. The paper's section 3.1 takes it as it is, with the
//! MixColumns step that the cipher leaves out of its last round.
//!
//! Byte r + 4c of a word stands in row r and column c (FIPS 197, section 3.4;
//! the paper's section 1).

use crate::field;
use crate::substitution::{tables, Tables};

/// A word or a key: four columns of four bytes, one after the other.
pub type Word = [u8; 16];

/// SubBytes, ShiftRows, MixColumns, AddRoundKey.
pub fn round(word: Word, key: Word) -> Word {
    round_with(tables(), word, key)
}

/// The way back of [`round`] under the same key.
pub fn round_back(word: Word, key: Word) -> Word {
    round_back_with(tables(), word, key)
}

/// [`round`] with the tables at hand, so that a run of rounds asks for them once.
#[inline]
pub(crate) fn round_with(tables: &Tables, word: Word, key: Word) -> Word {
    let substituted = word.map(|byte| tables.forward[byte as usize]);
    add_key(by_columns(shift_rows(substituted), field::mix), key)
}

/// [`round_back`] with the tables at hand.
#[inline]
pub(crate) fn round_back_with(tables: &Tables, word: Word, key: Word) -> Word {
    let shifted = by_columns(add_key(word, key), field::mix_back);
    shift_rows_back(shifted).map(|byte| tables.backward[byte as usize])
}

/// Row r turns left by r places. FIPS 197, section 5.1.2.
#[inline]
fn shift_rows(word: Word) -> Word {
    std::array::from_fn(|place| {
        let (row, column) = (place % 4, place / 4);
        word[row + 4 * ((column + row) % 4)]
    })
}

/// Row r turns right by r places. FIPS 197, section 5.3.1.
#[inline]
fn shift_rows_back(word: Word) -> Word {
    std::array::from_fn(|place| {
        let (row, column) = (place % 4, place / 4);
        word[row + 4 * ((column + 4 - row) % 4)]
    })
}

/// Each column by itself goes through `mix`.
#[inline]
fn by_columns(word: Word, mix: impl Fn([u8; 4]) -> [u8; 4]) -> Word {
    let mut mixed = [0; 16];
    for c in (0..16).step_by(4) {
        let column = mix([word[c], word[c + 1], word[c + 2], word[c + 3]]);
        mixed[c..c + 4].copy_from_slice(&column);
    }
    mixed
}

/// The xor of word and key. FIPS 197, section 5.1.4.
#[inline]
fn add_key(word: Word, key: Word) -> Word {
    std::array::from_fn(|place| word[place] ^ key[place])
}

#[cfg(test)]
mod tests {
    use super::*;
    use crate::hex;

    /// FIPS 197, Appendix B: the start of round 1, then key and result of the
    /// rounds 1 to 9. Each result starts the next round.
    const START: &str = "193de3bea0f4e22b9ac68d2ae9f84808";
    const ROUNDS: [(&str, &str); 9] = [
        (
            "a0fafe1788542cb123a339392a6c7605",
            "a49c7ff2689f352b6b5bea43026a5049",
        ),
        (
            "f2c295f27a96b9435935807a7359f67f",
            "aa8f5f0361dde3ef82d24ad26832469a",
        ),
        (
            "3d80477d4716fe3e1e237e446d7a883b",
            "486c4eee671d9d0d4de3b138d65f58e7",
        ),
        (
            "ef44a541a8525b7fb671253bdb0bad00",
            "e0927fe8c86363c0d9b1355085b8be01",
        ),
        (
            "d4d1c6f87c839d87caf2b8bc11f915bc",
            "f1006f55c1924cef7cc88b325db5d50c",
        ),
        (
            "6d88a37a110b3efddbf98641ca0093fd",
            "260e2e173d41b77de86472a9fdd28b25",
        ),
        (
            "4e54f70e5f5fc9f384a64fb24ea6dc4f",
            "5a4142b11949dc1fa3e019657a8c040c",
        ),
        (
            "ead27321b58dbad2312bf5607f8d292f",
            "ea835cf00445332d655d98ad8596b0c5",
        ),
        (
            "ac7766f319fadc2128d12941575c006e",
            "eb40f21e592e38848ba113e71bc342d2",
        ),
    ];

    fn word(text: &str) -> Word {
        hex::decode(text).try_into().unwrap()
    }

    #[test]
    fn rounds_of_fips_197_appendix_b() {
        let mut state = word(START);
        for (key, result) in ROUNDS {
            state = round(state, word(key));
            assert_eq!(hex::encode(&state), result);
        }
    }

    #[test]
    fn rounds_of_fips_197_appendix_b_backward() {
        let mut state = word(ROUNDS[8].1);
        for (key, result) in ROUNDS.iter().rev() {
            assert_eq!(hex::encode(&state), *result);
            state = round_back(state, word(key));
        }
        assert_eq!(hex::encode(&state), START);
    }
}
