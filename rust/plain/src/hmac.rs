//! Tags of messages under a key: HMAC of FIPS 198-1, over the digest of `bits`
//! bits under a salt. A block of the digest's family is the standard's B bytes.
//! The digest is double-pipe.

use crate::aes::Word;
use crate::digest::digest;
use crate::family;
use crate::mode::Mode::DoublePipe;

/// The byte that ipad repeats.
const IPAD: u8 = 0x36;
/// The byte that opad repeats.
const OPAD: u8 = 0x5c;

/// The tag of `bits` bits. Panics unless the digest length is admitted.
pub fn hmac(bits: u64, salt: &Word, key: &[u8], message: &[u8]) -> Vec<u8> {
    let blocks = key_blocks(bits, salt, key);
    by(
        |bytes| digest(DoublePipe, bits, salt, bytes),
        &blocks,
        message,
    )
}

/// What inner and outer digest begin with, each one block: K0 xored with ipad,
/// and with opad. Panics unless the digest length is admitted.
pub fn key_blocks(bits: u64, salt: &Word, key: &[u8]) -> KeyBlocks {
    let block = family::of_bits(DoublePipe, bits).block;
    KeyBlocks::by(|bytes| digest(DoublePipe, bits, salt, bytes), block, key)
}

/// The two blocks that a key becomes.
pub struct KeyBlocks {
    /// K0 xored with ipad: step 4.
    pub inner: Vec<u8>,
    /// K0 xored with opad: step 7.
    pub outer: Vec<u8>,
}

impl KeyBlocks {
    /// The blocks by any hash function and its block size.
    fn by(hash: impl Fn(&[u8]) -> Vec<u8>, block: usize, key: &[u8]) -> KeyBlocks {
        // Steps 1 to 3: K0 is the key, or its hash where it is longer than a
        // block, with zeros behind it.
        let mut k0 = if key.len() > block {
            hash(key)
        } else {
            key.to_vec()
        };
        k0.resize(block, 0);
        KeyBlocks {
            inner: k0.iter().map(|byte| byte ^ IPAD).collect(),
            outer: k0.iter().map(|byte| byte ^ OPAD).collect(),
        }
    }
}

/// Steps 5 and 6, and then 8 and 9.
fn by(hash: impl Fn(&[u8]) -> Vec<u8>, blocks: &KeyBlocks, message: &[u8]) -> Vec<u8> {
    let inner = hash(&[&blocks.inner, message].concat());
    hash(&[blocks.outer.as_slice(), &inner].concat())
}

#[cfg(test)]
mod tests;
