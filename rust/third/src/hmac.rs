//! Tags under a key: FIPS 198-1 over digests by the instruction, in double-pipe.

use crate::{Mode, Word};

fn digest(bits: u64, salt: &Word, message: &[u8]) -> Option<Vec<u8>> {
    crate::digest(Mode::DoublePipe, bits, salt, message)
}

/// The key as the standard takes it, and how it stands in a block.
struct Key {
    bytes: Vec<u8>,
    block: usize,
}

impl Key {
    /// A key that is longer than a block goes through the digest first.
    fn new(bits: u64, salt: &Word, key: &[u8]) -> Option<Key> {
        let block = if bits <= 256 { 192 } else { 128 };
        let bytes = match key.len() <= block {
            true => key.to_vec(),
            false => digest(bits, salt, key)?,
        };
        Some(Key { bytes, block })
    }

    /// A block with the key at its front, every byte of it xored with a pad, and
    /// a text behind it.
    fn before(&self, pad: u8, text: &[u8]) -> Vec<u8> {
        let mut joined = vec![pad; self.block + text.len()];
        for (byte, key) in joined.iter_mut().zip(&self.bytes) {
            *byte ^= key;
        }
        joined[self.block..].copy_from_slice(text);
        joined
    }
}

pub fn hmac(bits: u64, salt: &Word, key: &[u8], message: &[u8]) -> Option<Vec<u8>> {
    let key = Key::new(bits, salt, key)?;
    let inner = digest(bits, salt, &key.before(0x36, message))?;
    digest(bits, salt, &key.before(0x5c, &inner))
}
