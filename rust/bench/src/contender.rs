//! What is timed: four implementations of a digest.

use plain::mode::Mode::DoublePipe;

/// An implementation, which digests into the front of a room of 64 bytes. False
/// where the machine does not have it.
pub struct Contender {
    pub digest: fn(u64, &[u8], &mut [u8; 64]) -> bool,
}

/// Places in [`CONTENDERS`]. The last is the one that a machine may not have.
pub const LIBRARY: usize = 0;
pub const PLAIN: usize = 1;
pub const TABLES: usize = 2;
pub const INSTRUCTION: usize = 3;

/// The salt of every run.
pub const SALT: [u8; 16] = [7; 16];

pub const CONTENDERS: [Contender; 4] = [
    Contender {
        digest: |bits, message, out| bahmorist::digest(bits, &SALT, message, out).is_ok(),
    },
    Contender {
        digest: |bits, message, out| {
            put(
                &plain::digest::digest(DoublePipe, bits, &SALT, message),
                out,
            )
        },
    },
    Contender {
        digest: |bits, message, out| put(&tables::digest(bits, &SALT, message), out),
    },
    Contender {
        digest: |bits, message, out| {
            third::digest(third::Mode::DoublePipe, bits, &SALT, message)
                .is_some_and(|digest| put(&digest, out))
        },
    },
];

/// The rounds of one block alone, by the library: most of what a digest does.
pub const ROUNDS: Contender = Contender {
    digest: |bits, _, out| {
        let mut square = [out[0]; 256];
        let done = bahmorist::rounds(&mut square, rounds(bits), 0, &SALT).is_ok();
        out.copy_from_slice(&square[..64]);
        done
    },
};

/// The rounds of a block.
pub fn rounds(bits: u64) -> u64 {
    if bits <= 256 {
        8
    } else {
        10
    }
}

/// The bytes of a block.
pub fn block_bytes(bits: u64) -> usize {
    if bits <= 256 {
        192
    } else {
        128
    }
}

fn put(digest: &[u8], out: &mut [u8; 64]) -> bool {
    out[..digest.len()].copy_from_slice(digest);
    true
}

impl Contender {
    /// Whether the machine has it. What it digests must be what `plain` does, so
    /// that all are timed at the same work.
    pub fn agrees(&self, bits: u64, message: &[u8]) -> bool {
        let (mut own, mut plain) = ([0; 64], [0; 64]);
        (CONTENDERS[PLAIN].digest)(bits, message, &mut plain);
        let has = (self.digest)(bits, message, &mut own);
        assert!(!has || own == plain, "two digests of one message");
        has
    }
}
