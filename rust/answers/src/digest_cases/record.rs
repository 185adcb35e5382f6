//! One case of `digest_cases`: its record of 32 bytes and the line it has to give.

use crate::patterned::patterned;
use plain::mode::Mode;
use plain::{checked, hex, refusal};
use seeded::Generator;

/// Bytes of a record.
pub const RECORD: usize = 32;

/// A case: a message by its length and seed, and how it is handed over.
#[derive(Clone)]
pub struct Case {
    pub mode: Mode,
    /// The digest length.
    pub bits: u16,
    /// Bytes of the message.
    pub length: u16,
    /// Bits of the last byte that are not in use, fewer than eight, where the functions
    /// for bits are asked; none where those for bytes are.
    pub unused: Option<u8>,
    /// The message's first byte.
    pub seed: u8,
    /// Bytes of each piece that a session is given, or 0 for a digest at once.
    pub piece: u16,
    /// Bytes of the salt that are handed over.
    pub salt_length: u8,
    pub salt: [u8; 16],
}

impl Case {
    /// A case in double-pipe and in bytes, with everything else from the generator.
    pub fn new(generator: &mut Generator, bits: u16, length: u16, piece: u16) -> Case {
        Case {
            mode: Mode::DoublePipe,
            bits,
            length,
            unused: None,
            seed: generator.below(256) as u8,
            piece,
            salt_length: 16,
            salt: generator.bytes(),
        }
    }

    /// The record. Numbers have their least significant byte first.
    pub fn record(&self) -> Vec<u8> {
        let mut record = Vec::with_capacity(RECORD);
        record.extend(self.bits.to_le_bytes());
        record.extend(self.length.to_le_bytes());
        record.push(self.seed);
        record.extend(self.piece.to_le_bytes());
        record.push(self.salt_length);
        record.push(self.mode.number());
        record.push(self.unused.map_or(0, |unused| 1 + unused));
        record.extend([0; 6]);
        record.extend(self.salt);
        record
    }

    /// The message, with zeros for the bits that are not in use.
    pub fn message(&self) -> Vec<u8> {
        let mut message = patterned(self.seed, self.length);
        if let Some(last) = message.last_mut() {
            *last &= 0xff << self.unused.unwrap_or(0);
        }
        message
    }

    /// Bits of the message.
    pub fn message_bits(&self) -> u64 {
        8 * u64::from(self.length) - u64::from(self.unused.unwrap_or(0))
    }

    /// The digest, or the refusal number. The pieces make no difference to it.
    pub fn answer(&self) -> Result<Vec<u8>, u8> {
        let (mode, bits) = (self.mode.number(), self.bits.into());
        let salt = &self.salt[..usize::from(self.salt_length)];
        let (message, count) = (self.message(), self.message_bits());
        let mut room = [0; 64];
        let number = match self.unused {
            None => checked::digest_in(mode, bits, salt, &message, &mut room),
            Some(_) => checked::digest_bits(mode, bits, salt, &message, count, &mut room),
        };
        match number {
            refusal::NONE => Ok(room[..usize::from(self.bits) / 8].to_vec()),
            number => Err(number),
        }
    }

    /// The line that the program has to print for the record.
    pub fn line(&self) -> String {
        match self.answer() {
            Ok(digest) => format!("{}\n", hex::encode(&digest)),
            Err(number) => format!("refused {number}\n"),
        }
    }
}
