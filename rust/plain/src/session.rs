//! Sessions: a digest that is under way, as a record whose fields anyone may
//! fill. From an opening a session is the list of the bits added. A session that
//! no opening made goes on with the paper's iteration from where it stands. Cuts fall
//! between bytes: a part of a byte ends the message.

use crate::aes::Word;
use crate::bits;
use crate::compression::compress;
use crate::digest::{counter, initial};
use crate::family::{self, Family};
use crate::mode::Mode;
use crate::padding::{msize, padding};
use crate::refusal::{self, BIT_LIMIT};

/// A record that may be a session.
#[derive(Debug, Clone, PartialEq, Eq)]
pub struct Session {
    pub mode: Mode,
    /// The digest length h.
    pub bits: u64,
    pub salt: Word,
    /// Room for the chaining value of any family.
    pub chaining: [u8; 128],
    /// The number of message bits so far.
    pub taken: u64,
    /// Room for the waiting block of any family.
    pub waiting: [u8; 224],
}

/// What a refused opening hands out, in double-pipe and all zero, which is no
/// session.
pub const BLANK: Session = Session {
    mode: Mode::DoublePipe,
    bits: 0,
    salt: [0; 16],
    chaining: [0; 128],
    taken: 0,
    waiting: [0; 224],
};

impl Session {
    /// A session without any message bit, and 0; or the blank one and the
    /// refusal number. Refusals 1, 2.
    pub fn open(mode: Mode, bits: u64, salt: &[u8]) -> (u8, Session) {
        if !family::admitted(bits) {
            return (refusal::DIGEST_LENGTH, BLANK);
        }
        let Ok(salt) = Word::try_from(salt) else {
            return (refusal::SALT, BLANK);
        };
        let mut session = Session {
            mode,
            bits,
            salt,
            ..BLANK
        };
        session.keep_chaining(&initial(mode, bits));
        (refusal::NONE, session)
    }

    /// Whether the record is a session: the digest length is admitted, the
    /// message is within the limit, and the room that is not in use is zero, up to
    /// the last bit of a part of a byte.
    pub fn is_session(&self) -> bool {
        family::admitted(self.bits)
            && self.taken <= BIT_LIMIT
            && bits::zero_behind(&self.waiting, self.in_use())
            && bits::zero_behind(&self.chaining, 8 * self.family().chaining as u64)
    }

    /// Joins a piece of whole bytes to the message. A refusal changes nothing. Refusals
    /// 3, 4, 16.
    pub fn add(&mut self, piece: &[u8]) -> u8 {
        // So many bits that no number of 64 bits holds them are too many as well.
        self.add_bits(piece, (piece.len() as u64).saturating_mul(8))
    }

    /// Joins a piece of `count` bits to the message. A refusal changes nothing. Refusals
    /// 3, 4, 6, 16, 17.
    pub fn add_bits(&mut self, piece: &[u8], count: u64) -> u8 {
        let refused = self.piece_refusal(piece, count);
        if refused != refusal::NONE {
            return refused;
        }
        let bytes = [&self.waiting[..self.bytes_in_use()], piece].concat();
        // A byte in part does not fill its block.
        let full = (self.in_use() + count) / msize(self.mode, self.bits);
        let block = self.family().block;
        let (blocks, rest) = bytes.split_at(full as usize * block);
        let taken = self.taken + count;
        let chaining = self.after(blocks.chunks(block), taken);
        self.keep_chaining(&chaining);
        self.taken = taken;
        self.waiting = BLANK.waiting;
        self.waiting[..rest.len()].copy_from_slice(rest);
        refusal::NONE
    }

    fn piece_refusal(&self, piece: &[u8], count: u64) -> u8 {
        if !self.is_session() {
            refusal::SESSION
        } else if count > BIT_LIMIT - self.taken {
            refusal::MESSAGE
        } else if piece.len() as u64 != count.div_ceil(8) {
            refusal::SHAPE
        } else if count > 0 && !self.taken.is_multiple_of(8) {
            refusal::PART_BYTE
        } else if !bits::zero_behind(piece, count) {
            refusal::SET_BITS
        } else {
            refusal::NONE
        }
    }

    /// The digest of the message so far, into the first bits / 8 bytes of `out`;
    /// those behind them stay. A refusal writes nothing. Refusals 3, 5.
    pub fn read(&self, out: &mut [u8]) -> u8 {
        if !self.is_session() {
            return refusal::SESSION;
        }
        let size = self.bits as usize / 8;
        if out.len() < size {
            return refusal::ROOM;
        }
        let mut left = bits::of_bytes(&self.waiting, self.in_use());
        left.extend(padding(self.mode, self.bits, self.taken));
        let left = bits::to_bytes(&left);
        let chaining = self.after(left.chunks(self.family().block), self.taken);
        out[..size].copy_from_slice(&chaining[..size]);
        refusal::NONE
    }

    /// The chaining value behind further blocks, the next ones of a message that
    /// has `length` bits with them.
    fn after<'a>(&self, blocks: impl Iterator<Item = &'a [u8]>, length: u64) -> Vec<u8> {
        let mut value = self.chaining[..self.family().chaining].to_vec();
        let first = self.taken / msize(self.mode, self.bits);
        for (index, block) in (first..).zip(blocks) {
            let counter = counter(self.mode, self.bits, length, index);
            compress(self.mode, &mut value, block, counter.into(), &self.salt);
        }
        value
    }

    fn keep_chaining(&mut self, value: &[u8]) {
        self.chaining[..value.len()].copy_from_slice(value);
    }

    /// How many bits of the waiting block are in use. A block is compressed as soon
    /// as it is full, so never all of them.
    fn in_use(&self) -> u64 {
        self.taken % msize(self.mode, self.bits)
    }

    /// How many bytes hold those bits.
    fn bytes_in_use(&self) -> usize {
        self.in_use().div_ceil(8) as usize
    }

    fn family(&self) -> &'static Family {
        family::of_bits(self.mode, self.bits)
    }
}

#[cfg(test)]
mod tests;
