//! Tag sessions: a tag that is under way, as a record of two digest sessions
//! whose fields anyone may fill. From an opening the inner one is the key's block
//! and the message so far, and the outer one the key's other block. A tag session
//! that no opening made is answered by what its two sessions hold.

use crate::aes::Word;
use crate::family;
use crate::hmac::{key_blocks, KeyBlocks};
use crate::mode::Mode::DoublePipe;
use crate::padding::msize;
use crate::refusal::{self, MESSAGE_LIMIT};
use crate::session::{self, Session};

/// A record that may be a tag session.
#[derive(Debug, Clone, PartialEq, Eq)]
pub struct TagSession {
    /// Takes the message.
    pub inner: Session,
    /// Takes the inner digest, for each reading anew.
    pub outer: Session,
}

/// What a refused opening hands out, two blank sessions, which is no tag session.
pub const BLANK: TagSession = TagSession {
    inner: session::BLANK,
    outer: session::BLANK,
};

impl TagSession {
    /// A tag session without any message byte, and 0; or the blank one and the
    /// refusal number. Refusals 1, 2, 4.
    pub fn open(bits: u64, salt: &[u8], key: &[u8]) -> (u8, TagSession) {
        let refused = opening_refusal(bits, salt.len(), key.len() as u64);
        if refused != refusal::NONE {
            return (refused, BLANK);
        }
        let salt = Word::try_from(salt).expect("a salt of 16 bytes");
        let KeyBlocks { inner, outer } = key_blocks(bits, &salt, key);
        let session = TagSession {
            inner: begun(bits, &salt, &inner),
            outer: begun(bits, &salt, &outer),
        };
        (refusal::NONE, session)
    }

    /// Whether the record is a tag session: both are digest sessions in
    /// double-pipe of one digest length and one salt, the outer one has taken a
    /// block and no more, and the inner one a block at least, in whole bytes.
    pub fn is_session(&self) -> bool {
        let TagSession { inner, outer } = self;
        if !inner.is_session() || !outer.is_session() {
            return false;
        }
        let block = msize(DoublePipe, outer.bits);
        [inner.mode, outer.mode] == [DoublePipe; 2]
            && inner.bits == outer.bits
            && inner.salt == outer.salt
            && inner.taken >= block
            && inner.taken.is_multiple_of(8)
            && outer.taken == block
    }

    /// Joins a piece to the message. A refusal changes nothing. Refusals 3, 4,
    /// where the key's block counts as well.
    pub fn add(&mut self, piece: &[u8]) -> u8 {
        match self.is_session() {
            true => self.inner.add(piece),
            false => refusal::SESSION,
        }
    }

    /// The tag of the message so far, into the first bits / 8 bytes of `out`;
    /// those behind them stay. A refusal writes nothing. Refusals 3, 5.
    pub fn read(&self, out: &mut [u8]) -> u8 {
        if !self.is_session() {
            return refusal::SESSION;
        }
        let digest = read(&self.inner);
        let mut outer = self.outer.clone();
        assert_eq!(outer.add(&digest), refusal::NONE);
        outer.read(out)
    }

    /// Whether bytes are the tag of the message so far, all of it. Refusal 3,
    /// which says no.
    pub fn check(&self, tag: &[u8]) -> (u8, bool) {
        let mut room = [0; 64];
        match self.read(&mut room) {
            refusal::NONE => (refusal::NONE, *tag == room[..self.inner.bits as usize / 8]),
            number => (number, false),
        }
    }
}

/// The number that [`TagSession::open`] answers by the sizes alone, so that it
/// can be asked about keys that no memory holds.
pub fn opening_refusal(bits: u64, salt: usize, key: u64) -> u8 {
    if !family::admitted(bits) {
        refusal::DIGEST_LENGTH
    } else if salt != 16 {
        refusal::SALT
    } else if key > MESSAGE_LIMIT {
        refusal::MESSAGE
    } else {
        refusal::NONE
    }
}

/// A digest session that has taken a block.
fn begun(bits: u64, salt: &Word, block: &[u8]) -> Session {
    let (number, mut session) = Session::open(DoublePipe, bits, salt);
    assert_eq!([number, session.add(block)], [refusal::NONE; 2]);
    session
}

/// The digest of what a digest session has taken.
fn read(session: &Session) -> Vec<u8> {
    let mut digest = vec![0; session.bits as usize / 8];
    assert_eq!(session.read(&mut digest), refusal::NONE);
    digest
}

#[cfg(test)]
mod tests;
