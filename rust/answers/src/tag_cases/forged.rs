//! Tag sessions that no opening made.

use crate::session_cases::forged::{self, Lengths};
use plain::family;
use plain::mode::Mode::DoublePipe;
use plain::session::Session;
use plain::tag_session::TagSession;
use seeded::Generator;

/// What makes a tag session none.
pub type Change = fn(&mut TagSession);

/// A tag session with this digest length, and this many bytes in the inner
/// session. Everything else is from the generator, but for the room that is not
/// in use, and the outer session's number of bytes.
pub fn forged(generator: &mut Generator, bits: u64, taken: u64) -> TagSession {
    let block = family::of_bits(DoublePipe, bits).block as u64;
    with_outer(generator, bits, taken, block)
}

/// The same with any number of bytes in the outer session.
pub fn with_outer(generator: &mut Generator, bits: u64, inner: u64, outer: u64) -> TagSession {
    let inner = forged::forged(generator, DoublePipe, bits, inner);
    let outer = Session {
        salt: inner.salt,
        ..forged::forged(generator, DoublePipe, bits, outer)
    };
    TagSession { inner, outer }
}

/// A tag session of a family, whose digest lengths come in turn.
pub fn in_family(
    generator: &mut Generator,
    lengths: &Lengths,
    turn: usize,
    taken: u64,
) -> TagSession {
    forged(generator, lengths.bits[turn % lengths.bits.len()], taken)
}

/// A tag session with something changed.
pub fn changed(
    generator: &mut Generator,
    bits: u64,
    taken: u64,
    change: impl FnOnce(&mut TagSession),
) -> TagSession {
    let mut session = forged(generator, bits, taken);
    change(&mut session);
    session
}
