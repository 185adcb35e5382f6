//! What a record counts: bytes, as the older tasks do, or bits, as `plain` does.

use plain::session::Session;

/// A session that counts bytes, in bits. Where the number would not hold them it is the
/// highest one, which is over the limit as well.
pub fn in_bits(session: &Session) -> Session {
    Session {
        taken: session.taken.saturating_mul(8),
        ..session.clone()
    }
}

/// A session that counts bits and has whole bytes, in bytes.
pub fn in_bytes(session: &Session) -> Session {
    assert!(session.taken.is_multiple_of(8), "a part of a byte");
    Session {
        taken: session.taken / 8,
        ..session.clone()
    }
}
