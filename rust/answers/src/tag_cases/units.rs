//! What the two sessions of a record count: bytes, as the older tasks do, or bits, as
//! `plain` does.

use crate::session_cases::units;
use plain::tag_session::TagSession;

/// A record that counts bytes, in bits.
pub fn in_bits(session: &TagSession) -> TagSession {
    TagSession {
        inner: units::in_bits(&session.inner),
        outer: units::in_bits(&session.outer),
    }
}

/// A record that counts bits and has whole bytes, in bytes.
pub fn in_bytes(session: &TagSession) -> TagSession {
    TagSession {
        inner: units::in_bytes(&session.inner),
        outer: units::in_bytes(&session.outer),
    }
}
