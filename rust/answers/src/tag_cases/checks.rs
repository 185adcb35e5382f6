//! Checks of tags that are right, nearly so and not at all, on tag sessions that
//! no opening made.

use super::forged::forged;
use super::record::Case;
use super::units::in_bits;
use crate::session_cases::forged::{Lengths, FAMILIES};
use plain::tag_session::TagSession;
use seeded::Generator;

/// For each family, the right tag and nine that are none.
pub fn cases(generator: &mut Generator) -> Vec<Case> {
    let mut cases = Vec::new();
    for lengths in FAMILIES {
        cases.extend(of_one_session(generator, &lengths));
    }
    cases
}

fn of_one_session(generator: &mut Generator, lengths: &Lengths) -> Vec<Case> {
    let bits = lengths.bits[1];
    let session = forged(generator, bits, 2 * lengths.block - 18);
    let right = tag(&session);
    let last = right.len() - 1;
    let mut tags = vec![right.clone()];
    for (place, bit) in [(0, 0x01), (last / 2, 0x10), (last, 0x80)] {
        let mut wrong = right.clone();
        wrong[place] ^= bit;
        tags.push(wrong);
    }
    tags.push(right[..last].to_vec());
    tags.push([&right[..], &[0]].concat());
    tags.push([&right[..], &generator.vector(255 - right.len())].concat());
    tags.push(vec![]);
    // The next digest length that is shorter, of the same sessions.
    let mut other = session.clone();
    other.inner.bits -= 8;
    other.outer.bits -= 8;
    tags.push(tag(&other));
    tags.push(vec![0; right.len()]);
    tags.into_iter()
        .map(|tag| Case::check(generator, session.clone(), &tag))
        .collect()
}

/// The right tag, of a record that counts bytes.
pub fn tag(session: &TagSession) -> Vec<u8> {
    tag_in_bits(&in_bits(session))
}

/// The same of a record that counts bits.
pub fn tag_in_bits(session: &TagSession) -> Vec<u8> {
    let mut tag = vec![0; session.inner.bits as usize / 8];
    assert_eq!(session.read(&mut tag), 0);
    tag
}
