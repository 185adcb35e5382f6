//! Which refusal a case has to be given, by the table of refusal numbers alone:
//! each number with its condition, the lowest that applies, and between 9 and 10
//! that of the record nearer the front.
//!
//! Three numbers never come up here: 3 and 16 are about sessions, and 12 is about an
//! address as a number, which have no way in through the C face. 4 comes up where a
//! message has a bit count, which may be far above what is lent; anywhere else it would
//! need a message or a key that no memory holds. The programs `session_cases` and
//! `tag_cases` are run on 3, 4 and 16.

use crate::case::{Case, Routine};

/// The most bits of a message: 2^64 - 161.
pub const MOST_BITS: u64 = 0u64.wrapping_sub(161);

/// The highest starting counter: 2^64 - 161.
pub const HIGHEST_COUNTER: u64 = 0u64.wrapping_sub(161);

/// The number and the place that have to be given.
pub fn answer(case: &Case) -> (u8, u64) {
    let refusals = refusals(case);
    refusals.first().copied().unwrap_or((0, behind(case)))
}

/// The place that has to be given where nothing is refused: behind the record that is
/// read or written, or the table's end; 0 where there is none.
fn behind(case: &Case) -> u64 {
    match case.routine {
        Routine::ReadAt { place } => match case.input.get(place as usize) {
            Some(kind) => place + 1 + body(*kind).unwrap_or(0) as u64,
            None => place,
        },
        Routine::WriteAt { place, .. } => place + 1 + case.input.len() as u64,
        _ => 0,
    }
}

/// Every refusal that applies and its place, the lowest number first.
pub fn refusals(case: &Case) -> Vec<(u8, u64)> {
    let (salt, input, lent) = (case.salt.len(), case.input.len(), case.lent.len());
    let bad_salt = (2, salt != 16);
    match case.routine {
        Routine::Digest { bits } | Routine::Hmac { bits } => {
            let room = (lent as u64) < bits / 8;
            holding([(1, !admitted(bits)), bad_salt, (5, room)])
        }
        Routine::DigestIn { mode, bits } => {
            let room = (lent as u64) < bits / 8;
            let mode = mode > 1;
            holding([(1, !admitted(bits)), bad_salt, (5, room), (6, mode)])
        }
        Routine::DigestBits {
            mode,
            bits,
            message_bits,
        } => {
            let room = (lent as u64) < bits / 8;
            let bytes = message_bits / 8 + u64::from(message_bits % 8 != 0);
            holding([
                (1, !admitted(bits)),
                bad_salt,
                (4, message_bits > MOST_BITS),
                (5, room),
                (6, mode > 1 || input as u64 != bytes),
                (17, set_behind(&case.input, message_bits)),
            ])
        }
        // A tag that is shorter than the right one is no room: it gets a no.
        Routine::HmacCheck { bits } => holding([(1, !admitted(bits)), bad_salt]),
        Routine::HmacVerify { bits } => {
            let wrong = is_wrong(bits, case);
            holding([(1, !admitted(bits)), bad_salt, (19, wrong)])
        }
        Routine::Same => Vec::new(),
        Routine::Rounds { count, counter } | Routine::RoundsBack { count, counter } => {
            let shape = lent == 256 && (count == 8 || count == 10);
            holding([bad_salt, (6, !shape), (7, counter > HIGHEST_COUNTER)])
        }
        Routine::Compress { counter } => {
            let shape = (lent, input) == (64, 192) || (lent, input) == (128, 128);
            holding([bad_salt, (6, !shape), (7, counter > HIGHEST_COUNTER)])
        }
        Routine::CompressIn { mode, counter } => {
            let shape = fits(mode, lent, input);
            holding([bad_salt, (6, !shape), (7, counter > HIGHEST_COUNTER)])
        }
        // Of 128 bits every counter is admitted.
        Routine::RoundsWide { count, .. } | Routine::RoundsBackWide { count, .. } => {
            let shape = lent == 256 && (count == 8 || count == 10);
            holding([bad_salt, (6, !shape)])
        }
        Routine::CompressWide { mode, .. } => {
            let shape = fits(mode, lent, input);
            holding([bad_salt, (6, !shape)])
        }
        Routine::Fingerprint => {
            let mut refusals = holding([bad_salt, (5, lent < 32), (8, input > 4096)]);
            refusals.extend(bad_record(&case.input));
            refusals
        }
        Routine::ReadAt { place } => {
            let past = place > input as u64;
            let mut refusals = holding([(6, past), (8, input > 4096)]);
            refusals.extend(bad_record_at(&case.input, place));
            refusals
        }
        Routine::Count => {
            let mut refusals = holding([(8, input > 4096)]);
            refusals.extend(bad_record(&case.input));
            refusals
        }
        Routine::WriteAt { place, kind } => {
            let end = u128::from(place) + 1 + input as u128;
            let other = body(kind).is_some_and(|body| body != input);
            let unknown = body(kind).is_none();
            holding([(5, end > lent as u128), (9, unknown), (10, other)])
        }
    }
}

/// Whether the bytes that are lent are not the tag. Without an admitted length and a
/// salt there is none.
fn is_wrong(bits: u64, case: &Case) -> bool {
    match <&[u8; 16]>::try_from(case.salt.as_slice()) {
        Ok(salt) if admitted(bits) => {
            case.lent != plain::hmac::hmac(bits, salt, &case.key, &case.input)
        }
        _ => true,
    }
}

fn admitted(bits: u64) -> bool {
    (128..=512).contains(&bits) && bits.is_multiple_of(8)
}

/// Whether a bit of these bytes is set that is not among the first so many, the most
/// significant one of a byte first.
fn set_behind(bytes: &[u8], first: u64) -> bool {
    (0u64..)
        .zip(bytes)
        .any(|(place, byte)| match first.saturating_sub(8 * place) {
            used @ 0..=7 => byte << used != 0,
            _ => false,
        })
}

/// Whether chaining value and block have sizes of a mode.
fn fits(mode: u8, chaining: usize, block: usize) -> bool {
    let sizes: &[(usize, usize)] = match mode {
        0 => &[(64, 192), (128, 128)],
        1 => &[(32, 224), (64, 192)],
        _ => &[],
    };
    sizes.contains(&(chaining, block))
}

/// The numbers whose conditions hold, at no place.
fn holding<const N: usize>(conditions: [(u8, bool); N]) -> Vec<(u8, u64)> {
    let holding = conditions.into_iter().filter(|(_, holds)| *holds);
    holding.map(|(number, _)| (number, 0)).collect()
}

/// 9 or 10 and the place, by the record nearest the front that is either of an
/// unknown kind or cut short.
fn bad_record(table: &[u8]) -> Option<(u8, u64)> {
    let mut place = 0;
    while place < table.len() {
        let bad = bad_record_at(table, place as u64);
        if bad.is_some() {
            return bad;
        }
        place += 1 + body(table[place])?;
    }
    None
}

/// The same of the record at a place alone; none where there is no such place.
fn bad_record_at(table: &[u8], place: u64) -> Option<(u8, u64)> {
    let from = table.get(place as usize..)?;
    let kind = from.first()?;
    match body(*kind) {
        None => Some((9, place)),
        Some(body) if from.len() - 1 < body => Some((10, place)),
        Some(_) => None,
    }
}

/// The bytes of a kind's body.
fn body(kind: u8) -> Option<usize> {
    match kind {
        1 => Some(6),
        2 | 3 => Some(2),
        4 => Some(4),
        5 => Some(32),
        _ => None,
    }
}

#[cfg(test)]
mod tests;
