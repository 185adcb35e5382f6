//! Cases that are refused for what is handed over with a session, and for that and the
//! session, in every combination, where the lowest number has to win.

use super::super::forged::{forged_bits, Lengths};
use super::super::record::{Case, Task};
use super::in_family;
use plain::refusal::BIT_LIMIT;
use plain::session::Session;
use seeded::Generator;

pub fn cases(generator: &mut Generator, lengths: &Lengths) -> Vec<Case> {
    let mut cases = every_set(generator, lengths);
    cases.extend(every_set_of_bytes(generator, lengths));
    cases.extend(by_one(generator, lengths));
    cases.extend(other_bytes(generator, lengths));
    cases.extend(set_bits(generator, lengths));
    cases.extend(too_little_room(generator, lengths));
    cases
}

/// Every set of the numbers 3, 4, 6, 16 and 17, the empty one among them: a piece of
/// eleven bits, which two bytes hold.
pub fn every_set(generator: &mut Generator, lengths: &Lengths) -> Vec<Case> {
    let mut cases = Vec::new();
    for set in 0..32 {
        let [none, long, bytes, part, set_bits] = [1, 2, 4, 8, 16].map(|bit| set & bit != 0);
        let session = session(generator, lengths, set, none, long, part);
        let mut case = Case::piece(generator, 11, session);
        if bytes {
            // One more, which is zero.
            (case.length, case.room[2]) = (3, 0);
        }
        if set_bits {
            let place = generator.below(5);
            case.room[1] |= 1 << place;
        }
        cases.push(case);
    }
    cases
}

/// Every set of the numbers 3, 4 and 16, with whole bytes.
pub fn every_set_of_bytes(generator: &mut Generator, lengths: &Lengths) -> Vec<Case> {
    let mut cases = Vec::new();
    for set in 0..8 {
        let [none, long, part] = [1, 2, 4].map(|bit| set & bit != 0);
        let session = session(generator, lengths, set, none, long, part);
        cases.push(Case::in_bits(generator, Task::Add, 2, session));
    }
    cases
}

/// A record that is none or a session, from which two bytes lead over the limit or not,
/// and which ends within a byte or not.
fn session(
    generator: &mut Generator,
    lengths: &Lengths,
    turn: usize,
    none: bool,
    long: bool,
    part: bool,
) -> Session {
    let taken = match (long, part) {
        (true, true) => BIT_LIMIT - 2,
        (true, false) => BIT_LIMIT - 7,
        (false, true) => 1003,
        (false, false) => 1000,
    };
    let mut session = in_family(generator, lengths, turn, taken);
    if none {
        // The last bit of the room, which no session has a use for.
        session.waiting[223] |= 1;
    }
    session
}

/// Number 4 by one bit and by as many as there are, and what is one bit less: that is
/// done, or refused by 6 where no piece is so long.
fn by_one(generator: &mut Generator, lengths: &Lengths) -> Vec<Case> {
    let pieces = [
        (BIT_LIMIT - 7, 7, 1),
        (BIT_LIMIT - 7, 8, 1),
        (BIT_LIMIT - 15, 15, 2),
        (BIT_LIMIT - 15, 16, 2),
        (BIT_LIMIT, 1, 1),
        (0, BIT_LIMIT, 5),
        (0, BIT_LIMIT + 1, 5),
        (8, BIT_LIMIT - 8, 0),
        (8, BIT_LIMIT - 7, 0),
        (8, u64::MAX, 255),
        (BIT_LIMIT - 7, u64::MAX, 255),
        // The sum would be 0 where it went over.
        (BIT_LIMIT - 7, 168, 21),
    ];
    let mut cases = Vec::new();
    for (taken, count, length) in pieces {
        let session = in_family(generator, lengths, cases.len(), taken);
        cases.push(with_count(generator, session, count, length));
    }
    cases
}

/// Number 6 alone: one byte more than hold the bits, all zero, and one less.
fn other_bytes(generator: &mut Generator, lengths: &Lengths) -> Vec<Case> {
    let pieces = [
        (0, 1),
        (1, 0),
        (1, 2),
        (8, 0),
        (8, 2),
        (9, 1),
        (9, 3),
        (2040, 254),
    ];
    let mut cases = Vec::new();
    for (count, length) in pieces {
        let session = in_family(generator, lengths, cases.len(), 40);
        let mut case = with_count(generator, session, count, length);
        case.room[count as usize / 8..].fill(0);
        cases.push(case);
    }
    cases
}

/// Number 17 alone, by each bit of a part of a byte that is not in use, alone and with
/// others.
fn set_bits(generator: &mut Generator, lengths: &Lengths) -> Vec<Case> {
    let mut cases = Vec::new();
    for part in 1..8 {
        for place in part..8 {
            let session = in_family(generator, lengths, cases.len(), 40);
            let mut case = Case::piece(generator, 16 + part, session);
            case.room[2] |= 0x80 >> place;
            cases.push(case);
        }
        let session = in_family(generator, lengths, cases.len(), 0);
        let mut case = Case::piece(generator, part, session);
        case.room[0] = 0xff;
        cases.push(case);
    }
    cases
}

/// Number 5, and with number 3: a part of a byte makes no difference.
fn too_little_room(generator: &mut Generator, lengths: &Lengths) -> Vec<Case> {
    let bits = lengths.bits[1];
    let mut cases = Vec::new();
    for (taken, room) in [(43, 0), (BIT_LIMIT, bits / 8 - 1)] {
        let session = forged_bits(generator, lengths.mode, bits, taken);
        let mut none = session.clone();
        none.waiting[223] |= 1;
        for session in [session, none] {
            let case = Case::in_bits(generator, Task::Read, room as u8, session);
            cases.push(case);
        }
    }
    cases
}

/// A piece with any bit count, of so many bytes.
fn with_count(generator: &mut Generator, session: Session, count: u64, length: u8) -> Case {
    let mut case = Case::in_bits(generator, Task::AddBits, length, session);
    case.in_bits = Some(count);
    if let Some(last) = usize::from(length).checked_sub(1) {
        case.room[last] &= 0xff << (count.wrapping_neg() % 8);
    }
    case
}
