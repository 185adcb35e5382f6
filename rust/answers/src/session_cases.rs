//! Cases of the program `session_cases`: sessions of both modes that need not come
//! from an opening, nor be sessions at all, opened, added to, read and asked about, in
//! bytes and in bits.

pub mod forged;
mod in_bits;
mod in_both_modes;
mod near_sessions;
mod no_sessions;
pub mod record;
mod refused;
#[cfg(test)]
mod tests;
pub mod units;

use crate::file::File;
use forged::{forged, in_family, last_edge, Lengths, FAMILIES};
use plain::mode::Mode::DoublePipe;
use plain::refusal::MESSAGE_LIMIT;
use plain::session::{Session, BLANK};
use record::{Case, Task};
use seeded::Generator;

/// The program's input and the output it has to give.
pub fn files() -> Vec<File> {
    let cases = cases();
    vec![
        File {
            path: "crates/session_cases/stdin",
            bytes: cases.iter().flat_map(Case::record).collect(),
        },
        File {
            path: "crates/session_cases/stdout",
            bytes: cases.iter().map(Case::line).collect::<String>().into(),
        },
    ]
}

fn cases() -> Vec<Case> {
    let mut generator = Generator::new(5);
    let mut cases = Vec::new();
    for lengths in FAMILIES {
        cases.extend(from_an_opening(&mut generator, &lengths));
        cases.extend(to_the_limit(&mut generator, &lengths));
        cases.extend(readings(&mut generator, &lengths));
        cases.extend(additions(&mut generator, &lengths));
    }
    cases.extend(bare(&mut generator));
    cases.extend(no_sessions::cases(&mut generator));
    cases.extend(refused::cases(&mut generator, DoublePipe));
    cases.extend(in_both_modes::cases(&mut Generator::new(9)));
    cases.extend(in_bits::cases(&mut Generator::new(13)));
    cases
}

/// A session from its opening, over two pieces, each with a reading behind it.
fn from_an_opening(generator: &mut Generator, lengths: &Lengths) -> Vec<Case> {
    let bits = lengths.bits[4];
    let any = forged(generator, lengths.mode, bits, 7);
    let mut cases = vec![Case::new(generator, Task::Open, 16, any)];
    for piece in [lengths.block as u8 - 3, 25] {
        follow(generator, &mut cases, Task::Add, piece);
        follow(generator, &mut cases, Task::Read, (bits / 8) as u8);
    }
    cases
}

/// A session that no opening made, over the last block's end to the longest
/// message, and a reading of that.
fn to_the_limit(generator: &mut Generator, lengths: &Lengths) -> Vec<Case> {
    let bits = lengths.bits[2];
    let before = forged(generator, lengths.mode, bits, MESSAGE_LIMIT - 110);
    let mut cases = vec![Case::new(generator, Task::Add, 110, before)];
    follow(generator, &mut cases, Task::Read, (bits / 8) as u8);
    cases
}

/// One more case, on the session that the last one hands back.
fn follow(generator: &mut Generator, cases: &mut Vec<Case>, task: Task, length: u8) {
    let session = cases.last().expect("a case before").answer().session;
    cases.push(Case::new(generator, task, length, session));
}

/// Readings where the padding needs one block more or not, at a block's end,
/// where the bit count is four bytes long and one longer, and up to the limit.
fn readings(generator: &mut Generator, lengths: &Lengths) -> Vec<Case> {
    let b = lengths.block;
    let end = last_edge(b);
    let near = [0, 1, b - 19, b - 18, b - 1, b, b + 1];
    let far = [(1 << 29) - 1, 1 << 29, generator.below(end)];
    let last = [end - 19, end - 18, end - 1, end, MESSAGE_LIMIT];
    let mut cases = Vec::new();
    for taken in near.into_iter().chain(far).chain(last) {
        let session = in_family(generator, lengths, cases.len(), taken);
        let more = [0, 1, 7, 0, 64][cases.len() % 5];
        let room = (session.bits / 8) as u8 + more;
        cases.push(Case::new(generator, Task::Read, room, session));
    }
    cases
}

/// Pieces that are empty, stay within a block, fill one or two, go over one edge
/// or two, and reach the limit.
fn additions(generator: &mut Generator, lengths: &Lengths) -> Vec<Case> {
    let b = lengths.block;
    let end = last_edge(b);
    let pieces = [
        (5, 0),
        (end, 0),
        (MESSAGE_LIMIT, 0),
        (0, 1),
        (0, b),
        (0, b + 1),
        (3, b - 4),
        (3, b - 3),
        (b - 1, 1),
        (b - 1, b + 1),
        (2 * b - 1, b + 2),
        ((1 << 29) - 2, b),
        (generator.below(end), generator.below(256)),
        (end - 1, 1),
        (end - b - 1, b + 2),
        (MESSAGE_LIMIT - 3, 3),
    ];
    let mut cases = Vec::new();
    for (taken, piece) in pieces {
        let session = in_family(generator, lengths, cases.len(), taken);
        cases.push(Case::new(generator, Task::Add, piece as u8, session));
    }
    cases
}

/// Sessions with a single byte that is not zero, or none, and the digest length.
fn bare(generator: &mut Generator) -> Vec<Case> {
    let bare = |bits, taken| Session {
        bits,
        taken,
        ..BLANK
    };
    let mut sessions = vec![bare(128, 0), bare(256, MESSAGE_LIMIT), bare(512, 0)];
    for place in [64, 127] {
        let mut session = bare(264, 0);
        session.chaining[place] = 1;
        sessions.push(session);
    }
    let mut session = bare(256, 191);
    session.waiting[190] = 0x80;
    sessions.push(session);
    sessions
        .into_iter()
        .map(|session| Case::new(generator, Task::IsSession, 0, session))
        .collect()
}
