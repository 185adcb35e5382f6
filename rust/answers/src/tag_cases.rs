//! Cases of the program `tag_cases`: tags of whole messages under a key, and tag
//! sessions, from an opening or not and tag sessions or not, opened, added to,
//! read, asked about and checked, in bytes and in bits.

mod checks;
mod forged;
mod in_bits;
mod no_tag_sessions;
mod openings;
mod record;
mod refused;
#[cfg(test)]
mod tests;
mod units;
mod whole;
mod with_mode;

use crate::file::File;
use crate::session_cases::forged::{last_edge, Lengths, FAMILIES};
use checks::tag;
use forged::{forged, in_family};
use plain::family;
use plain::mode::Mode::DoublePipe;
use plain::refusal::MESSAGE_LIMIT;
use plain::tag_session::{TagSession, BLANK};
use record::{Case, Task};
use seeded::Generator;

/// The program's input and the output it has to give.
pub fn files() -> Vec<File> {
    let cases = cases();
    vec![
        File {
            path: "crates/tag_cases/stdin",
            bytes: cases.iter().flat_map(Case::record).collect(),
        },
        File {
            path: "crates/tag_cases/stdout",
            bytes: cases.iter().map(Case::line).collect::<String>().into(),
        },
    ]
}

fn cases() -> Vec<Case> {
    let mut generator = Generator::new(6);
    let mut cases = whole::cases(&mut generator);
    cases.extend(openings::cases(&mut generator));
    for lengths in FAMILIES {
        cases.extend(from_an_opening(&mut generator, &lengths));
        cases.extend(to_the_limit(&mut generator, &lengths));
        cases.extend(readings(&mut generator, &lengths));
        cases.extend(additions(&mut generator, &lengths));
    }
    cases.extend(bare(&mut generator));
    cases.extend(checks::cases(&mut generator));
    cases.extend(no_tag_sessions::cases(&mut generator));
    cases.extend(refused::cases(&mut generator));
    cases.extend(whole::every_piece(&mut generator));
    cases.extend(with_mode::cases(&mut Generator::new(10)));
    cases.extend(in_bits::cases(&mut Generator::new(14)));
    cases
}

/// A tag session from its opening: read without a message, then over two pieces,
/// with a check of the right tag between them, and of the one before.
fn from_an_opening(generator: &mut Generator, lengths: &Lengths) -> Vec<Case> {
    let bits = lengths.bits[4];
    let room = (bits / 8) as u8;
    let block = lengths.block as u16;
    let mut cases = vec![Case::keyed(generator, Task::Open, bits, block + 1)];
    let before = tag(&handed_back(&cases));
    follow(generator, &mut cases, Task::Read, room);
    follow(generator, &mut cases, Task::Add, block as u8 - 3);
    let session = handed_back(&cases);
    for tag in [tag(&session), before] {
        cases.push(Case::check(generator, session.clone(), &tag));
    }
    follow(generator, &mut cases, Task::Add, 25);
    follow(generator, &mut cases, Task::Read, room);
    follow(generator, &mut cases, Task::IsSession, 0);
    cases
}

/// A tag session that no opening made, over the last block's end to the longest
/// message, and a reading of that.
fn to_the_limit(generator: &mut Generator, lengths: &Lengths) -> Vec<Case> {
    let bits = lengths.bits[2];
    let before = forged(generator, bits, MESSAGE_LIMIT - 110);
    let mut cases = vec![Case::on(generator, Task::Add, 110, before)];
    follow(generator, &mut cases, Task::Read, (bits / 8) as u8);
    cases
}

/// One more case, on the tag session that the last one hands back.
fn follow(generator: &mut Generator, cases: &mut Vec<Case>, task: Task, length: u8) {
    let session = handed_back(cases);
    cases.push(Case::on(generator, task, length, session));
}

fn handed_back(cases: &[Case]) -> TagSession {
    cases.last().expect("a case before").answer().session
}

/// Readings where the inner padding needs one block more or not, at a block's
/// end, and near the limit.
fn readings(generator: &mut Generator, lengths: &Lengths) -> Vec<Case> {
    let b = lengths.block;
    let end = last_edge(b);
    let near = [b, b + 1, 2 * b - 19, 2 * b - 18, 2 * b - 1, 2 * b];
    let far = [b + generator.below(end - b), end - 19, end - 18, end];
    let mut cases = Vec::new();
    for taken in near.into_iter().chain(far) {
        let session = in_family(generator, lengths, cases.len(), taken);
        let more = [0, 1, 7, 0, 64][cases.len() % 5];
        let room = (session.inner.bits / 8) as u8 + more;
        cases.push(Case::on(generator, Task::Read, room, session));
    }
    cases
}

/// Pieces that are empty, stay within a block, fill one, and go over one edge or
/// two.
fn additions(generator: &mut Generator, lengths: &Lengths) -> Vec<Case> {
    let b = lengths.block;
    let end = last_edge(b);
    let pieces = [
        (b, 0),
        (MESSAGE_LIMIT, 0),
        (b, 1),
        (b, b),
        (b + 3, b - 3),
        (2 * b - 1, 1),
        (2 * b - 1, b + 2),
        (b + generator.below(end - b - 255), generator.below(256)),
        (end - 1, 1),
    ];
    let mut cases = Vec::new();
    for (taken, piece) in pieces {
        let session = in_family(generator, lengths, cases.len(), taken);
        cases.push(Case::on(generator, Task::Add, piece as u8, session));
    }
    cases
}

/// Tag sessions with a single byte that is not zero, or none, and the digest
/// length.
fn bare(generator: &mut Generator) -> Vec<Case> {
    let bare = |bits, taken| {
        let mut session = BLANK;
        session.inner.bits = bits;
        session.inner.taken = taken;
        session.outer.bits = bits;
        session.outer.taken = family::of_bits(DoublePipe, bits).block as u64;
        session
    };
    let mut sessions = vec![bare(128, 192), bare(256, MESSAGE_LIMIT), bare(512, 128)];
    for place in [64, 127] {
        let mut session = bare(264, 128);
        session.inner.chaining[place] = 1;
        session.outer.chaining[place] = 1;
        sessions.push(session);
    }
    sessions
        .into_iter()
        .map(|session| Case::on(generator, Task::IsSession, 0, session))
        .collect()
}
