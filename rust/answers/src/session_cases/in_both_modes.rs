//! Cases in both modes, whose lines tell the mode and all of the waiting room.

use super::forged::{families, forged, Lengths};
use super::near_sessions;
use super::record::{Case, Task};
use super::{additions, from_an_opening, readings, refused, to_the_limit};
use plain::family::{self, Family};
use plain::mode::Mode::{self, DoublePipe, SinglePipe};
use plain::mode::MODES;
use plain::refusal::MESSAGE_LIMIT;
use plain::session::{Session, BLANK};
use seeded::Generator;

pub fn cases(generator: &mut Generator) -> Vec<Case> {
    let mut cases = Vec::new();
    for mode in MODES {
        for lengths in families(mode) {
            cases.extend(openings(generator, &lengths));
            cases.extend(from_an_opening(generator, &lengths));
            cases.extend(to_the_limit(generator, &lengths));
            cases.extend(readings(generator, &lengths));
            cases.extend(additions(generator, &lengths));
        }
        cases.extend(bare(generator, mode));
        cases.extend(near_sessions::cases(generator, mode));
        cases.extend(refused::cases(generator, mode));
    }
    cases.extend(in_the_other_mode(generator));
    for case in &mut cases {
        case.with_mode = true;
    }
    cases
}

/// Openings of a family that are done, out of sessions that hold something else.
fn openings(generator: &mut Generator, lengths: &Lengths) -> Vec<Case> {
    let Lengths { mode, bits, .. } = *lengths;
    bits.map(|bits| {
        let session = forged(generator, mode, bits, 77);
        Case::new(generator, Task::Open, 16, session)
    })
    .into()
}

/// Sessions with a single byte that is not zero, the last one in use of its room,
/// and those with none.
fn bare(generator: &mut Generator, mode: Mode) -> Vec<Case> {
    let mut sessions = Vec::new();
    for bits in [128, 256, 264, 512] {
        let Family {
            chaining, block, ..
        } = *family::of_bits(mode, bits);
        let bare = |taken| Session {
            mode,
            bits,
            taken,
            ..BLANK
        };
        let (mut chained, mut waits) = (bare(0), bare(block as u64 - 1));
        chained.chaining[chaining - 1] = 0x80;
        waits.waiting[block - 2] = 1;
        sessions.extend([bare(MESSAGE_LIMIT), chained, waits]);
    }
    sessions
        .into_iter()
        .map(|session| Case::new(generator, Task::IsSession, 0, session))
        .collect()
}

/// Sessions of one mode that are handed over as some of the other. There the
/// chaining value of the first two is too long, the next two have fewer waiting
/// bytes than are set, and the last two are sessions as well.
fn in_the_other_mode(generator: &mut Generator) -> Vec<Case> {
    let sessions = [
        (DoublePipe, 256, 5),
        (DoublePipe, 512, 5),
        (SinglePipe, 256, 200),
        (SinglePipe, 512, 150),
        (SinglePipe, 256, 5),
        (SinglePipe, 512, 100),
    ];
    let mut cases = Vec::new();
    for (mode, bits, taken) in sessions {
        let other = match mode {
            DoublePipe => SinglePipe,
            SinglePipe => DoublePipe,
        };
        let session = Session {
            mode: other,
            ..forged(generator, mode, bits, taken)
        };
        for (task, length) in [(Task::IsSession, 0), (Task::Add, 230), (Task::Read, 70)] {
            cases.push(Case::new(generator, task, length, session.clone()));
        }
    }
    cases
}
