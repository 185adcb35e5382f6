//! Records written at a place of a room: every kind byte with bodies of many lengths,
//! every place of short rooms, and places far beyond; by the wrapper and by the C
//! functions.

use super::null_pointers::WITH_NULL;
use crate::case::{Case, Routine};
use crate::family::{Family, Run};
use crate::table::KINDS;
use seeded::Generator;

pub const FAMILY: Family = Family {
    name: "records written at every place",
    run,
};

const USUAL: usize = 5_000;

/// Lengths of a body: all up to one more than the longest, and one that has the right
/// length in its low byte.
const BODIES: u64 = 34;
const LONG_BODY: usize = 256 + 4;

/// The longest room whose every place is tried.
const ROOMS: usize = 40;

fn run(run: &mut Run) -> Result<(), String> {
    let subject = run.subject;
    for by in [subject, WITH_NULL] {
        run.subject = by;
        every_kind(run)?;
        every_place(run)?;
        for _ in 0..run.cases(USUAL) {
            let case = some(&mut run.generator);
            run.check(&case)?;
        }
    }
    Ok(())
}

/// Every kind byte with every length of a body, in a room that is long enough.
fn every_kind(run: &mut Run) -> Result<(), String> {
    for kind in 0..=255 {
        for body in (0..BODIES as usize).chain([LONG_BODY]) {
            let place = run.generator.below(4);
            let case = written(&mut run.generator, 300, place, kind, body);
            run.check(&case)?;
        }
    }
    Ok(())
}

/// A record of each kind at every place of short rooms and one beyond, and at places from
/// which it would end past 2^64.
fn every_place(run: &mut Run) -> Result<(), String> {
    for (kind, body) in KINDS {
        for room in 0..=ROOMS {
            let over = u64::MAX - body as u64;
            let far = [1 << 32, 1 << 63, over - 1, over, over + 1, u64::MAX];
            for place in (0..=room as u64 + 1).chain(far) {
                let case = written(&mut run.generator, room, place, kind, body);
                run.check(&case)?;
            }
        }
    }
    Ok(())
}

/// A writing of any sort; the body is right for the kind three times in four.
fn some(generator: &mut Generator) -> Case {
    let (kind, body) = generator.pick(&KINDS);
    let kind = match generator.below(8) {
        0 => generator.number() as u8,
        _ => kind,
    };
    let body = match generator.below(8) {
        0 => generator.below(BODIES) as usize,
        _ => body,
    };
    let most = generator.pick(&[50, 200, 4_200]);
    let room = generator.below(most) as usize;
    let place = match generator.below(8) {
        0 => {
            let shift = generator.below(64);
            generator.number() >> shift
        }
        1 => (room as u64).saturating_sub(body as u64) + generator.below(4),
        _ => generator.below(room as u64 + 1),
    };
    written(generator, room, place, kind, body)
}

/// A record written into a room of so many bytes.
fn written(generator: &mut Generator, room: usize, place: u64, kind: u8, body: usize) -> Case {
    Case {
        routine: Routine::WriteAt { place, kind },
        salt: vec![],
        key: vec![],
        input: generator.vector(body),
        lent: generator.vector(room),
    }
}
