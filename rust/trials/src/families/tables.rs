//! Fingerprints of tables of every sort: number, place, 32 bytes and the rest of
//! the room.

use crate::case::{Case, Routine};
use crate::draw;
use crate::family::{Family, Run};
use crate::table;

pub const FAMILY: Family = Family {
    name: "fingerprints of tables",
    run,
};

const USUAL: usize = 100_000;

fn run(run: &mut Run) -> Result<(), String> {
    for _ in 0..run.cases(USUAL) {
        let case = case(run);
        run.check(&case)?;
    }
    Ok(())
}

/// Salt and room are right but for one time in thirty-two each.
fn case(run: &mut Run) -> Case {
    let generator = &mut run.generator;
    let mut salt = draw::salt(generator);
    if generator.below(32) == 0 {
        salt.resize(generator.pick(&[0, 15, 17]), 0);
    }
    let room = match generator.below(32) {
        0 => generator.pick(&[0, 1, 31]),
        _ => generator.pick(&[32, 32, 33, 40]),
    };
    Case {
        routine: Routine::Fingerprint,
        salt,
        key: vec![],
        input: table::some(generator),
        lent: generator.vector(room),
    }
}
