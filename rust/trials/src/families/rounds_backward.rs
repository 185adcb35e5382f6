//! Rounds backward, at the bounds of the counter and at random.

use super::rounds_forward::each_start;
use crate::case::Routine;
use crate::draw;
use crate::family::{Family, Run};

pub const FAMILY: Family = Family {
    name: "rounds backward",
    run,
};

const USUAL: usize = 2_000;

fn run(run: &mut Run) -> Result<(), String> {
    each_start(run, USUAL, |run, count, counter| {
        let routine = Routine::RoundsBack { count, counter };
        let case = draw::on_square(&mut run.generator, routine);
        run.check(&case)
    })
}
