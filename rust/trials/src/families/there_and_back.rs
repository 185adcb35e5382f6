//! Rounds forward and then backward, and backward and then forward: each gives
//! the square again. This holds of the implementation under trial by itself,
//! whatever the references say.

use super::rounds_forward::each_start;
use super::wide_rounds::each_wide_start;
use crate::case::{Case, Outcome, Routine};
use crate::draw;
use crate::family::{Family, Run};

pub const FAMILY: Family = Family {
    name: "squares there and back, both ways",
    run,
};

const USUAL: usize = 1_000;

fn run(run: &mut Run) -> Result<(), String> {
    each_start(run, USUAL, |run, count, counter| {
        let forward = Routine::Rounds { count, counter };
        let backward = Routine::RoundsBack { count, counter };
        there_and_back(run, forward, backward)?;
        there_and_back(run, backward, forward)
    })?;
    each_wide_start(run, USUAL, |run, count, counter| {
        let forward = Routine::RoundsWide { count, counter };
        let backward = Routine::RoundsBackWide { count, counter };
        there_and_back(run, forward, backward)?;
        there_and_back(run, backward, forward)
    })
}

fn there_and_back(run: &mut Run, there: Routine, back: Routine) -> Result<(), String> {
    let case = draw::on_square(&mut run.generator, there);
    let on_the_way = call(run, &case)?;
    let back = Case {
        routine: back,
        lent: on_the_way.lent,
        ..case.clone()
    };
    let at_the_end = call(run, &back)?;
    let right = Outcome {
        number: 0,
        place: 0,
        told: 0,
        yes: 0,
        lent: case.lent.clone(),
    };
    match at_the_end.difference(&right) {
        None => {
            run.count(1);
            Ok(())
        }
        Some(difference) => Err(format!("{case}, and back: {difference}")),
    }
}

/// What comes of a case by the implementation under trial.
pub fn call(run: &mut Run, case: &Case) -> Result<Outcome, String> {
    case.guarded_outcome(&run.subject, &mut run.generator)
        .map_err(|wrong| format!("{case}: {wrong}"))
}
