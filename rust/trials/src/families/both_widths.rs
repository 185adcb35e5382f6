//! One counter of 64 bits by the functions that take so many and by those that take
//! 128: the same comes of both, or the first refuses it by 7 and the second does not.
//! This holds of the implementation under trial by itself, whatever the references
//! say.

use super::there_and_back::call;
use crate::case::{Case, Routine};
use crate::draw;
use crate::expected::HIGHEST_COUNTER;
use crate::family::{Family, Run};

pub const FAMILY: Family = Family {
    name: "counters of 64 bits by the functions of both widths",
    run,
};

const USUAL: usize = 500;

fn run(run: &mut Run) -> Result<(), String> {
    let refused = HIGHEST_COUNTER + 1..=u64::MAX;
    for counter in draw::COUNTERS.into_iter().chain(refused) {
        each_routine(run, counter)?;
    }
    for _ in 0..run.cases(USUAL) {
        let counter = draw::counter(&mut run.generator);
        each_routine(run, counter)?;
    }
    Ok(())
}

fn each_routine(run: &mut Run, counter: u64) -> Result<(), String> {
    for count in [8, 10] {
        for routine in [
            Routine::Rounds { count, counter },
            Routine::RoundsBack { count, counter },
        ] {
            let case = draw::on_square(&mut run.generator, routine);
            both(run, counter, &case)?;
        }
    }
    for (routine, words) in draw::compressions(counter) {
        let case = draw::compression(&mut run.generator, routine, words);
        both(run, counter, &case)?;
    }
    Ok(())
}

fn both(run: &mut Run, counter: u64, case: &Case) -> Result<(), String> {
    let wide = Case {
        routine: widened(case.routine),
        ..case.clone()
    };
    let (outcome, wide_outcome) = (call(run, case)?, call(run, &wide)?);
    let (number, wide_number) = (outcome.number, wide_outcome.number);
    if counter > HIGHEST_COUNTER {
        if (number, wide_number) != (7, 0) {
            return Err(format!(
                "{case}: {number}, and wide {wide_number}, where 7 and 0 are right"
            ));
        }
    } else if let Some(difference) = wide_outcome.difference(&outcome) {
        return Err(format!("{wide}: {difference} of 64 bits"));
    }
    run.count(1);
    Ok(())
}

/// The routine that does the same from a counter of 128 bits.
fn widened(routine: Routine) -> Routine {
    match routine {
        Routine::Rounds { count, counter } => Routine::RoundsWide {
            count,
            counter: counter.into(),
        },
        Routine::RoundsBack { count, counter } => Routine::RoundsBackWide {
            count,
            counter: counter.into(),
        },
        Routine::Compress { counter } => Routine::CompressWide {
            mode: 0,
            counter: counter.into(),
        },
        Routine::CompressIn { mode, counter } => Routine::CompressWide {
            mode,
            counter: counter.into(),
        },
        other => other,
    }
}
