//! Rounds forward through both paths of the library, by the program `echo_cases`:
//! by tables, which the C face takes too, and byte by byte, which it does not.

use crate::case::{Case, Outcome, Routine};
use crate::draw;
use crate::family::{Family, Run};
use crate::implementation::PLAIN;
use crate::program::{at_once, By, Job};
use plain::hex;

pub const FAMILY: Family = Family {
    name: "rounds through both paths",
    run,
};

const USUAL: usize = 400;

/// How many cases a run of the program takes: what it prints for them is less
/// than a pipe holds.
pub const TOGETHER: usize = 20;

/// The kinds of record: rounds, and rounds byte by byte.
const KINDS: [u8; 2] = [1, 4];

fn run(run: &mut Run) -> Result<(), String> {
    let bounds = draw::COUNTERS.map(|counter| [(8, counter), (10, counter)]);
    let mut starts = bounds.concat();
    for _ in 0..run.cases(USUAL) {
        let counter = draw::counter(&mut run.generator);
        starts.push((run.generator.pick(&[8, 10]), counter));
    }
    for starts in starts.chunks(TOGETHER) {
        let (mut input, mut output) = (Vec::new(), String::new());
        for &(count, counter) in starts {
            let case = draw::on_square(&mut run.generator, Routine::Rounds { count, counter });
            for kind in KINDS {
                input.extend(record(kind, count, counter.into(), &case));
                output.push_str(&line(&case));
            }
        }
        job(input, output).check()?;
        run.count(starts.len());
    }
    Ok(())
}

/// A run of the program on records.
pub fn job(input: Vec<u8>, output: String) -> Job {
    Job {
        name: "echo_cases",
        words: Vec::new(),
        folder: None,
        pieces: at_once(input),
        output: output.into(),
        said: String::new(),
        by: By::Run,
    }
}

/// A record of the program for a square: what it has no use for is zero. From kind
/// 6 on the counter has an upper half, which stands at the end.
pub fn record(kind: u8, count: u64, counter: u128, case: &Case) -> Vec<u8> {
    let (low, upper) = (counter as u64, (counter >> 64) as u64);
    let mut record = vec![kind, 16, count as u8, 0, 1, 0, 0];
    record.extend(low.to_le_bytes());
    record.extend(&case.salt);
    record.extend([0; 2]);
    record.extend(&case.lent);
    record.resize(545, 0);
    if kind >= 6 {
        record.extend(upper.to_le_bytes());
    }
    record
}

/// The line that a record has to give: the refusal number and the whole room.
pub fn line(case: &Case) -> String {
    let Outcome {
        number, mut lent, ..
    } = case.outcome(&PLAIN);
    lent.resize(272, 0);
    format!("{number} {}\n", hex::encode(&lent))
}
