//! Rounds both ways from counters of 128 bits through the program `echo_cases`:
//! wherever the counter goes over into its upper half or to 0, and at random.

use super::both_paths::{job, line, record, TOGETHER};
use crate::case::Routine;
use crate::draw;
use crate::family::{Family, Run};

pub const FAMILY: Family = Family {
    name: "counters of 128 bits through the program",
    run,
};

const USUAL: usize = 100;

/// The kinds of record: wide rounds, and wide rounds backward.
const KINDS: [u8; 2] = [6, 7];

fn run(run: &mut Run) -> Result<(), String> {
    let mut starts: Vec<u128> = draw::wide_starts().collect();
    for _ in 0..run.cases(USUAL) {
        starts.push(draw::wide_counter(&mut run.generator));
    }
    for starts in starts.chunks(TOGETHER) {
        let (mut input, mut output) = (Vec::new(), String::new());
        for &counter in starts {
            let count = run.generator.pick(&[8, 10]);
            let forward = Routine::RoundsWide { count, counter };
            let backward = Routine::RoundsBackWide { count, counter };
            for (kind, routine) in KINDS.into_iter().zip([forward, backward]) {
                let case = draw::on_square(&mut run.generator, routine);
                input.extend(record(kind, count, counter, &case));
                output.push_str(&line(&case));
            }
        }
        job(input, output).check()?;
        run.count(starts.len());
    }
    Ok(())
}
