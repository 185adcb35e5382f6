//! Tables through the two programs.

use crate::family::{Family, Run};
use crate::program::{at_once, check_each, Job, FINGERPRINT, LIST};
use crate::table;
use seeded::Generator;

pub const FAMILY: Family = Family {
    name: "tables through both programs",
    run,
};

const USUAL: usize = 150;

fn run(run: &mut Run) -> Result<(), String> {
    let cases = run.cases(USUAL);
    let generator = &mut run.generator;
    let agreed = check_each(cases, || {
        let table = table::some(generator);
        let input = salted(generator, &table);
        vec![
            Job::of_table(LIST, at_once(table)),
            Job::of_table(FINGERPRINT, at_once(input)),
        ]
    })?;
    run.count(agreed);
    Ok(())
}

/// Sixteen salt bytes and then a table; one time in sixteen too little for the
/// salt.
pub fn salted(generator: &mut Generator, table: &[u8]) -> Vec<u8> {
    let mut input = [&generator.vector(16), table].concat();
    if generator.below(16) == 0 {
        input.truncate(generator.below(17) as usize);
    }
    input
}
