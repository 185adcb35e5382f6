//! Tables of every sort read at every place and counted, by the wrapper and by the C
//! functions.

use super::null_pointers::WITH_NULL;
use crate::case::{Case, Routine};
use crate::family::{Family, Run};
use crate::table;

pub const FAMILY: Family = Family {
    name: "tables read at every place, and counted",
    run,
};

const USUAL: usize = 400;

/// Places past the end of every table, with the bits of one that is within.
const FAR: [u64; 7] = [
    5_000,
    1 << 16,
    1 << 32,
    (1 << 32) + 3,
    1 << 63,
    u64::MAX - 1,
    u64::MAX,
];

fn run(run: &mut Run) -> Result<(), String> {
    let subject = run.subject;
    for _ in 0..run.cases(USUAL) {
        let table = table::some(&mut run.generator);
        for by in [subject, WITH_NULL] {
            run.subject = by;
            run.check(&over(Routine::Count, &table))?;
            let end = table.len() as u64;
            for place in (0..=end + 1).chain(FAR) {
                run.check(&over(Routine::ReadAt { place }, &table))?;
            }
        }
    }
    Ok(())
}

/// A routine over a table.
fn over(routine: Routine, table: &[u8]) -> Case {
    Case {
        routine,
        salt: vec![],
        key: vec![],
        input: table.to_vec(),
        lent: vec![],
    }
}
