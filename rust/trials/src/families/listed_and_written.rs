//! Tables through `list_table` and what it prints through `write_table`, with a pipe
//! between the two: each comes back byte for byte. A table that is refused comes to a bad
//! first line.

use crate::case::shown;
use crate::family::{Family, Run};
use crate::program::By;
use crate::table;
use std::io::Write;
use std::process::{Output, Stdio};
use std::thread;

pub const FAMILY: Family = Family {
    name: "tables through the lister and the writer, byte for byte",
    run,
};

/// Without the processor that the programs are made for each run takes far longer.
const USUAL: usize = if cfg!(target_arch = "x86_64") {
    10_000
} else {
    300
};

/// One table in so many is of any sort, and may be refused.
const ANY: u64 = 8;

fn run(run: &mut Run) -> Result<(), String> {
    let mut left = run.cases(USUAL);
    while left > 0 {
        let batch = left.min(100);
        let tables: Vec<Vec<u8>> = (0..batch).map(|_| some(run)).collect();
        check_all(&tables)?;
        run.count(batch);
        left -= batch;
    }
    Ok(())
}

/// A valid table, of every length up to the longest; one time in a few any.
fn some(run: &mut Run) -> Vec<u8> {
    let generator = &mut run.generator;
    match generator.below(ANY) {
        0 => table::some(generator),
        1 => {
            let length = 8 + generator.below(table::LIMIT as u64 - 7) as usize;
            table::of_length(generator, length)
        }
        _ => {
            let length = generator.below(200) as usize;
            table::records(generator, length)
        }
    }
}

/// All tables, as many at a time as there are processors.
fn check_all(tables: &[Vec<u8>]) -> Result<(), String> {
    let workers = thread::available_parallelism().map_or(1, usize::from);
    let share = tables.len().div_ceil(workers).max(1);
    thread::scope(|scope| {
        let workers: Vec<_> = tables
            .chunks(share)
            .map(|tables| scope.spawn(|| tables.iter().try_for_each(|table| check(table))))
            .collect();
        workers
            .into_iter()
            .try_for_each(|worker| worker.join().expect("a worker that comes back"))
    })
}

fn check(table: &[u8]) -> Result<(), String> {
    let ran = through(table).map_err(|error| error.to_string())?;
    let right = match plain::table::read(table) {
        Ok(_) => table,
        Err(_) => b"bad line 1\n",
    };
    let said = String::from_utf8_lossy(&ran.stderr);
    if ran.stdout == right && said.is_empty() {
        return Ok(());
    }
    let (table, printed) = (shown(table), shown(&ran.stdout));
    Err(format!("table {table}: back {printed}, and said {said:?}"))
}

/// What comes of a table: a listing is less than a pipe holds, as a table is, so that
/// nothing waits.
fn through(table: &[u8]) -> std::io::Result<Output> {
    let mut lister = By::Processor
        .command("list_table")
        .stdin(Stdio::piped())
        .stdout(Stdio::piped())
        .spawn()?;
    let listing = lister.stdout.take().expect("a pipe for standard output");
    let writer = By::Processor
        .command("write_table")
        .stdin(listing)
        .stdout(Stdio::piped())
        .stderr(Stdio::piped())
        .spawn()?;
    let mut pipe = lister.stdin.take().expect("a pipe for standard input");
    pipe.write_all(table)?;
    drop(pipe);
    lister.wait()?;
    writer.wait_with_output()
}
