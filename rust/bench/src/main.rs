//! Times digests by the proved library, by `plain`, by `tables` and by the
//! processor's AES instruction, on the same inputs in one run, and measures the
//! stack that a digest of the library takes. Single-pipe is timed beside
//! double-pipe, a counter of 128 bits beside one of 64, and an earlier build of the
//! library beside the present one where there is one; these are not judged. Exits
//! with 1 where the library is slower than it may be.

#[cfg(before)]
mod before;
mod contender;
mod judgement;
mod message;
mod pipes;
mod stack;
mod timing;
mod widths;

use contender::{block_bytes, Contender, CONTENDERS, INSTRUCTION, LIBRARY, PLAIN, ROUNDS, TABLES};
use judgement::Row;
use message::{Kind, MESSAGES};
use std::process::ExitCode;
use timing::Times;

const BITS: [u64; 2] = [256, 512];

fn main() -> ExitCode {
    println!("ns for each byte of the message, and the library's time over that of each other:");
    println!();
    println!("bits    bytes kind     |  library    plain   tables AES instruction | to plain to tables to AES");
    let mut rows = Vec::new();
    for bits in BITS {
        for (size, kind) in MESSAGES {
            rows.push(row(bits, size, kind));
        }
    }
    println!();
    for bits in BITS {
        let time = Times::of(&[&ROUNDS], bits, &[]).nanoseconds(0);
        let time = time.expect("it was timed") / block_bytes(bits) as f64;
        println!("rounds of the library alone, {bits} bits: {time:.2} ns for each byte of a block");
    }
    for bits in BITS {
        println!("{}", pipes::line(bits));
    }
    for bits in BITS {
        println!("{}", widths::line(bits));
    }
    #[cfg(before)]
    for line in BITS.into_iter().flat_map(before::lines) {
        println!("{line}");
    }
    for bits in BITS {
        match stack::of_digest(bits, &[0; 4096]) {
            Some(bytes) => println!("stack of a digest of {bits} bits: {bytes} bytes"),
            None => println!("stack of a digest of {bits} bits: not measured on this processor"),
        }
    }
    println!("{}", judgement::largest(&rows));
    let faults: Vec<String> = rows.iter().filter_map(Row::fault).collect();
    if faults.is_empty() {
        return ExitCode::SUCCESS;
    }
    for fault in faults {
        eprintln!("{fault}");
    }
    eprintln!("nothing is broken by that: every digest was the right one, and only speed is not what it should be");
    ExitCode::FAILURE
}

/// Prints the times of all that the machine has.
fn row(bits: u64, size: usize, kind: Kind) -> Row {
    let message = message::bytes(size, kind);
    let present: Vec<&Contender> = CONTENDERS
        .iter()
        .filter(|contender| contender.agrees(bits, &message))
        .collect();
    let times = Times::of(&present, bits, &message);
    let time = |place| cell(times.nanoseconds(place).map(|time| time / size as f64));
    let ratio = |place| times.ratio(LIBRARY, place);
    println!(
        "{bits:4} {size:8} {kind:8} | {:>8} {:>8} {:>8} {:>15} | {:>8} {:>9} {:>6}",
        time(LIBRARY),
        time(PLAIN),
        time(TABLES),
        time(INSTRUCTION),
        cell(ratio(PLAIN)),
        cell(ratio(TABLES)),
        cell(ratio(INSTRUCTION))
    );
    Row {
        bits,
        size,
        kind,
        to_plain: ratio(PLAIN).expect("plain runs everywhere"),
        to_tables: ratio(TABLES).expect("tables runs everywhere"),
    }
}

fn cell(number: Option<f64>) -> String {
    number.map_or("none".into(), |number| format!("{number:.2}"))
}
