//! `known_answers FILE...`: computes every case of known-answer files with the
//! proved library, prints each that differs and the counts of each file, and
//! exits with 1 if any differs or a file is malformed, as one without a case is.

#![forbid(unsafe_code)]

use known_answers::report;
use std::io::{self, Write};
use std::process::ExitCode;
use std::{env, fs};

fn main() -> ExitCode {
    let names: Vec<String> = env::args().skip(1).collect();
    if names.is_empty() || names.iter().any(|name| name.starts_with('-')) {
        complain("usage: known_answers FILE...");
        return ExitCode::from(2);
    }
    let mut status = ExitCode::SUCCESS;
    for name in &names {
        match agrees(name) {
            Ok(true) => {}
            Ok(false) => status = ExitCode::FAILURE,
            // Nobody reads any more, as where the output goes to `head`, or
            // nothing can be written.
            Err(_) => return ExitCode::FAILURE,
        }
    }
    status
}

/// Prints what is to be said of a file. A byte that is no text can stand in a
/// comment, and is malformed anywhere else.
fn agrees(name: &str) -> io::Result<bool> {
    match fs::read(name) {
        Ok(bytes) => {
            let report = report::of(name, &String::from_utf8_lossy(&bytes));
            io::stdout().write_all(report.text.as_bytes())?;
            Ok(report.agrees)
        }
        Err(error) => {
            complain(&format!("{name}: {error}"));
            Ok(false)
        }
    }
}

/// Says a line on standard error. Where that is closed, there is nobody to tell.
fn complain(line: &str) {
    let _ = writeln!(io::stderr(), "{line}");
}
