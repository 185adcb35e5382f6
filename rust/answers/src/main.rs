//! Inputs of the gate's programs and the outputs they have to give, and a file of
//! known answers, from the plain implementation.
//!
//! `answers DIR` writes the files into the repository at DIR; `answers --check
//! DIR` prints each file there that differs, and exits with 1 if any does.

#![forbid(unsafe_code)]

mod digest_cases;
mod echo_cases;
mod echosum;
mod file;
mod known_answers;
mod patterned;
mod session_cases;
mod table_cases;
mod table_programs;
mod tag_cases;
mod writing_cases;

use file::File;
use std::path::Path;
use std::process::ExitCode;

/// All files. Each program's cases have a module of their own.
fn files() -> Vec<File> {
    [
        echo_cases::files(),
        digest_cases::files(),
        session_cases::files(),
        tag_cases::files(),
        table_programs::files(),
        table_cases::files(),
        writing_cases::files(),
        echosum::files(),
        known_answers::files(),
    ]
    .into_iter()
    .flatten()
    .collect()
}

fn main() -> ExitCode {
    let arguments: Vec<String> = std::env::args().skip(1).collect();
    let arguments: Vec<&str> = arguments.iter().map(String::as_str).collect();
    match arguments[..] {
        ["--check", dir] => check(Path::new(dir)),
        [dir] if !dir.starts_with('-') => write(Path::new(dir)),
        _ => {
            eprintln!("usage: answers DIR\n       answers --check DIR");
            ExitCode::from(2)
        }
    }
}

fn write(dir: &Path) -> ExitCode {
    for file in files() {
        if let Err(error) = file.write(dir) {
            eprintln!("{}: {error}", file.path);
            return ExitCode::from(2);
        }
    }
    ExitCode::SUCCESS
}

fn check(dir: &Path) -> ExitCode {
    let mut status = ExitCode::SUCCESS;
    for file in files() {
        if !file.agrees(dir) {
            println!("{}", file.path);
            status = ExitCode::FAILURE;
        }
    }
    status
}
