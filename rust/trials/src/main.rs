//! `trials [--seed N] [--cases N]`: tries every family of cases, prints how many
//! agree, and stops at the first that doesn't, with status 1. Without arguments
//! it takes seconds; N random cases in each family may take as long as one likes.

#![forbid(unsafe_code)]

use std::process::ExitCode;
use trials::arguments::{self, Arguments};
use trials::families;
use trials::implementation::LIBRARY;

fn main() -> ExitCode {
    let words: Vec<String> = std::env::args().skip(1).collect();
    let words: Vec<&str> = words.iter().map(String::as_str).collect();
    match arguments::read(&words) {
        Some(arguments) => run(&arguments),
        None => {
            eprintln!("usage: trials [--seed N] [--cases N]");
            ExitCode::from(2)
        }
    }
}

fn run(&Arguments { seed, cases }: &Arguments) -> ExitCode {
    for family in families::ALL {
        let name = family.name;
        match family.tried(LIBRARY, seed, cases) {
            Ok(agreed) => println!("{name}: {agreed} agree"),
            Err(wrong) => {
                eprintln!("seed {seed}: {name}: {wrong}");
                return ExitCode::FAILURE;
            }
        }
    }
    ExitCode::SUCCESS
}
