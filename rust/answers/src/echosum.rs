//! Files of the program `echosum`: a run over files, one of them missing, and
//! standard input.

use crate::file::File;
use plain::mode::Mode::DoublePipe;
use plain::{digest, hex};

/// The digest length that counts, the last one given.
const BITS: u64 = 512;

/// Digits of both cases.
const SALT: &str = "000102030405060708090A0b0c0D0e0f";

/// The words of the run. Behind `--` the word `-b` is a file.
const WORDS: [&str; 14] = [
    "-b", "256", "empty", "missing", "-s", SALT, "text", "-b", "512", "block", "blocks", "--",
    "-b", "-",
];

/// The program's words and inputs, and the output it has to give.
pub fn files() -> Vec<File> {
    let mut files = inputs();
    let output: String = files.iter().map(line).collect();
    files.push(File {
        path: "crates/echosum/args",
        bytes: (WORDS.join("\n") + "\n").into(),
    });
    files.push(File {
        path: "crates/echosum/stdout",
        bytes: output.into(),
    });
    files
}

/// What is read, in order: files that are empty, short, one block long and over
/// one block, and a standard input that takes the program two reads.
fn inputs() -> Vec<File> {
    let input = |path, length| File {
        path,
        bytes: message(length),
    };
    vec![
        input("crates/echosum/data/empty", 0),
        input("crates/echosum/data/text", 3),
        input("crates/echosum/data/block", 128),
        input("crates/echosum/data/blocks", 192),
        input("crates/echosum/data/-b", 1),
        input("crates/echosum/stdin", 65_537),
    ]
}

/// Lines of 63 letters, each a letter on from the one before.
fn message(length: usize) -> Vec<u8> {
    (0..length)
        .map(|i| match i % 64 {
            63 => b'\n',
            column => b'a' + ((column + i / 64) % 26) as u8,
        })
        .collect()
}

/// The digest in hex, two spaces and the name.
fn line(input: &File) -> String {
    let salt = hex::decode(SALT).try_into().expect("sixteen bytes");
    let digest = digest::digest(DoublePipe, BITS, &salt, &input.bytes);
    format!("{}  {}\n", hex::encode(&digest), name(input))
}

/// The name that the program is given.
fn name(input: &File) -> &str {
    match input.path.strip_prefix("crates/echosum/data/") {
        Some(name) => name,
        None => "-",
    }
}

#[cfg(test)]
mod tests {
    use super::*;

    #[test]
    fn each_input_is_a_word_and_a_line() {
        let files = files();
        let output = files.last().expect("the output").bytes.clone();
        let output = String::from_utf8(output).unwrap();
        let mut words = WORDS.iter();
        for (input, line) in inputs().iter().zip(output.lines()) {
            assert!(words.any(|word| *word == name(input)));
            assert_eq!(line.len(), 128 + 2 + name(input).len());
        }
        assert_eq!(output.lines().count(), inputs().len());
    }
}
