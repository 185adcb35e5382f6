//! Inputs of up to 70,000 bytes through the programs, in pieces of random sizes
//! with pauses in between: a program reads on until it has what it needs.

use super::echosum_words::{line, NAME};
use super::program_tables::salted;
use crate::draw;
use crate::family::{Family, Run};
use crate::program::{check_each, By, Job, Piece, FINGERPRINT, LIST};
use crate::table;
use plain::hex;
use plain::mode::{Mode, MODES};
use seeded::Generator;

pub const FAMILY: Family = Family {
    name: "inputs in pieces through the three programs",
    run,
};

const USUAL: usize = 30;

/// The most bytes of an input.
const MOST: u64 = 70_000;

/// The most pieces of an input, so that single bytes don't take too long.
const PIECES: usize = 300;

fn run(run: &mut Run) -> Result<(), String> {
    let cases = run.cases(USUAL);
    let generator = &mut run.generator;
    let agreed = check_each(cases, || {
        let table = some_length(generator);
        let input = salted(generator, &table);
        let listed = pieces(generator, &table);
        let fingerprinted = pieces(generator, &input);
        vec![
            Job::of_table(LIST, listed),
            Job::of_table(FINGERPRINT, fingerprinted),
            summed(generator),
        ]
    })?;
    run.count(agreed);
    Ok(())
}

/// A digest of what comes on standard input, in either mode.
fn summed(generator: &mut Generator) -> Job {
    let mode = generator.pick(&MODES);
    let bits = 128 + 8 * generator.below(49);
    let salt = draw::salt(generator);
    let length = 1 + generator.below(MOST) as usize;
    let message = generator.vector(length);
    let words = ["-b", &bits.to_string(), "-s", &hex::encode(&salt)];
    let mut words = words.map(String::from).to_vec();
    if mode == Mode::SinglePipe {
        // Before each of the flags, or behind them.
        words.insert(generator.pick(&[0, 2, 4]), "-1".into());
    }
    Job {
        name: NAME,
        words,
        folder: None,
        pieces: pieces(generator, &message),
        output: line(mode, bits, &salt, &message, "-").into(),
        said: String::new(),
        by: By::Run,
    }
}

/// A table, or records up to any length: within the limit two times in three.
fn some_length(generator: &mut Generator) -> Vec<u8> {
    let most = match generator.below(3) {
        0 => return table::some(generator),
        1 => 5_000,
        _ => MOST,
    };
    let length = 1 + generator.below(most) as usize;
    let mut input = table::records(generator, length);
    input.truncate(length);
    input
}

/// The input cut into pieces of up to some size.
fn pieces(generator: &mut Generator, input: &[u8]) -> Vec<Piece> {
    let most = generator.pick(&[1, 7, 100, 1_000, 4_096, 66_000]);
    let most = most.max(2 * input.len() / PIECES) as u64;
    let mut pieces = Vec::new();
    let mut rest = input;
    while !rest.is_empty() {
        let size = 1 + generator.below(most) as usize;
        let (bytes, behind) = rest.split_at(size.min(rest.len()));
        pieces.push(Piece {
            bytes: bytes.to_vec(),
            pause: generator.below(16) == 0,
        });
        rest = behind;
    }
    pieces
}

#[cfg(test)]
mod tests {
    use super::*;

    #[test]
    fn the_pieces_are_the_input() {
        let mut generator = Generator::new(1);
        for _ in 0..50 {
            let input = some_length(&mut generator);
            let pieces = pieces(&mut generator, &input);
            assert!(pieces.iter().all(|piece| !piece.bytes.is_empty()));
            let joined: Vec<u8> = pieces.into_iter().flat_map(|piece| piece.bytes).collect();
            assert_eq!(joined, input);
        }
    }
}
