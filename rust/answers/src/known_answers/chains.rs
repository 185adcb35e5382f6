//! Chains of digests, in the form of the published Monte Carlo files: a step digests
//! 128 bytes, and the digest followed by their front are the next ones. The
//! published chains are a hundred answers long, and these two.

use super::{upper, FOUR, NOT_PUBLISHED};
use plain::digest;
use plain::mode::Mode::DoublePipe;
use seeded::Generator;

const HEADER: &str = "\
# ECHO 2.0, double-pipe: chains of digests under the all-zero salt.
#
# The form is that of the submission's Monte Carlo files, with two answers of a hundred. None of these is published.
";

const SEED: usize = 128;
const STEPS: usize = 1_000;
const ANSWERS: usize = 2;

pub fn file() -> String {
    let mut generator = Generator::new(5);
    let parts = FOUR.map(|bits| part(bits, generator.vector(SEED)));
    HEADER.to_string() + &parts.concat()
}

fn part(bits: u64, seed: Vec<u8>) -> String {
    let mut text = format!("\n# {NOT_PUBLISHED}\nSeed = {}\n", upper(&seed));
    let mut message = seed;
    for j in 0..ANSWERS {
        let mut digest = Vec::new();
        for _ in 0..STEPS {
            digest = digest::digest(DoublePipe, bits, &[0; 16], &message);
            message = [&digest[..], &message[..SEED - digest.len()]].concat();
        }
        text += &format!("\nj = {j}\nMD = {}\n", upper(&digest));
    }
    text
}
