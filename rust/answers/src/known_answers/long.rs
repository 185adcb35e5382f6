//! Long messages, each a text so many times: in the form of the published ones, and
//! much shorter, since nothing of them is published here.

use super::{upper, FOUR, NOT_PUBLISHED};
use plain::digest;
use plain::mode::Mode::DoublePipe;

const HEADER: &str = "\
# ECHO 2.0, double-pipe: digests under the all-zero salt of a text so many times.
#
# The form is that of the submission's file of one very long message, whose Repeat is 16777216. None of these is published.
";

const TEXT: &str = "abcdefghbcdefghicdefghijdefghijkefghijklfghijklmghijklmnhijklmno";
const TIMES: usize = 1_000;

pub fn file() -> String {
    let parts = FOUR.map(part);
    HEADER.to_string() + &parts.concat()
}

fn part(bits: u64) -> String {
    let digest = digest::digest(DoublePipe, bits, &[0; 16], TEXT.repeat(TIMES).as_bytes());
    let digest = upper(&digest);
    format!("\n# {NOT_PUBLISHED}\nRepeat = {TIMES}\nText = {TEXT}\nMD = {digest}\n")
}
