//! Single-pipe beside double-pipe: the same message by both, in turns.

use crate::contender::{Contender, SALT};
use crate::message::{self, Kind};
use crate::timing::Times;
use bahmorist::Mode::{DoublePipe, SinglePipe};
use plain::mode::Mode;

/// What is digested.
const SIZE: usize = 64 << 10;

/// Places of the two modes, by the library and by `plain`.
const LIBRARY: [usize; 2] = [0, 1];
const PLAIN: [usize; 2] = [2, 3];

/// The library and `plain` in double-pipe and in single-pipe.
const CONTENDERS: [Contender; 4] = [
    Contender {
        digest: |bits, message, out| {
            bahmorist::digest_in(DoublePipe, bits, &SALT, message, out).is_ok()
        },
    },
    Contender {
        digest: |bits, message, out| {
            bahmorist::digest_in(SinglePipe, bits, &SALT, message, out).is_ok()
        },
    },
    Contender {
        digest: |bits, message, out| by_plain(Mode::DoublePipe, bits, message, out),
    },
    Contender {
        digest: |bits, message, out| by_plain(Mode::SinglePipe, bits, message, out),
    },
];

fn by_plain(mode: Mode, bits: u64, message: &[u8], out: &mut [u8; 64]) -> bool {
    plain::checked::digest_in(mode.number(), bits, &SALT, message, out) == 0
}

/// A line on a digest length: the time of single-pipe over that of double-pipe.
pub fn line(bits: u64) -> String {
    let message = message::bytes(SIZE, Kind::Random);
    let digests = CONTENDERS.each_ref().map(|contender| {
        let mut out = [0; 64];
        assert!((contender.digest)(bits, &message, &mut out));
        out
    });
    assert_eq!(digests[..2], digests[2..], "two digests of one message");
    let times = Times::of(&CONTENDERS.each_ref(), bits, &message);
    let ratio = |[double, single]: [usize; 2]| {
        let ratio = times.ratio(single, double);
        ratio.expect("both were timed")
    };
    format!(
        "single-pipe over double-pipe, {bits} bits, {SIZE} bytes: {:.2} by the library and {:.2} by plain, where the paper expects {:.2}",
        ratio(LIBRARY),
        ratio(PLAIN),
        expected(bits)
    )
}

/// The paper's factors, 0.86 and 0.67: a block takes as many rounds in both modes,
/// and has more bytes in single-pipe.
fn expected(bits: u64) -> f64 {
    if bits <= 256 {
        192.0 / 224.0
    } else {
        128.0 / 192.0
    }
}

#[cfg(test)]
mod tests {
    use super::*;

    #[test]
    fn what_the_paper_expects() {
        let shown = [256, 512].map(|bits| format!("{:.2}", expected(bits)));
        assert_eq!(shown, ["0.86", "0.67"]);
    }
}
