//! The present library beside an earlier build of it, which `build.rs` links where it
//! is asked for: the same message by both, in turns, and the rounds backward, which no
//! digest takes.

use crate::contender::{rounds, Contender, CONTENDERS, LIBRARY, SALT};
use crate::message::{self, Kind};
use crate::timing::Times;

/// What is digested, in bytes.
const SIZES: [usize; 3] = [4 << 10, 64 << 10, 1 << 20];

extern "C" {
    fn before_digest(
        bits: u64,
        salt: *const u8,
        salt_len: usize,
        message: *const u8,
        message_len: usize,
        out: *mut u8,
        out_len: usize,
    ) -> u8;

    fn before_rounds_back(
        square: *mut u8,
        square_len: usize,
        rounds: u64,
        counter: u64,
        salt: *const u8,
        salt_len: usize,
    ) -> u8;
}

const BEFORE: Contender = Contender {
    digest: |bits, message, out| {
        // SAFETY: each pointer comes with its slice's length, and `out` is a `&mut`.
        let refusal = unsafe {
            before_digest(
                bits,
                SALT.as_ptr(),
                SALT.len(),
                message.as_ptr(),
                message.len(),
                out.as_mut_ptr(),
                out.len(),
            )
        };
        refusal == 0
    },
};

/// The rounds backward of one square, by the present library and by the earlier one.
const BACKWARD: [Contender; 2] = [
    Contender {
        digest: |bits, _, out| {
            backward(out, |square| {
                bahmorist::rounds_back(square, rounds(bits), 0, &SALT).is_ok()
            })
        },
    },
    Contender {
        digest: |bits, _, out| {
            backward(out, |square| {
                let (place, size) = (square.as_mut_ptr(), square.len());
                // SAFETY: each pointer comes with its length, and the square is a
                // `&mut`.
                let refusal = unsafe {
                    before_rounds_back(place, size, rounds(bits), 0, SALT.as_ptr(), SALT.len())
                };
                refusal == 0
            })
        },
    },
];

fn backward(out: &mut [u8; 64], undo: impl Fn(&mut [u8; 256]) -> bool) -> bool {
    let mut square = [out[0]; 256];
    let done = undo(&mut square);
    out.copy_from_slice(&square[..64]);
    done
}

/// Lines on a digest length: the time of the present library over the earlier one's.
pub fn lines(bits: u64) -> Vec<String> {
    let digests = SIZES.map(|size| {
        let message = message::bytes(size, Kind::Random);
        assert!(BEFORE.agrees(bits, &message), "a digest that is refused");
        let ratio = ratio([&CONTENDERS[LIBRARY], &BEFORE], bits, &message);
        format!("the library over its earlier build, {bits} bits, {size} bytes: {ratio:.3}")
    });
    let ratio = ratio(BACKWARD.each_ref(), bits, &[]);
    let count = rounds(bits);
    let back = format!("the same of {count} rounds backward: {ratio:.3}");
    digests.into_iter().chain([back]).collect()
}

fn ratio(contenders: [&Contender; 2], bits: u64, message: &[u8]) -> f64 {
    let times = Times::of(&contenders, bits, message);
    times.ratio(0, 1).expect("both were timed")
}
