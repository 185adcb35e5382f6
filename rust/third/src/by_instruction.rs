//! The question whether the processor has the instruction, and the way in.

use crate::processor::{load, load_all, present, store};
use crate::square::Counter;
use crate::{message, processor, square, Mode, Word};

pub fn round(word: Word, key: Word) -> Option<Word> {
    // SAFETY: the instruction is there.
    present().then(|| store(unsafe { processor::round(load(word), load(key)) }))
}

pub fn rounds(square: &mut [u8; 256], count: u64, counter: u128, salt: &Word) -> bool {
    if !present() {
        return false;
    }
    let (words, counter, salt) = (load_all(square), halves(counter), load(*salt));
    // SAFETY: the instruction is there.
    let finished = unsafe { square::rounds::<true>(words, count, counter, salt) };
    for (bytes, word) in square.chunks_exact_mut(16).zip(finished) {
        bytes.copy_from_slice(&store(word));
    }
    true
}

pub fn compress(mode: Mode, chaining: &mut [u8], block: &[u8], counter: u128, salt: &Word) -> bool {
    if !present() {
        return false;
    }
    let (counter, salt) = (halves(counter), *salt);
    // SAFETY, for all four: the instruction is there.
    match (mode, chaining.len()) {
        (Mode::SinglePipe, 32) => unsafe {
            message::compress_bytes::<2>(chaining, block, 8, counter, salt)
        },
        (Mode::SinglePipe, _) => unsafe {
            message::compress_bytes::<4>(chaining, block, 10, counter, salt)
        },
        (Mode::DoublePipe, 64) => unsafe {
            message::compress_bytes::<4>(chaining, block, 8, counter, salt)
        },
        (Mode::DoublePipe, _) => unsafe {
            message::compress_bytes::<8>(chaining, block, 10, counter, salt)
        },
    }
    true
}

fn halves(counter: u128) -> Counter {
    Counter {
        low: counter as u64,
        high: (counter >> 64) as u64,
    }
}

pub fn digest(
    mode: Mode,
    bits: u64,
    salt: &Word,
    message: &[u8],
    message_bits: u64,
) -> Option<Vec<u8>> {
    // SAFETY: the instruction is there.
    present().then(|| unsafe { message::digest(mode, bits, *salt, message, message_bits) })
}
