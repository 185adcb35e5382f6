//! A compression from a counter of 128 bits beside one of 64: the same block by both,
//! in turns.

use crate::contender::{block_bytes, Contender, SALT};
use crate::message::{self, Kind};
use crate::timing::Times;
use bahmorist::Mode::DoublePipe;
use bahmorist::Refusal;

/// Counters of the two widths; the second has an upper half.
const NARROW: u64 = 1536;
const WIDE: u128 = 5 << 64 | 1536;

/// The same with a counter of 64 bits and with one of 128. The message is the block.
const CONTENDERS: [Contender; 2] = [
    Contender {
        digest: |_, block, out| {
            compressed(block, out, |chaining| {
                bahmorist::compress_in(DoublePipe, chaining, block, NARROW, &SALT)
            })
        },
    },
    Contender {
        digest: |_, block, out| {
            compressed(block, out, |chaining| {
                bahmorist::compress_wide(DoublePipe, chaining, block, WIDE, &SALT)
            })
        },
    },
];

/// Takes a block into the chaining value that leaves as much of the square to it.
fn compressed(
    block: &[u8],
    out: &mut [u8; 64],
    compress: impl Fn(&mut [u8]) -> Result<(), Refusal>,
) -> bool {
    let mut room = [out[0]; 256];
    let done = compress(&mut room[..256 - block.len()]).is_ok();
    out.copy_from_slice(&room[..64]);
    done
}

/// A line on a digest length: the time of the wide compression over that of the
/// other.
pub fn line(bits: u64) -> String {
    let block = message::bytes(block_bytes(bits), Kind::Random);
    for contender in &CONTENDERS {
        assert!((contender.digest)(bits, &block, &mut [0; 64]), "a block");
    }
    let times = Times::of(&CONTENDERS.each_ref(), bits, &block);
    let ratio = times.ratio(1, 0).expect("both were timed");
    format!("a counter of 128 bits over one of 64, {bits} bits, one block: {ratio:.2}")
}
