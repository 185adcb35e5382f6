//! Sessions that no opening made.

use plain::family;
use plain::mode::Mode;
use plain::refusal::{BIT_LIMIT, MESSAGE_LIMIT};
use plain::session::{Session, BLANK};
use seeded::Generator;

/// Digest lengths of a family.
pub struct Lengths {
    pub mode: Mode,
    /// Bytes of a block.
    pub block: u64,
    /// Some of them, with the shortest and the longest.
    pub bits: [u64; 6],
}

/// Those of double-pipe.
pub const FAMILIES: [Lengths; 2] = [
    Lengths {
        mode: Mode::DoublePipe,
        block: 192,
        bits: [128, 256, 224, 136, 160, 248],
    },
    Lengths {
        mode: Mode::DoublePipe,
        block: 128,
        bits: [264, 512, 384, 272, 448, 504],
    },
];

const SINGLE_PIPE: [Lengths; 2] = [
    Lengths {
        mode: Mode::SinglePipe,
        block: 224,
        bits: [128, 256, 224, 136, 160, 248],
    },
    Lengths {
        mode: Mode::SinglePipe,
        block: 192,
        bits: [264, 512, 384, 272, 448, 504],
    },
];

/// The families of a mode.
pub fn families(mode: Mode) -> [Lengths; 2] {
    match mode {
        Mode::DoublePipe => FAMILIES,
        Mode::SinglePipe => SINGLE_PIPE,
    }
}

/// The last end of a block that a message may reach.
pub fn last_edge(block: u64) -> u64 {
    MESSAGE_LIMIT - MESSAGE_LIMIT % block
}

/// The same in bits.
pub fn last_edge_in_bits(block: u64) -> u64 {
    BIT_LIMIT - BIT_LIMIT % (8 * block)
}

/// A session with these numbers, in bytes, and everything else from the generator, but
/// for the room that is not in use.
pub fn forged(generator: &mut Generator, mode: Mode, bits: u64, taken: u64) -> Session {
    let family = family::of_bits(mode, bits);
    let mut session = Session {
        mode,
        bits,
        salt: generator.bytes(),
        chaining: generator.bytes(),
        taken,
        ..BLANK
    };
    // As many as the longest block of the mode has, whatever is in use.
    let waiting = generator.vector(family::of_mode(mode)[0].block);
    let in_use = (taken % family.block as u64) as usize;
    session.waiting[..in_use].copy_from_slice(&waiting[..in_use]);
    session.chaining[family.chaining..].fill(0);
    session
}

/// A session that counts bits, likewise.
pub fn forged_bits(generator: &mut Generator, mode: Mode, bits: u64, taken: u64) -> Session {
    let mut session = forged(generator, mode, bits, taken.div_ceil(8));
    let in_use = taken % (8 * family::of_bits(mode, bits).block as u64);
    if !in_use.is_multiple_of(8) {
        // Where the byte is the last of its block, none of those is in use in bytes.
        let whole = in_use as usize / 8;
        let waiting = generator.vector(whole + 1);
        session.waiting[..=whole].copy_from_slice(&waiting);
        session.waiting[whole] &= !(0xff >> (in_use % 8));
    }
    session.taken = taken;
    session
}

/// A session of a family, whose digest lengths come in turn.
pub fn in_family(generator: &mut Generator, lengths: &Lengths, turn: usize, taken: u64) -> Session {
    let bits = lengths.bits[turn % lengths.bits.len()];
    forged(generator, lengths.mode, bits, taken)
}

/// A session with something changed.
pub fn changed(
    generator: &mut Generator,
    mode: Mode,
    bits: u64,
    taken: u64,
    change: impl FnOnce(&mut Session),
) -> Session {
    let mut session = forged(generator, mode, bits, taken);
    change(&mut session);
    session
}
