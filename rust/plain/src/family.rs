//! The families of digest lengths and their sizes, two in each mode: the paper's
//! sections 2 and 5.

use crate::mode::Mode;

/// Sizes that a mode and a digest length decide.
#[derive(Debug, PartialEq, Eq)]
pub struct Family {
    /// Bytes of the chaining value: CSIZE / 8.
    pub chaining: usize,
    /// Bytes of a message block: MSIZE / 8. Chaining value and block fill the square.
    pub block: usize,
    /// Rounds in a compression.
    pub rounds: u64,
}

/// Digests of up to 256 bits: the paper's section 3.
pub const SHORT: Family = Family {
    chaining: 64,
    block: 192,
    rounds: 8,
};

/// Digests of 257 bits and more: the paper's section 4.
pub const LONG: Family = Family {
    chaining: 128,
    block: 128,
    rounds: 10,
};

/// Digests of up to 256 bits in single-pipe: the paper's section 5.1.
pub const SINGLE_SHORT: Family = Family {
    chaining: 32,
    block: 224,
    rounds: 8,
};

/// Digests of 257 bits and more in single-pipe: the paper's section 5.2. The sizes
/// are those of [`SHORT`], and the rounds are not.
pub const SINGLE_LONG: Family = Family {
    chaining: 64,
    block: 192,
    rounds: 10,
};

/// The families of a mode: that of the shorter digests, and the other.
pub fn of_mode(mode: Mode) -> [&'static Family; 2] {
    match mode {
        Mode::DoublePipe => [&SHORT, &LONG],
        Mode::SinglePipe => [&SINGLE_SHORT, &SINGLE_LONG],
    }
}

/// Whether a digest may have this many bits: a multiple of 8 from 128 to 512.
pub fn admitted(bits: u64) -> bool {
    (128..=512).contains(&bits) && bits.is_multiple_of(8)
}

/// The family of a digest length. Panics unless the length is [`admitted`].
pub fn of_bits(mode: Mode, bits: u64) -> &'static Family {
    assert!(admitted(bits), "no digest has {bits} bits");
    let [short, long] = of_mode(mode);
    if bits <= 256 {
        short
    } else {
        long
    }
}

/// The family of a mode with these sizes of chaining value and block, if there is
/// one.
pub fn of_sizes(mode: Mode, chaining: usize, block: usize) -> Option<&'static Family> {
    of_mode(mode)
        .into_iter()
        .find(|family| family.chaining == chaining && family.block == block)
}

#[cfg(test)]
mod tests {
    use super::*;
    use crate::mode::MODES;

    #[test]
    fn lengths_at_the_edges() {
        for mode in MODES {
            let [short, long] = of_mode(mode);
            for bits in [128, 136, 224, 256] {
                assert_eq!(of_bits(mode, bits), short);
            }
            for bits in [264, 384, 504, 512] {
                assert_eq!(of_bits(mode, bits), long);
            }
        }
        for bits in [0, 8, 120, 127, 129, 257, 511, 513, 520, u64::MAX] {
            assert!(!admitted(bits));
        }
    }

    #[test]
    fn sizes_fill_the_square() {
        for mode in MODES {
            for family in of_mode(mode) {
                assert_eq!(family.chaining + family.block, 256);
                let found = of_sizes(mode, family.chaining, family.block);
                assert_eq!(found, Some(family));
            }
            assert_eq!(of_sizes(mode, 192, 64), None);
        }
    }

    #[test]
    fn a_chaining_value_holds_the_longest_digest_and_in_double_pipe_two() {
        for (mode, digests) in [(Mode::DoublePipe, 2), (Mode::SinglePipe, 1)] {
            for bits in [256, 512] {
                let chaining = of_bits(mode, bits).chaining as u64;
                assert_eq!(8 * chaining, digests * bits);
            }
        }
    }

    /// 64 and 192 fit both modes, with another number of rounds; all other sizes
    /// fit one of them.
    #[test]
    fn sizes_of_one_mode_in_the_other() {
        let rounds =
            |mode, chaining, block| of_sizes(mode, chaining, block).map(|family| family.rounds);
        for (chaining, block, double, single) in [
            (64, 192, Some(8), Some(10)),
            (128, 128, Some(10), None),
            (32, 224, None, Some(8)),
        ] {
            assert_eq!(rounds(Mode::DoublePipe, chaining, block), double);
            assert_eq!(rounds(Mode::SinglePipe, chaining, block), single);
        }
    }
}
