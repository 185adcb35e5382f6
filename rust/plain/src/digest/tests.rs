use super::*;
use crate::hex;
use crate::mode::MODES;
use Mode::{DoublePipe, SinglePipe};

/// Published digests of the empty message under the all-zero salt, in double-pipe.
const PUBLISHED: [(u64, &str); 4] = [
    (
        224,
        "17da087595166f733fff7cdb0bca6438f303d0e00c48b5e7a3075905",
    ),
    (
        256,
        "4496cd09d425999aefa75189ee7fd3c97362aa9e4ca898328002d20a4b519788",
    ),
    (
        384,
        "134040763f840559b84b7a1ae5d6d64fc3659821a789cc64\
         a7f1444c09ee7f81a54d72beee8273bae5ef18ec43aa5f34",
    ),
    (
        512,
        "158f58cc79d300a9aa292515049275d051a28ab931726d0ec44bdd9faef4a702\
         c36db9e7922fff077402236465833c5cc76af4efc352b4b44c7fa15aa0ef234e",
    ),
];

#[test]
fn published_digests_of_the_empty_message() {
    for (bits, expected) in PUBLISHED {
        let digest = digest(DoublePipe, bits, &[0; 16], b"");
        assert_eq!(hex::encode(&digest), expected);
    }
}

#[test]
fn counters_of_the_scope() {
    for (bits, n, expected) in [
        (256, 0, &[0][..]),
        (256, 173, &[1384]),
        (256, 174, &[1392, 0]),
        (256, 192, &[1536, 0]),
        (256, 193, &[1536, 1544]),
        (512, 109, &[872]),
        (512, 110, &[880, 0]),
        (512, 128, &[1024, 0]),
    ] {
        assert_eq!(counters(DoublePipe, bits, 8 * n), expected);
    }
}

/// One block holds 205 or 173 bytes of the message with its padding.
#[test]
fn counters_in_single_pipe() {
    for (bits, n, expected) in [
        (256, 0, &[0][..]),
        (256, 205, &[1640]),
        (256, 206, &[1648, 0]),
        (256, 224, &[1792, 0]),
        (256, 225, &[1792, 1800]),
        (256, 429, &[1792, 3432]),
        (256, 430, &[1792, 3440, 0]),
        (512, 0, &[0]),
        (512, 173, &[1384]),
        (512, 174, &[1392, 0]),
        (512, 192, &[1536, 0]),
        (512, 193, &[1536, 1544]),
    ] {
        assert_eq!(counters(SinglePipe, bits, 8 * n), expected);
    }
}

/// A bit more or less at each edge.
#[test]
fn counters_count_bits() {
    for (mode, bits, length, expected) in [
        (DoublePipe, 256, 1, &[1][..]),
        (DoublePipe, 256, 1391, &[1391]),
        (DoublePipe, 256, 1392, &[1392, 0]),
        (DoublePipe, 256, 1535, &[1535, 0]),
        (DoublePipe, 256, 1536, &[1536, 0]),
        (DoublePipe, 256, 1537, &[1536, 1537]),
        (DoublePipe, 512, 879, &[879]),
        (DoublePipe, 512, 880, &[880, 0]),
        (DoublePipe, 512, 1025, &[1024, 1025]),
        (SinglePipe, 256, 1647, &[1647]),
        (SinglePipe, 256, 1648, &[1648, 0]),
        (SinglePipe, 256, 1793, &[1792, 1793]),
        (SinglePipe, 512, 2927, &[1536, 2927]),
        (SinglePipe, 512, 2928, &[1536, 2928, 0]),
    ] {
        assert_eq!(counters(mode, bits, length), expected);
    }
}

/// The last block of the longest message, which no number of 64 bits counts to the
/// end of.
#[test]
fn the_counter_of_the_longest_message() {
    let longest = u64::MAX - 160;
    for mode in MODES {
        for bits in [256, 512] {
            let last = block_count(mode, bits, longest) - 1;
            assert_eq!(counter(mode, bits, longest, last), longest);
            let before = counter(mode, bits, longest, last - 1);
            assert_eq!(before, longest - 863);
        }
    }
}

#[test]
fn first_chaining_values_of_section_2_1() {
    for mode in MODES {
        let word = |bits| hex::encode(&initial(mode, bits)[..16]);
        assert_eq!(word(224), "e0000000000000000000000000000000");
        assert_eq!(word(256), "00010000000000000000000000000000");
        assert_eq!(word(264), "08010000000000000000000000000000");
        assert_eq!(word(384), "80010000000000000000000000000000");
        assert_eq!(word(512), "00020000000000000000000000000000");
    }
    for (mode, bits, words) in [
        (DoublePipe, 256, 4),
        (DoublePipe, 512, 8),
        (SinglePipe, 256, 2),
        (SinglePipe, 512, 4),
    ] {
        let value = initial(mode, bits);
        assert_eq!(value, value[..16].repeat(words));
    }
}

/// Two blocks in single-pipe, each written out.
#[test]
fn a_digest_in_single_pipe_block_by_block() {
    let salt = [6; 16];
    for (bits, b, counters) in [(256, 224, [1792, 1808]), (512, 192, [1536, 1552])] {
        let message: Vec<u8> = (0..b + 2).map(|i| (3 * i + 1) as u8).collect();
        let mut chaining = [0; 64][..256 - b].to_vec();
        for word in chaining.chunks_mut(16) {
            word[1] = (bits / 256) as u8;
        }
        let mut last = message[b..].to_vec();
        last.push(0x80);
        last.resize(b - 18, 0);
        last.extend([0, (bits / 256) as u8]);
        last.extend((8 * message.len() as u128).to_le_bytes());
        for (block, counter) in [&message[..b], &last].into_iter().zip(counters) {
            compress(SinglePipe, &mut chaining, block, counter, &salt);
        }
        let digest = digest(SinglePipe, bits, &salt, &message);
        assert_eq!(digest, chaining[..bits as usize / 8]);
    }
}

#[test]
fn shorter_digests_are_no_cuts_of_longer_ones() {
    let salt = [1; 16];
    for mode in MODES {
        let digest = |bits| digest(mode, bits, &salt, b"abc");
        assert_eq!(digest(224).len(), 28);
        assert_ne!(digest(224), digest(256)[..28]);
        assert_ne!(digest(384), digest(512)[..48]);
    }
}

#[test]
fn the_modes_have_different_digests() {
    let salt = [1; 16];
    for bits in (128..=512).step_by(8) {
        let [double, single] = MODES.map(|mode| digest(mode, bits, &salt, b"abc"));
        assert_ne!(double, single);
    }
}

/// A message of whole bytes has one digest, by its bytes and by its bits.
#[test]
fn whole_bytes_keep_their_digests() {
    let salt = [4; 16];
    for mode in MODES {
        for bits in [256, 512] {
            for n in 0..=400 {
                let message: Vec<u8> = (0..n).map(|i| (5 * i + 2) as u8).collect();
                let by_bits = digest_bits(mode, bits, &salt, &message, 8 * n);
                assert_eq!(by_bits, digest(mode, bits, &salt, &message));
            }
        }
    }
}

/// Two blocks, each written out: the first is full, and the second has three bits of
/// the message and the "1" behind them.
#[test]
fn a_digest_of_bits_block_by_block() {
    let salt = [6; 16];
    for (mode, bits, b) in [
        (DoublePipe, 256, 192),
        (DoublePipe, 512, 128),
        (SinglePipe, 256, 224),
        (SinglePipe, 512, 192),
    ] {
        let mut message: Vec<u8> = (0..b).map(|i| (3 * i + 1) as u8).collect();
        message.push(0b0110_0000);
        let length = 8 * b as u64 + 3;
        let mut last = vec![0b0111_0000];
        last.resize(b - 18, 0);
        last.extend([0, (bits / 256) as u8]);
        last.extend(u128::from(length).to_le_bytes());
        let mut chaining = initial(mode, bits);
        compress(mode, &mut chaining, &message[..b], 8 * b as u128, &salt);
        compress(mode, &mut chaining, &last, length.into(), &salt);
        let digest = digest_bits(mode, bits, &salt, &message, length);
        assert_eq!(digest, chaining[..bits as usize / 8]);
    }
}

/// No two lengths of one row of zeros have one digest.
#[test]
fn every_bit_counts() {
    let mut met = std::collections::HashSet::new();
    for length in 0..=100 {
        let zeros = vec![0; (length as usize).div_ceil(8)];
        met.insert(digest_bits(DoublePipe, 256, &[0; 16], &zeros, length));
    }
    assert_eq!(met.len(), 101);
}

/// What `examples/capture.c` prints first; the gate looks it up here.
#[test]
fn the_digest_of_the_example_in_c() {
    let mut capture: [u8; 174] = std::array::from_fn(|i| i as u8);
    capture[173] &= 0xfe;
    let digest = digest_bits(DoublePipe, 256, &[0; 16], &capture, 1391);
    assert_eq!(
        hex::encode(&digest),
        "80d89d133eec6b1c67c43e9f8b4662583e9474e2f1a63a2bbd3d3352b7d46de9"
    );
}

#[test]
#[should_panic(expected = "bytes of 9 bits")]
fn bytes_that_do_not_hold_the_message_are_a_mistake_of_the_caller() {
    digest_bits(DoublePipe, 256, &[0; 16], &[0], 9);
}
