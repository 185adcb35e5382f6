use super::*;
use crate::mode::MODES;
use Mode::{DoublePipe, SinglePipe};

/// Byte strings and runs of zeros, joined.
fn joined(front: &[u8], zeros: usize, back: &[u8], last_zeros: usize) -> Vec<u8> {
    [front, &vec![0; zeros], back, &vec![0; last_zeros]].concat()
}

/// Whole bytes, padded.
fn pad_bytes(mode: Mode, bits: u64, message: &[u8]) -> Vec<u8> {
    pad(mode, bits, message, 8 * message.len() as u64)
}

#[test]
fn as_in_the_marked_examples() {
    assert_eq!(
        pad_bytes(DoublePipe, 256, b""),
        joined(&[0x80], 173, &[0x00, 0x01], 16)
    );
    assert_eq!(
        pad_bytes(DoublePipe, 256, b"abc"),
        joined(b"abc\x80", 170, &[0x00, 0x01, 0x18], 15)
    );
}

/// The same in single-pipe, whose block is 32 bytes longer.
#[test]
fn in_single_pipe() {
    assert_eq!(
        pad_bytes(SinglePipe, 256, b"abc"),
        joined(b"abc\x80", 202, &[0x00, 0x01, 0x18], 15)
    );
    assert_eq!(
        pad_bytes(SinglePipe, 512, b""),
        joined(&[0x80], 173, &[0x00, 0x02], 16)
    );
}

/// The "1" stands right behind the last message bit, at each place of a byte.
#[test]
fn a_part_of_a_byte() {
    for (length, byte) in [
        (1, 0b1100_0000),
        (2, 0b1010_0000),
        (3, 0b1011_0000),
        (4, 0b1010_1000),
        (5, 0b1010_0100),
        (6, 0b1010_0110),
        (7, 0b1010_0101),
    ] {
        let expected = joined(&[byte], 173, &[0x00, 0x01, length as u8], 15);
        assert_eq!(pad(DoublePipe, 256, &[0b1010_0100], length), expected);
        let expected = joined(&[0xff, byte], 108, &[0x00, 0x02, 8 + length as u8], 15);
        assert_eq!(
            pad(DoublePipe, 512, &[0xff, 0b1010_0100], 8 + length),
            expected
        );
    }
}

/// The last message that leaves room for its padding in each of three blocks, and
/// the first that doesn't: with 144 bits behind it and the "1" between.
#[test]
fn blocks_are_full_one_after_the_other() {
    for (mode, bits, most) in [
        (DoublePipe, 256, [1391, 2927, 4463]),
        (DoublePipe, 512, [879, 1903, 2927]),
        (SinglePipe, 256, [1647, 3439, 5231]),
        (SinglePipe, 512, [1391, 2927, 4463]),
    ] {
        for (blocks, most) in (1..).zip(most) {
            assert_eq!(block_count(mode, bits, most), blocks);
            assert_eq!(block_count(mode, bits, most + 1), blocks + 1);
            let message = vec![0xff; most as usize / 8 + 1];
            let full = pad(mode, bits, &message, most);
            assert_eq!(full.len() as u64, blocks * msize(mode, bits) / 8);
            // No zero is between the "1" and the lengths.
            assert_eq!(full[..message.len()], message);
            assert_eq!(full.len(), message.len() + 18);
        }
    }
}

#[test]
fn digest_lengths_as_the_paper_writes_them() {
    for mode in MODES {
        for (bits, written) in [
            (224, [0xe0, 0x00]),
            (256, [0x00, 0x01]),
            (384, [0x80, 0x01]),
            (512, [0x00, 0x02]),
        ] {
            for length in 0..8 {
                let padded = pad(mode, bits, &[0], length);
                let place = padded.len() - 18;
                assert_eq!(padded[place..place + 2], written);
            }
        }
    }
}

#[test]
fn behind_the_longest_message() {
    // 2^64 - 161 bits are 863 beyond a block's end in every family, which is 7 in a
    // byte.
    let length = [0x5f, 0xff, 0xff, 0xff, 0xff, 0xff, 0xff, 0xff];
    for (mode, bits, written, zeros) in [
        (DoublePipe, 256, [0x00, 0x01], 66),
        (DoublePipe, 512, [0x00, 0x02], 2),
        (SinglePipe, 256, [0x00, 0x01], 98),
        (SinglePipe, 512, [0x00, 0x02], 66),
    ] {
        let back = [&written[..], &length].concat();
        let expected = joined(&[0x01], zeros, &back, 8);
        let behind = padding(mode, bits, u64::MAX - 160);
        let part = [vec![false; 7], behind].concat();
        assert_eq!(bits::to_bytes(&part), expected);
    }
}

/// Whole bytes have byte 80 and zero bytes behind them.
#[test]
fn whole_bytes() {
    for mode in MODES {
        for bits in [128, 256, 264, 512] {
            let block = family::of_bits(mode, bits).block;
            for n in 0..3 * block {
                let message = vec![0xff; n];
                let padded = pad_bytes(mode, bits, &message);
                assert_eq!(padded.len(), ((n + 18) / block + 1) * block);
                assert_eq!(padded[..n], message);
                assert_eq!(padded[n], 0x80);
                assert!(padded[n + 1..padded.len() - 18].iter().all(|b| *b == 0));
                let length = (8 * n as u128).to_le_bytes();
                assert_eq!(padded[padded.len() - 16..], length);
            }
        }
    }
}

/// Every length, with each bit of the padded message looked at.
#[test]
fn bit_by_bit() {
    for mode in MODES {
        for bits in [256, 512] {
            let msize = msize(mode, bits);
            for length in 0..2 * msize + 20 {
                let message = vec![0xff; length.div_ceil(8) as usize];
                let padded = pad(mode, bits, &message, length);
                let end = 8 * padded.len() as u64;
                assert_eq!(
                    (end % msize, end / msize),
                    (0, block_count(mode, bits, length))
                );
                assert!((0..=length).all(|place| bits::at(&padded, place)));
                assert!((length + 1..end - 144).all(|place| !bits::at(&padded, place)));
                let back = &padded[padded.len() - 18..];
                assert_eq!(back[..2], (bits as u16).to_le_bytes());
                assert_eq!(back[2..], u128::from(length).to_le_bytes());
            }
        }
    }
}

/// What stands behind the first bits makes no difference.
#[test]
fn bits_that_are_not_used_are_left_out() {
    for length in 0..8 {
        let bits = 0xa5 & !(0xff >> length) as u8;
        assert_eq!(
            pad(DoublePipe, 256, &[0xa5], length),
            pad(DoublePipe, 256, &[bits], length)
        );
    }
}
