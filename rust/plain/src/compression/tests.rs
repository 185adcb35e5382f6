use super::*;
use crate::hex;
use crate::mode::MODES;

/// Sixteen bytes that are all the same, for each of these.
fn words(bytes: impl IntoIterator<Item = u8>) -> Vec<u8> {
    bytes.into_iter().flat_map(|byte| [byte; 16]).collect()
}

/// The finished square of sizes that are loaded, by so many rounds.
fn finished(chaining: &[u8], block: &[u8], rounds: u64, counter: u128, salt: &Word) -> Square {
    let mut square = load(chaining, block);
    square::rounds(&mut square, rounds, counter, salt);
    square
}

/// BIG.FINAL as the paper writes it for COMPRESS512, word by word.
#[test]
fn short_finish_word_by_word() {
    four_words(Mode::DoublePipe, 8);
}

/// The same in section 5.2, behind ten rounds.
#[test]
fn single_pipe_long_finish_word_by_word() {
    four_words(Mode::SinglePipe, 10);
}

fn four_words(mode: Mode, rounds: u64) {
    let old: [u8; 64] = std::array::from_fn(|i| (i * 3) as u8);
    let block: [u8; 192] = std::array::from_fn(|i| (i * 5 + 1) as u8);
    let salt = [0x5a; 16];
    let w = finished(&old, &block, rounds, 77, &salt);
    let mut new = old;
    compress(mode, &mut new, &block, 77, &salt);
    for i in 0..4 {
        for b in 0..16 {
            let m = |k: usize| block[16 * k + b];
            let w = |k: usize| w[16 * k + b];
            let expected = old[16 * i + b]
                ^ (m(i) ^ m(i + 4) ^ m(i + 8))
                ^ (w(i) ^ w(i + 4) ^ w(i + 8) ^ w(i + 12));
            assert_eq!(new[16 * i + b], expected);
        }
    }
}

/// The same for COMPRESS1024.
#[test]
fn long_finish_word_by_word() {
    let old: [u8; 128] = std::array::from_fn(|i| (i * 7) as u8);
    let block: [u8; 128] = std::array::from_fn(|i| (i * 11 + 2) as u8);
    let salt = [0xc3; 16];
    let w = finished(&old, &block, 10, 99, &salt);
    let mut new = old;
    compress(Mode::DoublePipe, &mut new, &block, 99, &salt);
    for i in 0..8 {
        for b in 0..16 {
            let w = |k: usize| w[16 * k + b];
            let expected = old[16 * i + b] ^ block[16 * i + b] ^ w(i) ^ w(i + 8);
            assert_eq!(new[16 * i + b], expected);
        }
    }
}

/// The square of section 5.1, each word by the number that it has in the paper.
#[test]
fn the_square_of_section_5_1() {
    let (v, m) = (words([100, 101]), words(0..14));
    let columns = [
        [100, 101, 0, 1],
        [2, 3, 4, 5],
        [6, 7, 8, 9],
        [10, 11, 12, 13],
    ];
    assert_eq!(load(&v, &m)[..], words(columns.concat()));
}

/// The square of section 5.2.
#[test]
fn the_square_of_section_5_2() {
    let (v, m) = (words([100, 101, 102, 103]), words(0..12));
    let columns = [
        [100, 101, 102, 103],
        [0, 1, 2, 3],
        [4, 5, 6, 7],
        [8, 9, 10, 11],
    ];
    assert_eq!(load(&v, &m)[..], words(columns.concat()));
}

/// One letter of section 5.1 at a time is set. Those that stand in x0 or x2 change
/// the first word, and those in x1 or x3 the second: by turns, in the order v0, v1,
/// m0 to m13, and in that of w0 to w15.
#[test]
fn each_letter_of_section_5_1_counts_once() {
    for letter in 0..32 {
        let mut bytes = [0; 32];
        bytes[letter] = 1;
        let (v, m, w) = (&bytes[..2], &bytes[2..16], &bytes[16..]);
        let [mut v, m, w] = [v, m, w].map(|part| words(part.iter().copied()));
        finish_two_words(&mut v, &m, &w.try_into().expect("16 words"));
        let first = u8::from(letter % 2 == 0);
        assert_eq!(v, words([first, 1 - first]));
    }
}

/// The whole of section 5.1 behind eight rounds: each of the two words is the xor of
/// every other word of the start square and of the finished one.
#[test]
fn single_pipe_short_finish_is_a_fold() {
    let old: [u8; 32] = std::array::from_fn(|i| (i * 13 + 5) as u8);
    let block: [u8; 224] = std::array::from_fn(|i| (i * 7 + 3) as u8);
    let salt = [0x3c; 16];
    let start = load(&old, &block);
    let end = finished(&old, &block, 8, 1792, &salt);
    let mut new = old;
    compress(Mode::SinglePipe, &mut new, &block, 1792, &salt);
    for (place, byte) in new.into_iter().enumerate() {
        let every_other = (place..256).step_by(32);
        let expected = every_other.fold(0, |sum, from| sum ^ start[from] ^ end[from]);
        assert_eq!(byte, expected);
    }
}

/// Of the same 64 and 192 bytes the two modes make different values.
#[test]
fn one_block_in_both_modes() {
    let (old, block, salt) = ([1; 64], [2; 192], [3; 16]);
    let [double, single] = [Mode::DoublePipe, Mode::SinglePipe].map(|mode| {
        let mut new = old;
        compress(mode, &mut new, &block, 1536, &salt);
        new
    });
    assert_ne!(double, single);
}

/// All families: the rounds of a compression are those of [`square::rounds`] over
/// the edges too, so that a counter whose upper half is left out makes another value.
#[test]
fn counters_of_128_bits_in_all_families() {
    let salt = [0x3c; 16];
    for mode in MODES {
        for family in family::of_mode(mode) {
            let old: Vec<u8> = (0..family.chaining).map(|i| (i * 13 + 5) as u8).collect();
            let block: Vec<u8> = (0..family.block).map(|i| (i * 7 + 3) as u8).collect();
            let half = 1 << 64;
            for counter in [half - 80, half, 3 * half + 5, 0u128.wrapping_sub(80)] {
                let end = finished(&old, &block, family.rounds, counter, &salt);
                let (mut expected, mut given, mut cut) = (old.clone(), old.clone(), old.clone());
                finish(&mut expected, &load(&old, &block), &end);
                compress(mode, &mut given, &block, counter, &salt);
                compress(mode, &mut cut, &block, counter % half, &salt);
                assert_eq!(given, expected);
                assert_eq!(given != cut, counter >= half);
            }
        }
    }
}

/// What `examples/counters.c` prints first; the gate looks it up here.
#[test]
fn the_compression_of_the_example_in_c() {
    let mut chaining: [u8; 64] = std::array::from_fn(|i| i as u8);
    let block: [u8; 192] = std::array::from_fn(|i| 64 + i as u8);
    compress(
        Mode::DoublePipe,
        &mut chaining,
        &block,
        (1 << 64) - 80,
        &[0; 16],
    );
    let expected = "6ae7d1fc95fdf3643469d79f62f00c9a73494999500e935388b82a568be49bab68af29e500c98e76fb5f3eb84b6b29fdca6e765996ad844eb83eb867b0b7c1db";
    assert_eq!(hex::encode(&chaining), expected);
}

#[test]
#[should_panic(expected = "sizes of a family")]
fn sizes_of_the_other_mode_are_a_mistake_of_the_caller() {
    compress(Mode::SinglePipe, &mut [0; 128], &[0; 128], 0, &[0; 16]);
}
