use super::*;
use plain::hex;
use seeded::Generator;
use Mode::{DoublePipe, SinglePipe};

/// Starting counters at both ends, and those whose words cross the lower half of 64
/// bits; and with an upper half of 64 bits.
const COUNTERS: [u128; 11] = [
    0,
    1,
    240,
    1 << 32,
    (1 << 32) - 80,
    HALF - 161,
    3 * HALF,
    (1 << 127) - 80,
    1 << 127,
    0x0f0e_0d0c_0b0a_0908_0706_0504_0302_0100,
    u128::MAX - 160,
];

/// 2^64, where a counter leaves its lower half.
const HALF: u128 = 1 << 64;

/// Starts around 2^64, and the last ones below 2^128: the 160 words of ten rounds
/// leave the lower half, and begin anew, at each of them once.
fn starts() -> impl Iterator<Item = u128> {
    (HALF - 160..=HALF + 160).chain(u128::MAX - 159..=u128::MAX)
}

/// Published digests of the empty message under the all-zero salt.
const PUBLISHED: [(u64, &str); 4] = [
    (
        224,
        "17da087595166f733fff7cdb0bca6438f303d0e00c48b5e7a3075905",
    ),
    (
        256,
        "4496cd09d425999aefa75189ee7fd3c97362aa9e4ca898328002d20a4b519788",
    ),
    (
        384,
        "134040763f840559b84b7a1ae5d6d64fc3659821a789cc64\
         a7f1444c09ee7f81a54d72beee8273bae5ef18ec43aa5f34",
    ),
    (
        512,
        "158f58cc79d300a9aa292515049275d051a28ab931726d0ec44bdd9faef4a702\
         c36db9e7922fff077402236465833c5cc76af4efc352b4b44c7fa15aa0ef234e",
    ),
];

/// Whether there is anything to hold against the others on this machine.
fn present() -> bool {
    let present = round([0; 16], [0; 16]).is_some();
    if !present {
        eprintln!("this processor has no AES instruction");
    }
    present
}

#[test]
fn the_instruction_gives_the_plain_round() {
    let mut generator = Generator::new(1);
    for _ in 0..if present() { 10_000 } else { 0 } {
        let (word, key) = (generator.bytes(), generator.bytes());
        let given = round(word, key).unwrap();
        assert_eq!(given, plain::aes::round(word, key));
        assert_eq!(plain::aes::round_back(given, key), word);
    }
}

#[test]
fn rounds_by_the_instruction_are_the_plain_rounds() {
    let mut generator = Generator::new(2);
    for counter in COUNTERS {
        for count in [0, 1, 8, 10] {
            let start = generator.bytes();
            let salt = generator.bytes();
            let (mut given, mut expected) = (start, start);
            if rounds(&mut given, count, counter, &salt) {
                plain::square::rounds(&mut expected, count, counter, &salt);
            }
            assert_eq!(given, expected);
        }
    }
}

#[test]
fn rounds_are_the_plain_rounds_wherever_the_halves_go_over() {
    let mut generator = Generator::new(6);
    let mut edges = 0;
    for counter in starts() {
        for count in [8, 10] {
            let (start, salt) = (generator.bytes(), generator.bytes());
            let (mut given, mut expected) = (start, start);
            if rounds(&mut given, count, counter, &salt) {
                plain::square::rounds(&mut expected, count, counter, &salt);
            }
            assert_eq!(given, expected, "{count} rounds from {counter}");
            edges += u32::from(counter >> 64 != counter.wrapping_add(159) >> 64);
        }
    }
    assert_eq!(edges, 2 * (159 + 159));
}

/// All sizes of both modes, and that of the example in C.
#[test]
fn compressions_are_the_plain_compressions() {
    let mut generator = Generator::new(7);
    for counter in COUNTERS.into_iter().chain(starts()) {
        for (mode, plain, chaining) in [
            (DoublePipe, plain::mode::Mode::DoublePipe, 64),
            (DoublePipe, plain::mode::Mode::DoublePipe, 128),
            (SinglePipe, plain::mode::Mode::SinglePipe, 32),
            (SinglePipe, plain::mode::Mode::SinglePipe, 64),
        ] {
            let (start, block) = (generator.vector(chaining), generator.vector(256 - chaining));
            let salt = generator.bytes();
            let (mut given, mut expected) = (start.clone(), start);
            if compress(mode, &mut given, &block, counter, &salt) {
                plain::compression::compress(plain, &mut expected, &block, counter, &salt);
            }
            assert_eq!(given, expected, "{mode:?}, {chaining} bytes from {counter}");
        }
    }
}

/// The value that the tests of `plain` have for `examples/counters.c`.
#[test]
fn the_compression_of_the_example_in_c() {
    let start: [u8; 64] = std::array::from_fn(|i| i as u8);
    let block: [u8; 192] = std::array::from_fn(|i| 64 + i as u8);
    let mut given = start;
    if compress(DoublePipe, &mut given, &block, HALF - 80, &[0; 16]) {
        let tests = include_str!("../../plain/src/compression/tests.rs");
        assert!(tests.contains(&format!("\"{}\"", hex::encode(&given))));
    }
}

#[test]
#[should_panic(expected = "sizes that are not the mode's")]
fn other_sizes_are_a_mistake_of_the_caller() {
    compress(SinglePipe, &mut [0; 128], &[0; 128], 0, &[0; 16]);
}

#[test]
fn published_digests_of_the_empty_message() {
    for (bits, published) in PUBLISHED {
        if let Some(given) = digest(DoublePipe, bits, &[0; 16], b"") {
            assert_eq!(hex::encode(&given), published);
        }
    }
}

/// Every length of a message up to past the third block's end, in both modes, for
/// some digest lengths and each time for one more.
#[test]
fn digests_of_every_message_length_are_the_plain_digests() {
    let mut generator = Generator::new(3);
    for length in 0..=700 {
        let more = [
            128 + 8 * (length as u64 % 17),
            264 + 8 * (length as u64 % 32),
        ];
        for bits in [128, 224, 256, 264, 384, 512].into_iter().chain(more) {
            agrees(bits, &mut generator, length);
        }
    }
}

/// Every length of a message in bits up to past the third block's end, in both modes
/// and both families.
#[test]
fn digests_of_every_length_in_bits_are_the_plain_digests() {
    let mut generator = Generator::new(8);
    for length in 0..=3 * 8 * 224 + 17 {
        for bits in [256, 512] {
            agrees_in_bits(bits, &mut generator, length);
        }
    }
}

/// Every digest length, with each number of bits around the first block's ends.
#[test]
fn digests_of_bits_around_the_edges_are_the_plain_digests() {
    let mut generator = Generator::new(9);
    for bits in (128..=512).step_by(8) {
        for block in [1024, 1536, 1792] {
            for edge in [0, block - 145, block] {
                for length in edge..=edge + 8 {
                    agrees_in_bits(bits, &mut generator, length);
                }
            }
        }
    }
}

/// The digest of a message of so many bits in both modes is that of `plain`.
fn agrees_in_bits(bits: u64, generator: &mut Generator, length: u64) {
    let (salt, mut message) = (
        generator.bytes(),
        generator.vector(length.div_ceil(8) as usize),
    );
    if let Some(last) = message.last_mut() {
        *last &= 0xff << (8 * length.div_ceil(8) - length);
    }
    for (mode, plain) in [
        (DoublePipe, plain::mode::Mode::DoublePipe),
        (SinglePipe, plain::mode::Mode::SinglePipe),
    ] {
        if let Some(given) = digest_bits(mode, bits, &salt, &message, length) {
            let expected = plain::digest::digest_bits(plain, bits, &salt, &message, length);
            assert_eq!(given, expected, "{mode:?}, {bits} bits of {length}");
        }
    }
}

/// The value that the tests of `plain` have for `examples/capture.c`.
#[test]
fn the_digest_of_the_example_in_c() {
    let mut capture: [u8; 174] = std::array::from_fn(|i| i as u8);
    capture[173] = 0xac;
    if let Some(given) = digest_bits(DoublePipe, 256, &[0; 16], &capture, 1391) {
        let tests = include_str!("../../plain/src/digest/tests.rs");
        assert!(tests.contains(&format!("\"{}\"", hex::encode(&given))));
    }
}

#[test]
fn digests_of_random_messages_are_the_plain_digests() {
    let mut generator = Generator::new(4);
    for bits in (128..=512).step_by(8) {
        for _ in 0..100 {
            let length = generator.below(1001) as usize;
            agrees(bits, &mut generator, length);
        }
    }
}

/// The digest in both modes is that of `plain`.
fn agrees(bits: u64, generator: &mut Generator, length: usize) {
    let (salt, message) = (generator.bytes(), generator.vector(length));
    for (mode, plain) in [
        (DoublePipe, plain::mode::Mode::DoublePipe),
        (SinglePipe, plain::mode::Mode::SinglePipe),
    ] {
        if let Some(given) = digest(mode, bits, &salt, &message) {
            let expected = plain::digest::digest(plain, bits, &salt, &message);
            assert_eq!(given, expected, "{mode:?}, {bits} bits, {length} bytes");
        }
    }
}

/// Keys at both sides of a block's length, and messages that end on both sides
/// of where the padding needs one block more and of a block's end.
#[test]
fn tags_are_the_plain_tags() {
    let mut generator = Generator::new(5);
    for bits in (128..=512).step_by(8) {
        let b = if bits <= 256 { 192 } else { 128 };
        for key in [0, 1, b - 1, b, b + 1, 1000] {
            for length in [0, 1, b - 19, b - 18, b, 2 * b + 1] {
                let salt = generator.bytes();
                let (key, message) = (generator.vector(key), generator.vector(length));
                if let Some(given) = hmac(bits, &salt, &key, &message) {
                    assert_eq!(given, plain::hmac::hmac(bits, &salt, &key, &message));
                }
            }
        }
    }
}

#[test]
#[should_panic(expected = "bytes of another message than one of 7 bits")]
fn set_bits_that_are_not_used_are_a_mistake_of_the_caller() {
    digest_bits(DoublePipe, 256, &[0; 16], &[0x81], 7);
}

#[test]
#[should_panic(expected = "bytes of another message than one of 8 bits")]
fn bytes_that_are_not_used_are_a_mistake_of_the_caller() {
    digest_bits(DoublePipe, 256, &[0; 16], &[0x81, 0], 8);
}

#[test]
#[should_panic(expected = "no digest has 264000 bits")]
fn other_lengths_of_a_tag_are_a_mistake_of_the_caller() {
    hmac(264_000, &[0; 16], b"key", b"");
}

#[test]
#[should_panic(expected = "no digest has 260 bits")]
fn other_digest_lengths_are_a_mistake_of_the_caller() {
    digest(SinglePipe, 260, &[0; 16], b"");
}
