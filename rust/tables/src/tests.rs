use super::*;
use plain::hex;
use plain::mode::Mode::DoublePipe;
use seeded::Generator;

/// Starting counters at both ends of what a digest has, and those whose words cross the
/// lower half.
const COUNTERS: [u64; 6] = [0, 1, 240, 1 << 32, (1 << 32) - 80, u64::MAX - 160];

/// Published digests of the empty message under the all-zero salt.
const PUBLISHED: [(u64, &str); 4] = [
    (
        224,
        "17da087595166f733fff7cdb0bca6438f303d0e00c48b5e7a3075905",
    ),
    (
        256,
        "4496cd09d425999aefa75189ee7fd3c97362aa9e4ca898328002d20a4b519788",
    ),
    (
        384,
        "134040763f840559b84b7a1ae5d6d64fc3659821a789cc64\
         a7f1444c09ee7f81a54d72beee8273bae5ef18ec43aa5f34",
    ),
    (
        512,
        "158f58cc79d300a9aa292515049275d051a28ab931726d0ec44bdd9faef4a702\
         c36db9e7922fff077402236465833c5cc76af4efc352b4b44c7fa15aa0ef234e",
    ),
];

#[test]
fn rounds_by_tables_are_the_plain_rounds() {
    let mut generator = Generator::new(1);
    for case in 0..200 {
        let counter = match COUNTERS.get(case) {
            Some(&counter) => counter,
            None => generator.number(),
        };
        for count in [0, 2, 8, 10] {
            let start: [u8; 256] = generator.bytes();
            let salt = generator.bytes();
            let mut given: square::Square =
                std::array::from_fn(|word| start[16 * word..16 * word + 16].try_into().unwrap());
            let mut expected = start;
            square::rounds(&mut given, count, counter, &salt);
            plain::square::rounds(&mut expected, count, counter.into(), &salt);
            assert_eq!(given.as_flattened(), expected);
        }
    }
}

#[test]
fn published_digests_of_the_empty_message() {
    for (bits, published) in PUBLISHED {
        assert_eq!(hex::encode(&digest(bits, &[0; 16], b"")), published);
    }
}

/// For each of the 49 digest lengths, messages around the end of each of the
/// first three blocks and around the last message that leaves room for the
/// padding there.
#[test]
fn digests_around_the_block_edges_are_the_plain_digests() {
    let mut generator = Generator::new(2);
    for bits in (128..=512).step_by(8) {
        let block = if bits <= 256 { 192 } else { 128 };
        for end in [block, 2 * block, 3 * block] {
            for length in (end - 20..=end - 17).chain(end - 2..=end + 2) {
                agrees(bits, &mut generator, length);
            }
        }
        for length in 0..3 {
            agrees(bits, &mut generator, length);
        }
    }
}

/// Every length of a message up to past the second block's end, each time for
/// one more digest length.
#[test]
fn digests_of_every_message_length_are_the_plain_digests() {
    let mut generator = Generator::new(3);
    for length in 0..=400 {
        for bits in [
            128 + 8 * (length as u64 % 17),
            264 + 8 * (length as u64 % 32),
        ] {
            agrees(bits, &mut generator, length);
        }
    }
}

fn agrees(bits: u64, generator: &mut Generator, length: usize) {
    let (salt, message) = (generator.bytes(), generator.vector(length));
    let expected = plain::digest::digest(DoublePipe, bits, &salt, &message);
    assert_eq!(digest(bits, &salt, &message), expected);
}

#[test]
#[should_panic(expected = "no digest has 260 bits")]
fn other_digest_lengths_are_a_mistake_of_the_caller() {
    digest(260, &[0; 16], b"");
}
