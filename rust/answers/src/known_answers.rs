//! The known-answer files of the package `known_answers`, in the forms of the files
//! that the ECHO submission published.

mod chains;
mod long;

use crate::file::File;
use plain::mode::Mode::DoublePipe;
use plain::{digest, hex, padding};
use seeded::Generator;

const HEADER: &str = "\
# ECHO 2.0, double-pipe: digests under the all-zero salt.
#
# Len counts the bits of the message, and Msg = 00 stands for no byte where Len = 0. A message that ends within a byte has its bits at the
# front of that byte, the most significant one first, and zeros behind them. The digest is as long as MD.
#
# Each case says where it comes from. Those marked published are in the known-answer files of the ECHO submission. All others are
# computed, and two implementations that share no code give them. `cargo run --release -p answers -- ..` in rust/ writes this file.
";

const COMPUTED: &str = "computed by rust/plain and rust/third";

/// The mark of what stands in the two further files.
const NOT_PUBLISHED: &str = "computed by rust/plain, not published";

/// The digest lengths that the submission published answers for.
const FOUR: [u64; 4] = [224, 256, 384, 512];

/// Digests of the empty message from the submission's known-answer files.
const PUBLISHED: [&str; 4] = [
    "17DA087595166F733FFF7CDB0BCA6438F303D0E00C48B5E7A3075905",
    "4496CD09D425999AEFA75189EE7FD3C97362AA9E4CA898328002D20A4B519788",
    "134040763F840559B84B7A1AE5D6D64FC3659821A789CC64\
     A7F1444C09EE7F81A54D72BEEE8273BAE5EF18EC43AA5F34",
    "158F58CC79D300A9AA292515049275D051A28AB931726D0EC44BDD9FAEF4A702\
     C36DB9E7922FFF077402236465833C5CC76AF4EFC352B4B44C7FA15AA0EF234E",
];

/// What the examples of the documentation digest.
const EXAMPLE: (u64, &[u8]) = (256, b"abc");

/// Digest lengths and bytes of messages, on both sides of where the padding
/// needs one block more and of a block's end.
const SHORT: [usize; 7] = [1, 3, 173, 174, 192, 193, 400];
const LONG: [usize; 7] = [1, 3, 109, 110, 128, 129, 400];
const LENGTHS: [(u64, &[usize]); 8] = [
    (224, &SHORT),
    (256, &SHORT),
    (384, &LONG),
    (512, &LONG),
    (128, &[0, 174]),
    (160, &[3]),
    (264, &[0, 110]),
    (504, &[3]),
];

/// Bits of messages that end within a byte: with every size of a part of one at the
/// front, and as the last that leave room for their padding in a block; and on both
/// sides of where the padding needs one block more and of a block's end.
fn parts(bits: u64) -> Vec<u64> {
    let msize = padding::msize(DoublePipe, bits);
    let last = msize - 145;
    let edges = [last + 2, msize - 1, msize + 1, msize + 4];
    let second = [msize + last, msize + last + 2];
    (1..8)
        .chain(last - 6..=last)
        .chain(edges)
        .chain(second)
        .collect()
}

pub fn files() -> Vec<File> {
    vec![
        File {
            path: "rust/known_answers/ECHO.txt",
            bytes: (HEADER.to_string() + &published() + &computed() + &in_parts()).into(),
        },
        File {
            path: "rust/known_answers/ECHO_long.txt",
            bytes: long::file().into(),
        },
        File {
            path: "rust/known_answers/ECHO_chains.txt",
            bytes: chains::file().into(),
        },
    ]
}

fn published() -> String {
    PUBLISHED
        .iter()
        .map(|digest| case("published", b"", 0, digest))
        .collect()
}

fn computed() -> String {
    let mut generator = Generator::new(4);
    let mut text = computed_case(EXAMPLE.0, EXAMPLE.1);
    for (bits, lengths) in LENGTHS {
        for &length in lengths {
            text += &computed_case(bits, &generator.vector(length));
        }
    }
    text
}

fn computed_case(bits: u64, message: &[u8]) -> String {
    computed_in_bits(bits, message, 8 * message.len() as u64)
}

fn computed_in_bits(bits: u64, message: &[u8], length: u64) -> String {
    let digest = digest::digest_bits(DoublePipe, bits, &[0; 16], message, length);
    case(COMPUTED, message, length, &upper(&digest))
}

/// Messages that end within a byte.
fn in_parts() -> String {
    let mut generator = Generator::new(15);
    let mut text = String::new();
    for bits in FOUR {
        for length in parts(bits) {
            let mut message = generator.vector(length.div_ceil(8) as usize);
            *message.last_mut().expect("a byte") &= !(0xff >> (length % 8));
            text += &computed_in_bits(bits, &message, length);
        }
    }
    text
}

/// A case of so many bits, with its mark in front.
fn case(mark: &str, message: &[u8], length: u64, digest: &str) -> String {
    let message = match message {
        [] => "00".into(),
        message => upper(message),
    };
    format!("\n# {mark}\nLen = {length}\nMsg = {message}\nMD = {digest}\n")
}

/// In upper case, as the published files have it.
fn upper(bytes: &[u8]) -> String {
    hex::encode(bytes).to_uppercase()
}

#[cfg(test)]
mod tests {
    use super::*;

    #[test]
    fn the_published_digests_are_those_of_the_empty_message() {
        for published in PUBLISHED {
            let bits = 4 * published.len() as u64;
            let computed = digest::digest(DoublePipe, bits, &[0; 16], b"");
            assert_eq!(upper(&computed), published);
        }
    }

    #[test]
    fn a_case_as_it_stands_in_the_file() {
        let text = "\n# mark\nLen = 16\nMsg = 0AFF\nMD = 1B\n";
        assert_eq!(case("mark", &[0x0a, 0xff], 16, "1B"), text);
        let text = "\n# mark\nLen = 13\nMsg = 0AF8\nMD = 1B\n";
        assert_eq!(case("mark", &[0x0a, 0xf8], 13, "1B"), text);
        let text = "\n# mark\nLen = 0\nMsg = 00\nMD = 1B\n";
        assert_eq!(case("mark", b"", 0, "1B"), text);
    }

    #[test]
    fn every_case_has_its_mark() {
        let text = String::from_utf8(files().remove(0).bytes).unwrap();
        let count = |line: &str| text.lines().filter(|other| *other == line).count();
        let cases: usize = LENGTHS.iter().map(|(_, lengths)| lengths.len()).sum();
        assert_eq!(count("# published"), PUBLISHED.len());
        let parts: usize = FOUR.iter().map(|bits| parts(*bits).len()).sum();
        assert_eq!(count(&format!("# {COMPUTED}")), 1 + cases + parts);
    }

    /// None is of whole bytes, and each size of a part is there in the first byte and in the
    /// last that fits a block.
    #[test]
    fn every_part_of_a_byte_is_there() {
        for (bits, last) in [(224, 1391), (256, 1391), (384, 879), (512, 879)] {
            let parts = parts(bits);
            assert!(parts.iter().all(|length| length % 8 != 0));
            assert_eq!(parts[..7], [1, 2, 3, 4, 5, 6, 7]);
            assert_eq!(parts[13], last);
            assert_eq!(parts.len(), 20);
        }
    }
}
