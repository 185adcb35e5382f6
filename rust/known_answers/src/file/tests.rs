use super::*;

const GOOD: &str = "\
# A comment.

Len = 0
Msg = 00
MD = 4496CD09

Len = 8
# Another.
Msg = CC
MD = 0a0B
Len = 5
Msg = 98
MD = ff
";

fn answer(line: usize, digest: &[u8]) -> Answer {
    let digest = digest.to_vec();
    Answer { line, digest }
}

fn case(line: usize, bits: u64, bytes: &[u8], digest: &[u8]) -> Part {
    let bytes = bytes.to_vec();
    Part::Case(Case {
        message: Message::Bits { bits, bytes },
        answer: answer(line, digest),
    })
}

fn good() -> Vec<Part> {
    vec![
        case(5, 0, &[], &[0x44, 0x96, 0xcd, 0x09]),
        case(10, 8, &[0xcc], &[0x0a, 0x0b]),
        case(13, 5, &[0x98], &[0xff]),
    ]
}

/// A text three times, and a chain of two digests.
fn further() -> String {
    let seed = "0A".repeat(SEED);
    format!(
        "Repeat = 3\nText = ab c\nMD = 01\n\nSeed = {seed}\n\nj = 0\nMD = 02\n\nj = 1\nMD = 03\n"
    )
}

#[test]
fn a_good_file() {
    assert_eq!(read(GOOD), Ok(good()));
}

#[test]
fn the_two_further_forms() {
    let repeated = Part::Case(Case {
        message: Message::Repeated {
            times: 3,
            text: b"ab c".to_vec(),
        },
        answer: answer(3, &[1]),
    });
    let chain = Part::Chain(Chain {
        seed: [10; SEED],
        answers: vec![answer(8, &[2]), answer(11, &[3])],
    });
    assert_eq!(read(&further()), Ok(vec![repeated, chain]));
    assert_eq!(read(&(further() + GOOD)).map(|parts| parts.len()), Ok(5));
}

#[test]
fn further_forms_that_are_malformed() {
    for (good, bad, line, expected) in [
        (
            "Repeat = 3",
            "Repeat = x",
            1,
            "'Repeat = ' and a number of times",
        ),
        ("Text = ab c", "Msg = 00", 2, "'Text = ' and a text"),
        ("Seed = 0A", "Seed = ", 5, "'Seed = ' and 256 hex digits"),
        ("j = 0", "j = 1", 7, "'j = ' and 0"),
        ("j = 1", "j = 2", 10, "'j = ' and 1"),
    ] {
        let file = further().replacen(good, bad, 1);
        assert_eq!(refused(&file), (line, expected.into()), "{bad}");
    }
}

#[test]
fn line_ends_of_both_sorts() {
    assert_eq!(read(&GOOD.replace('\n', "\r\n")), Ok(good()));
    assert_eq!(read(GOOD.trim_end()), Ok(good()));
}

/// The line and the expectation that a file is refused with.
fn refused(file: &str) -> (usize, String) {
    let malformed = read(file).unwrap_err();
    (malformed.line, malformed.expected)
}

#[test]
fn malformed_lines() {
    for (good, bad, line, expected) in [
        ("Len = 0", "Len = x", 3, "'Len = ' and a number of bits"),
        ("Len = 0", "Len = -8", 3, "'Len = ' and a number of bits"),
        (
            "Len = 0",
            "Length = 0",
            3,
            "'Len = ', 'Repeat = ' or 'Seed = '",
        ),
        ("Msg = 00", "Msg = 01", 4, "'Msg = ' and 00 for no byte"),
        ("Msg = 00", "", 5, "'Msg = ' and 00 for no byte"),
        ("Msg = CC", "Msg = C", 9, "'Msg = ' and 2 hex digits"),
        ("Msg = CC", "Msg = CCCC", 9, "'Msg = ' and 2 hex digits"),
        ("Len = 8", "Len = 16", 9, "'Msg = ' and 4 hex digits"),
        (
            "Len = 8",
            "Len = 9",
            9,
            "'Msg = ' and 4 hex digits, with zeros behind 9 bits",
        ),
        (
            "Len = 8",
            "Len = 5",
            9,
            "'Msg = ' and 2 hex digits, with zeros behind 5 bits",
        ),
        (
            "Msg = 98",
            "Msg = 9800",
            12,
            "'Msg = ' and 2 hex digits, with zeros behind 5 bits",
        ),
        (
            "MD = 0a0B",
            "MD = 0a0",
            10,
            "'MD = ' and hex digits, two for each byte",
        ),
        (
            "MD = 0a0B",
            "MD = ",
            10,
            "'MD = ' and hex digits, two for each byte",
        ),
        (
            "MD = 0a0B",
            "MD = 0x0B",
            10,
            "'MD = ' and hex digits, two for each byte",
        ),
    ] {
        let file = GOOD.replacen(good, bad, 1);
        assert_eq!(refused(&file), (line, expected.into()), "{bad}");
    }
}

/// Each bit of a part of a byte, in use and not.
#[test]
fn set_bits_behind_the_last_one_are_malformed() {
    for bits in 9..=16 {
        for place in 0..8 {
            let file = format!("Len = {bits}\nMsg = 33{:02x}\nMD = ff\n", 0x80 >> place);
            assert_eq!(read(&file).is_ok(), 8 + place < bits, "{file}");
        }
    }
}

#[test]
fn files_that_end_too_soon() {
    let cut = GOOD.strip_suffix("MD = ff\n").unwrap();
    let expected = "'MD = ' and hex digits, two for each byte";
    assert_eq!(refused(cut), (13, expected.into()));
    let expected = "'Len = ', 'Repeat = ' or 'Seed = '";
    assert_eq!(refused(""), (1, expected.into()));
    assert_eq!(refused("# No case.\n"), (2, expected.into()));
}
