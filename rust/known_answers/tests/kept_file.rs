//! The known-answer files that the repository keeps, by the two others: `plain`
//! wrote them.

use known_answers::file::{self, Case, Message, Part};
use known_answers::report;

const MESSAGES: &str = include_str!("../ECHO.txt");
const LONG: &str = include_str!("../ECHO_long.txt");
const CHAINS: &str = include_str!("../ECHO_chains.txt");

const PUBLISHED: &str = "# published";
const COMPUTED: &str = "# computed by rust/plain and rust/third";
const NOT_PUBLISHED: &str = "# computed by rust/plain, not published";

#[test]
fn the_library_agrees() {
    for (name, kept) in [("messages", MESSAGES), ("long", LONG), ("chains", CHAINS)] {
        let report = report::of(name, kept);
        assert!(report.agrees, "{}", report.text);
        assert!(report.text.ends_with(" agree, 0 differ\n"));
    }
}

/// The messages of a file, with their answers.
fn cases(kept: &str) -> Vec<Case> {
    let parts = file::read(kept).unwrap().into_iter();
    parts
        .filter_map(|part| match part {
            Part::Case(case) => Some(case),
            Part::Chain(_) => None,
        })
        .collect()
}

#[test]
fn third_agrees() {
    for Case { message, answer } in cases(MESSAGES).into_iter().chain(cases(LONG)) {
        let (length, message) = match message {
            Message::Bits { bits, bytes } => (bits, bytes),
            Message::Repeated { times, text } => {
                (8 * (times * text.len()) as u64, text.repeat(times))
            }
        };
        let bits = 8 * answer.digest.len() as u64;
        let mode = third::Mode::DoublePipe;
        if let Some(digest) = third::digest_bits(mode, bits, &[0; 16], &message, length) {
            assert_eq!(digest, answer.digest, "line {}", answer.line);
        }
    }
}

/// Every size of a part of a byte has an answer, of each published length.
#[test]
fn messages_end_within_a_byte() {
    for size in [28, 32, 48, 64] {
        for part in 0..8 {
            assert!(cases(MESSAGES).iter().any(|case| {
                let same = case.answer.digest.len() == size;
                same && matches!(case.message, Message::Bits { bits, .. } if bits % 8 == part)
            }));
        }
    }
}

/// Each case says of itself where it comes from, and only empty messages are
/// published.
#[test]
fn every_case_is_marked() {
    let lines: Vec<&str> = MESSAGES.lines().collect();
    let mut published = 0;
    for Case { message, answer } in cases(MESSAGES) {
        // The line in front of `Len`, three above `MD`, which is counted from 1.
        match lines[answer.line - 4] {
            PUBLISHED => {
                assert!(matches!(message, Message::Bits { bits: 0, .. }));
                published += 1;
            }
            mark => assert_eq!(mark, COMPUTED),
        }
    }
    assert_eq!(published, 4);
}

/// The two further forms have all four published digest lengths, and no part is
/// said to be published.
#[test]
fn the_further_forms_are_marked() {
    for (kept, key) in [(LONG, "Repeat = "), (CHAINS, "Seed = ")] {
        let lines: Vec<&str> = kept.lines().collect();
        let begins = (0..lines.len()).filter(|&line| lines[line].starts_with(key));
        assert_eq!(
            begins.map(|line| lines[line - 1]).collect::<Vec<_>>(),
            [NOT_PUBLISHED; 4]
        );
        for size in [28, 32, 48, 64] {
            let digits = lines.iter().filter_map(|line| line.strip_prefix("MD = "));
            assert!(digits.into_iter().any(|digits| digits.len() == 2 * size));
        }
    }
}
