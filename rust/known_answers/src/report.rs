//! What the library makes of a file's cases.

use crate::file::{self, Answer, Case, Chain, Message, Part, SEED};
use crate::hex;
use bahmorist::Mode::DoublePipe;
use bahmorist::Refusal;
use std::fmt::Write;

/// Digests between two that a chain is asked for.
const STEPS: usize = 1_000;

/// What is to be said of a file.
pub struct Report {
    /// Lines, one for each case that differs, and then the counts; or what is
    /// malformed.
    pub text: String,
    /// Whether nothing differs and nothing is malformed.
    pub agrees: bool,
}

/// Computes every case of a file with the library.
pub fn of(name: &str, file: &str) -> Report {
    match file::read(file) {
        Ok(parts) => of_parts(name, &parts),
        Err(malformed) => Report {
            text: format!("{name}: {malformed}\n"),
            agrees: false,
        },
    }
}

fn of_parts(name: &str, parts: &[Part]) -> Report {
    let mut tally = Tally::new(name);
    for part in parts {
        match part {
            Part::Case(case) => tally.case(case),
            Part::Chain(chain) => tally.chain(chain),
        }
    }
    tally.report()
}

/// What was seen of a file so far.
struct Tally<'a> {
    name: &'a str,
    text: String,
    agree: usize,
    differ: usize,
}

impl Tally<'_> {
    fn new(name: &str) -> Tally<'_> {
        Tally {
            name,
            text: String::new(),
            agree: 0,
            differ: 0,
        }
    }

    fn case(&mut self, Case { message, answer }: &Case) {
        let size = answer.digest.len();
        let (what, computed) = match message {
            Message::Bits { bits, bytes } => {
                (format!("Len = {bits}"), digest_bits(bytes, *bits, size))
            }
            Message::Repeated { times, text } => (
                format!("Repeat = {times}"),
                digest(&text.repeat(*times), size),
            ),
        };
        self.compare(&what, answer, &computed);
    }

    /// A step digests the message, of a seed's length, and the digest followed by
    /// the message's front is the next message. A digest is asked for every so
    /// many steps.
    fn chain(&mut self, Chain { seed, answers }: &Chain) {
        let mut message = *seed;
        for (j, answer) in answers.iter().enumerate() {
            let computed = (0..STEPS).try_fold(Vec::new(), |_, _| {
                let digest = digest(&message, answer.digest.len())?;
                message = next(&digest, &message);
                Ok(digest)
            });
            self.compare(&format!("j = {j}"), answer, &computed);
        }
    }

    /// Counts what came out, a digest or why there is none, and tells what differs.
    fn compare(&mut self, what: &str, answer: &Answer, computed: &Result<Vec<u8>, String>) {
        if computed.as_ref() == Ok(&answer.digest) {
            self.agree += 1;
            return;
        }
        self.differ += 1;
        let place = format!("{}: line {}: {what}", self.name, answer.line);
        let expected = hex::encode(&answer.digest);
        let computed = match computed {
            Ok(digest) => hex::encode(digest),
            Err(refusal) => format!("none: {refusal}"),
        };
        writeln!(
            self.text,
            "{place}: expected {expected}, computed {computed}"
        )
        .expect("a string takes any text");
    }

    fn report(self) -> Report {
        let Tally {
            name,
            text,
            agree,
            differ,
        } = self;
        Report {
            text: text + &format!("{name}: {agree} agree, {differ} differ\n"),
            agrees: differ == 0,
        }
    }
}

/// The library's digest of so many bytes, or why there is none.
fn digest(message: &[u8], size: usize) -> Result<Vec<u8>, String> {
    into(size, |bits, out| {
        bahmorist::digest(bits, &[0; 16], message, out)
    })
}

/// The same of a message of so many bits.
fn digest_bits(message: &[u8], length: u64, size: usize) -> Result<Vec<u8>, String> {
    into(size, |bits, out| {
        bahmorist::digest_bits(DoublePipe, bits, &[0; 16], message, length, out)
    })
}

/// A digest by its length in bits, into as many bytes.
fn into(
    size: usize,
    digest: impl Fn(u64, &mut [u8]) -> Result<(), Refusal>,
) -> Result<Vec<u8>, String> {
    let mut room = vec![0; size];
    match digest(8 * size as u64, &mut room) {
        Ok(()) => Ok(room),
        Err(refusal) => Err(refusal.to_string()),
    }
}

/// The digest, and then as much of the message's front as there is room for.
fn next(digest: &[u8], message: &[u8; SEED]) -> [u8; SEED] {
    let mut next = [0; SEED];
    let (front, behind) = next.split_at_mut(digest.len());
    front.copy_from_slice(digest);
    behind.copy_from_slice(&message[..behind.len()]);
    next
}

#[cfg(test)]
mod tests {
    use super::*;

    const DIGEST: &str = "4496CD09D425999AEFA75189EE7FD3C97362AA9E4CA898328002D20A4B519788";

    fn empty_message(digest: &str) -> String {
        format!("Len = 0\nMsg = 00\nMD = {digest}\n")
    }

    #[test]
    fn a_file_that_agrees() {
        let report = of("F", &empty_message(DIGEST).repeat(2));
        let counts = "F: 2 agree, 0 differ\n";
        assert_eq!((report.text.as_str(), report.agrees), (counts, true));
    }

    #[test]
    fn a_case_that_differs_is_told() {
        let wrong = DIGEST.replace("9788", "9789");
        let report = of("F", &(empty_message(DIGEST) + &empty_message(&wrong)));
        let (expected, computed) = (wrong.to_lowercase(), DIGEST.to_lowercase());
        let text = format!(
            "F: line 6: Len = 0: expected {expected}, computed {computed}\n\
             F: 1 agree, 1 differ\n"
        );
        assert_eq!((report.text, report.agrees), (text, false));
    }

    #[test]
    fn a_length_that_no_digest_has_is_told() {
        let report = of("F", &empty_message(&DIGEST[..30]));
        assert!(report.text.contains("computed none: the digest length"));
        assert!(!report.agrees);
    }

    /// The digest is that of five bits, and not of eight.
    #[test]
    fn bits_that_are_not_whole_bytes_are_computed() {
        let mut digest = [0; 32];
        bahmorist::digest_bits(DoublePipe, 256, &[0; 16], &[0x98], 5, &mut digest).unwrap();
        let digest = hex::encode(&digest);
        let five = format!("Len = 5\nMsg = 98\nMD = {digest}\n");
        let report = of("F", &five);
        assert_eq!(report.text, "F: 1 agree, 0 differ\n");
        let eight = five.replace("Len = 5", "Len = 8");
        let report = of("F", &(eight + &five));
        assert!(!report.agrees);
        let seen = format!("F: line 3: Len = 8: expected {digest}, computed ");
        assert!(report.text.starts_with(&seen));
        assert!(report.text.ends_with("F: 1 agree, 1 differ\n"));
    }

    #[test]
    fn a_file_without_a_case_does_not_agree() {
        assert!(!of("F", "# No case.\n").agrees);
    }

    #[test]
    fn a_text_no_times_is_the_empty_message() {
        let report = of("F", &format!("Repeat = 0\nText = abc\nMD = {DIGEST}\n"));
        assert!(report.agrees, "{}", report.text);
    }

    #[test]
    fn the_digest_stands_before_the_front_of_the_message() {
        let mut message = [7; SEED];
        message[..3].copy_from_slice(&[1, 2, 3]);
        let next = next(&[9; 28], &message);
        assert_eq!(next[..28], [9; 28]);
        assert_eq!(next[28..31], [1, 2, 3]);
        assert_eq!(next[31..], [7; 97]);
    }

    #[test]
    fn a_chain_that_differs_is_told() {
        let seed = "00".repeat(SEED);
        let report = of("F", &format!("Seed = {seed}\nj = 0\nMD = {DIGEST}\n"));
        assert!(report.text.starts_with("F: line 3: j = 0: expected 4496cd"));
        assert!(!report.agrees);
        let report = of("F", &format!("Seed = {seed}\nj = 0\nMD = 00\n"));
        assert!(report.text.contains("computed none: the digest length"));
    }

    #[test]
    fn a_malformed_file_does_not_agree() {
        let report = of("F", "Len = 8\nMsg =\n");
        let text = "F: line 2: expected 'Msg = ' and 2 hex digits\n";
        assert_eq!((report.text.as_str(), report.agrees), (text, false));
        let report = of("F", "Len = 5\nMsg = 9C\n");
        let text = "F: line 2: expected 'Msg = ' and 2 hex digits, with zeros behind 5 bits\n";
        assert_eq!((report.text.as_str(), report.agrees), (text, false));
    }
}
