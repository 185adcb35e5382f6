//! Reading a known-answer file. It has parts of three forms, as the published
//! files do:
//!
//! - a message: `Len = `, `Msg = ` and `MD = `;
//! - a text so many times: `Repeat = `, `Text = ` and `MD = `;
//! - a chain of digests: `Seed = `, and then `j = ` and `MD = ` for j from 0 on.
//!
//! Blank lines and lines that begin with `#` are passed over, and lines may end
//! with CR LF.

mod lines;

use crate::hex;
use lines::Lines;
use std::fmt::{self, Display, Formatter};

/// Bytes of a seed.
pub const SEED: usize = 128;

/// A part of the file.
#[derive(Debug, PartialEq, Eq)]
pub enum Part {
    Case(Case),
    Chain(Chain),
}

/// A message and its digest.
#[derive(Debug, PartialEq, Eq)]
pub struct Case {
    pub message: Message,
    pub answer: Answer,
}

#[derive(Debug, PartialEq, Eq)]
pub enum Message {
    /// So many bits, and the bytes that hold them, with zeros behind the last one; none
    /// where there are no bits.
    Bits { bits: u64, bytes: Vec<u8> },
    /// A text, so many times.
    Repeated { times: usize, text: Vec<u8> },
}

/// A seed and the digests that its chain has to come by, in order.
#[derive(Debug, PartialEq, Eq)]
pub struct Chain {
    pub seed: [u8; SEED],
    pub answers: Vec<Answer>,
}

/// A digest that has to come out.
#[derive(Debug, PartialEq, Eq)]
pub struct Answer {
    /// The line of its `MD`, counted from 1.
    pub line: usize,
    pub digest: Vec<u8>,
}

/// A line that is not what it has to be there.
#[derive(Debug, PartialEq, Eq)]
pub struct Malformed {
    /// The line, counted from 1; one past the last where the file ends too soon.
    pub line: usize,
    /// What had to be there.
    pub expected: String,
}

impl Display for Malformed {
    fn fmt(&self, to: &mut Formatter) -> fmt::Result {
        write!(to, "line {}: expected {}", self.line, self.expected)
    }
}

/// All parts of a file, which has at least one.
pub fn read(file: &str) -> Result<Vec<Part>, Malformed> {
    let mut lines = Lines::new(file);
    let mut parts = Vec::new();
    loop {
        parts.push(part(&mut lines)?);
        if lines.at_end() {
            return Ok(parts);
        }
    }
}

/// The next part, by the key of its first line.
fn part(lines: &mut Lines) -> Result<Part, Malformed> {
    if lines.next_is("Len = ") {
        return message(lines).map(Part::Case);
    }
    if lines.next_is("Repeat = ") {
        return repeated(lines).map(Part::Case);
    }
    if lines.next_is("Seed = ") {
        return chain(lines).map(Part::Chain);
    }
    Err(lines.malformed("'Len = ', 'Repeat = ' or 'Seed = '".into()))
}

fn message(lines: &mut Lines) -> Result<Case, Malformed> {
    let bits = lines.value("Len = ", "a number of bits", |text| text.parse().ok())?;
    let bytes = lines.value("Msg = ", &message_form(bits), |text| bytes(bits, text))?;
    Ok(Case {
        message: Message::Bits { bits, bytes },
        answer: answer(lines)?,
    })
}

/// The bytes of a message of so many bits: `00` stands for none.
fn bytes(bits: u64, text: &str) -> Option<Vec<u8>> {
    if bits == 0 {
        return (text == "00").then(Vec::new);
    }
    // How many bits are missing to a whole byte.
    let unused = bits.wrapping_neg() % 8;
    let zeros = |bytes: &[u8]| bytes.last().map_or(0, |last| last.trailing_zeros());
    hex::decode(text)
        .filter(|bytes| bytes.len() as u64 == bits.div_ceil(8) && u64::from(zeros(bytes)) >= unused)
}

fn message_form(bits: u64) -> String {
    let digits = 2 * u128::from(bits.div_ceil(8));
    match (bits, bits % 8) {
        (0, _) => "00 for no byte".into(),
        (_, 0) => format!("{digits} hex digits"),
        _ => format!("{digits} hex digits, with zeros behind {bits} bits"),
    }
}

fn repeated(lines: &mut Lines) -> Result<Case, Malformed> {
    let times = lines.value("Repeat = ", "a number of times", |text| text.parse().ok())?;
    let text = lines.value("Text = ", "a text", |text| Some(text.as_bytes().to_vec()))?;
    Ok(Case {
        message: Message::Repeated { times, text },
        answer: answer(lines)?,
    })
}

fn chain(lines: &mut Lines) -> Result<Chain, Malformed> {
    let seed = lines.value("Seed = ", "256 hex digits", |text| {
        hex::decode(text)?.try_into().ok()
    })?;
    let mut answers = Vec::new();
    loop {
        let j = answers.len().to_string();
        lines.value("j = ", &j, |text| (text == j).then_some(()))?;
        answers.push(answer(lines)?);
        if !lines.next_is("j = ") {
            return Ok(Chain { seed, answers });
        }
    }
}

fn answer(lines: &mut Lines) -> Result<Answer, Malformed> {
    let digest = lines.value("MD = ", "hex digits, two for each byte", |text| {
        hex::decode(text).filter(|digest| !digest.is_empty())
    })?;
    Ok(Answer {
        line: lines.line(),
        digest,
    })
}

#[cfg(test)]
mod tests;
