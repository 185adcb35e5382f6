//! One call of a routine on given inputs, and what came of it.

use crate::guarded::Guarded;
use crate::implementation::{Answer, Implementation, Inputs};
use plain::hex;
use seeded::Generator;
use std::fmt::{self, Display, Formatter};

/// A routine and the numbers it takes.
#[derive(Debug, Clone, Copy, PartialEq, Eq)]
pub enum Routine {
    /// A digest at once, by the function that takes no mode.
    Digest { bits: u64 },
    /// The same in the mode of a number.
    DigestIn { mode: u8, bits: u64 },
    /// The same of a message of so many bits.
    DigestBits {
        mode: u8,
        bits: u64,
        message_bits: u64,
    },
    /// A tag at once.
    Hmac { bits: u64 },
    /// A check of a tag.
    HmacCheck { bits: u64 },
    /// A tag verified.
    HmacVerify { bits: u64 },
    /// Two strings of bytes compared.
    Same,
    /// Rounds forward.
    Rounds { count: u64, counter: u64 },
    /// Rounds backward.
    RoundsBack { count: u64, counter: u64 },
    /// A block taken into a chaining value, by the function that takes no mode.
    Compress { counter: u64 },
    /// The same in the mode of a number.
    CompressIn { mode: u8, counter: u64 },
    /// Rounds forward from a counter of 128 bits.
    RoundsWide { count: u64, counter: u128 },
    /// Rounds backward, likewise.
    RoundsBackWide { count: u64, counter: u128 },
    /// A block taken into a chaining value in the mode of a number, likewise.
    CompressWide { mode: u8, counter: u128 },
    /// The fingerprint of a table.
    Fingerprint,
    /// A table read at a place.
    ReadAt { place: u64 },
    /// The records of a table counted.
    Count,
    /// A record written at a place of a room.
    WriteAt { place: u64, kind: u8 },
}

/// A routine and the bytes it is given.
#[derive(Debug, Clone)]
pub struct Case {
    pub routine: Routine,
    pub salt: Vec<u8>,
    /// The key of a tag; other routines have none.
    pub key: Vec<u8>,
    /// What else is read: message, block, table or body; rounds have none. A comparison
    /// has its first string here.
    pub input: Vec<u8>,
    /// What is lent to be written: output room, square or chaining value. A check
    /// is lent the tag, and a comparison its second string, and writes none of it.
    pub lent: Vec<u8>,
}

/// What came of a call.
#[derive(Debug, Clone, PartialEq, Eq)]
pub struct Outcome {
    /// The refusal number, or 0.
    pub number: u8,
    /// The place, 0 where there is none.
    pub place: u64,
    /// The kind byte that was read or the number of records, 0 where there is none.
    pub told: u64,
    /// 1 where a check or a comparison says yes, else 0.
    pub yes: u8,
    /// All that was lent, afterwards.
    pub lent: Vec<u8>,
}

impl Case {
    /// What an implementation makes of the case.
    pub fn outcome(&self, by: &Implementation) -> Outcome {
        let mut lent = self.lent.clone();
        let inputs = Inputs {
            salt: &self.salt,
            key: &self.key,
            input: &self.input,
        };
        let answer = by.call(self.routine, &inputs, &mut lent);
        Outcome::new(answer, lent)
    }

    /// The same with everything lent from the middle of larger buffers. Says what
    /// was changed that may not be.
    pub fn guarded_outcome(
        &self,
        by: &Implementation,
        generator: &mut Generator,
    ) -> Result<Outcome, String> {
        let salt = Guarded::new(&self.salt, generator);
        let key = Guarded::new(&self.key, generator);
        let input = Guarded::new(&self.input, generator);
        let mut lent = Guarded::new(&self.lent, generator);
        let inputs = Inputs {
            salt: salt.bytes(),
            key: key.bytes(),
            input: input.bytes(),
        };
        let answer = by.call(self.routine, &inputs, lent.bytes_mut());
        let number = answer.number;
        if !salt.unchanged() {
            return Err("the salt or a byte beside it was changed".into());
        }
        if !key.unchanged() {
            return Err("the key or a byte beside it was changed".into());
        }
        if !input.unchanged() {
            return Err("an input or a byte beside it was changed".into());
        }
        if !lent.unchanged_outside() {
            return Err("a byte beside the lent ones was changed".into());
        }
        if number != 0 && !lent.unchanged() {
            return Err(format!("refused by {number}, but a lent byte was changed"));
        }
        Ok(Outcome::new(answer, lent.bytes().to_vec()))
    }

    /// The inputs that are called square, message and so on for this routine.
    fn names(&self) -> (&'static str, &'static str, &'static str) {
        match self.routine {
            Routine::Digest { .. } | Routine::DigestIn { .. } => ("digest", "message", "room"),
            Routine::DigestBits { .. } => ("digest of bits", "message", "room"),
            Routine::Hmac { .. } => ("tag", "message", "room"),
            Routine::HmacCheck { .. } => ("check", "message", "tag"),
            Routine::HmacVerify { .. } => ("verification", "message", "tag"),
            Routine::Same => ("comparison", "one", "the other"),
            Routine::Rounds { .. } => ("rounds", "", "square"),
            Routine::RoundsBack { .. } => ("rounds backward", "", "square"),
            Routine::RoundsWide { .. } => ("wide rounds", "", "square"),
            Routine::RoundsBackWide { .. } => ("wide rounds backward", "", "square"),
            Routine::Compress { .. } | Routine::CompressIn { .. } => {
                ("compression", "block", "chaining value")
            }
            Routine::CompressWide { .. } => ("wide compression", "block", "chaining value"),
            Routine::Fingerprint => ("fingerprint", "table", "room"),
            Routine::ReadAt { .. } => ("reading", "table", ""),
            Routine::Count => ("count", "table", ""),
            Routine::WriteAt { .. } => ("writing", "body", "room"),
        }
    }

    /// The same case, of another routine.
    pub fn with(&self, routine: Routine) -> Case {
        Case {
            routine,
            ..self.clone()
        }
    }

    /// Whether the lent bytes are an input as well.
    fn reads_lent(&self) -> bool {
        !matches!(
            self.routine,
            Routine::Digest { .. }
                | Routine::DigestIn { .. }
                | Routine::DigestBits { .. }
                | Routine::Hmac { .. }
                | Routine::Fingerprint
                | Routine::WriteAt { .. }
        )
    }

    /// Whether there is a salt to show.
    fn has_salt(&self) -> bool {
        !matches!(
            self.routine,
            Routine::Same | Routine::ReadAt { .. } | Routine::Count | Routine::WriteAt { .. }
        )
    }
}

impl Display for Case {
    fn fmt(&self, to: &mut Formatter) -> fmt::Result {
        let (name, input, lent) = self.names();
        write!(to, "{name}, ")?;
        match self.routine {
            Routine::Digest { bits } => write!(to, "{bits} bits, ")?,
            Routine::DigestIn { mode, bits } => write!(to, "mode {mode}, {bits} bits, ")?,
            Routine::DigestBits {
                mode,
                bits,
                message_bits,
            } => write!(to, "mode {mode}, {bits} bits of {message_bits}, ")?,
            Routine::Hmac { bits } | Routine::HmacCheck { bits } | Routine::HmacVerify { bits } => {
                write!(to, "{bits} bits, key {}, ", shown(&self.key))?
            }
            Routine::Rounds { count, counter } | Routine::RoundsBack { count, counter } => {
                write!(to, "{count} of them, counter {counter}, ")?
            }
            Routine::Compress { counter } => write!(to, "counter {counter}, ")?,
            Routine::CompressIn { mode, counter } => {
                write!(to, "mode {mode}, counter {counter}, ")?
            }
            Routine::RoundsWide { count, counter } | Routine::RoundsBackWide { count, counter } => {
                write!(to, "{count} of them, counter {counter:#x}, ")?
            }
            Routine::CompressWide { mode, counter } => {
                write!(to, "mode {mode}, counter {counter:#x}, ")?
            }
            Routine::ReadAt { place } => write!(to, "place {place}, ")?,
            Routine::WriteAt { place, kind } => write!(to, "place {place}, kind {kind:02x}, ")?,
            Routine::Fingerprint | Routine::Same | Routine::Count => {}
        }
        if self.has_salt() {
            write!(to, "salt {}, ", shown(&self.salt))?;
        }
        if lent.is_empty() {
            return write!(to, "{input} {}", shown(&self.input));
        }
        if !input.is_empty() {
            write!(to, "{input} {}, ", shown(&self.input))?;
        }
        if self.reads_lent() {
            write!(to, "{lent} {}", shown(&self.lent))
        } else {
            write!(to, "{lent} of {} bytes", self.lent.len())
        }
    }
}

impl Outcome {
    /// The outcome of a call that answers this and leaves these bytes.
    fn new(answer: Answer, lent: Vec<u8>) -> Outcome {
        let Answer {
            number,
            place,
            told,
            yes,
        } = answer;
        Outcome {
            number,
            place,
            told,
            yes,
            lent,
        }
    }

    /// What is wrong with this outcome where another is right.
    pub fn difference(&self, right: &Outcome) -> Option<String> {
        let answered =
            |outcome: &Outcome| (outcome.number, outcome.place, outcome.told, outcome.yes);
        if answered(self) != answered(right) {
            let (given, right) = (self.answer(), right.answer());
            return Some(format!("{given}, where {right} is right"));
        }
        let pairs = self.lent.iter().zip(&right.lent);
        let first = pairs.enumerate().find(|(_, (given, right))| given != right);
        first.map(|(place, (given, right))| {
            format!("lent byte {place} became {given:02x}, where {right:02x} is right")
        })
    }

    /// All that was answered, in words.
    fn answer(&self) -> String {
        let mut answer = match (self.number, self.place) {
            (0, 0) => "done".into(),
            (0, place) => format!("done at {place}"),
            (number, place) => format!("refused {number} at {place}"),
        };
        if self.told != 0 {
            answer += &format!(" with {}", self.told);
        }
        match self.yes {
            0 => {}
            1 => answer += " with a yes",
            other => answer += &format!(" with {other} for a yes"),
        }
        answer
    }
}

/// Bytes in hex, or where they are many, how many and those at both ends.
pub fn shown(bytes: &[u8]) -> String {
    let length = bytes.len();
    match length {
        0 => "empty".into(),
        1..=64 => hex::encode(bytes),
        _ => format!(
            "of {length} bytes {}..{}",
            hex::encode(&bytes[..16]),
            hex::encode(&bytes[length - 16..])
        ),
    }
}

#[cfg(test)]
mod tests;
