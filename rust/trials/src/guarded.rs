//! Bytes lent from the middle of a larger buffer, so that a write outside of
//! them is seen. A read outside would meet random bytes, and show in the answer.

use seeded::Generator;
use std::ops::Range;

/// The most bytes on either side.
const MARGIN: u64 = 48;

/// A filled buffer, the part of it that is lent, and how it was at the start.
pub struct Guarded {
    all: Vec<u8>,
    at_start: Vec<u8>,
    part: Range<usize>,
}

impl Guarded {
    /// These bytes between two margins of random bytes. The margins have random
    /// sizes too, so that the bytes begin at any alignment.
    pub fn new(bytes: &[u8], generator: &mut Generator) -> Guarded {
        let mut margin = || {
            let size = 1 + generator.below(MARGIN) as usize;
            generator.vector(size)
        };
        let (before, behind) = (margin(), margin());
        let all = [&before, bytes, &behind].concat();
        let part = before.len()..before.len() + bytes.len();
        Guarded {
            at_start: all.clone(),
            all,
            part,
        }
    }

    /// The part that is lent.
    pub fn bytes(&self) -> &[u8] {
        &self.all[self.part.clone()]
    }

    /// The part that is lent, to be written.
    pub fn bytes_mut(&mut self) -> &mut [u8] {
        &mut self.all[self.part.clone()]
    }

    /// Whether nothing has changed, neither within the part nor outside.
    pub fn unchanged(&self) -> bool {
        self.all == self.at_start
    }

    /// Whether nothing has changed outside of the part.
    pub fn unchanged_outside(&self) -> bool {
        let (before, behind) = (..self.part.start, self.part.end..);
        self.all[before] == self.at_start[before]
            && self.all[behind.clone()] == self.at_start[behind]
    }
}

#[cfg(test)]
mod tests {
    use super::*;

    /// What is seen when the byte at a place of the whole buffer is changed.
    fn seen(place: impl Fn(&Guarded) -> usize) -> (bool, bool) {
        let mut guarded = Guarded::new(&[7; 5], &mut Generator::new(1));
        assert_eq!(guarded.bytes(), [7; 5]);
        assert!(guarded.unchanged() && guarded.unchanged_outside());
        let place = place(&guarded);
        guarded.all[place] ^= 1;
        (guarded.unchanged(), guarded.unchanged_outside())
    }

    #[test]
    fn a_byte_changed_outside_is_seen() {
        assert_eq!(seen(|_| 0), (false, false));
        assert_eq!(seen(|guarded| guarded.part.start - 1), (false, false));
        assert_eq!(seen(|guarded| guarded.part.end), (false, false));
        assert_eq!(seen(|guarded| guarded.all.len() - 1), (false, false));
    }

    #[test]
    fn a_byte_changed_within_is_seen_as_such() {
        assert_eq!(seen(|guarded| guarded.part.start), (false, true));
        assert_eq!(seen(|guarded| guarded.part.end - 1), (false, true));
    }

    #[test]
    fn what_is_written_is_lent_again() {
        let mut guarded = Guarded::new(&[7; 5], &mut Generator::new(2));
        guarded.bytes_mut()[4] = 9;
        assert_eq!(guarded.bytes(), [7, 7, 7, 7, 9]);
    }
}
