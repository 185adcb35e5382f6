//! Two strings of bytes compared: the same ones, those with one bit changed at every
//! place, those of which one begins with the other, and empty ones.

use crate::case::{Case, Routine};
use crate::family::{Family, Run};

pub const FAMILY: Family = Family {
    name: "strings compared, the same and nearly so",
    run,
};

/// Lengths: below, at and above the widths that a processor takes at once, and those of
/// tags.
const LENGTHS: [usize; 14] = [0, 1, 3, 4, 7, 15, 16, 17, 31, 32, 33, 63, 64, 100];

const USUAL: usize = 500;

fn run(run: &mut Run) -> Result<(), String> {
    for length in LENGTHS {
        let one = run.generator.vector(length);
        run.check(&compared(&one, &one))?;
        for bit in 0..8 * length {
            let mut other = one.clone();
            other[bit / 8] ^= 1 << (bit % 8);
            run.check(&compared(&one, &other))?;
        }
        for other in LENGTHS.into_iter().filter(|other| *other < length) {
            run.check(&compared(&one, &one[..other]))?;
            run.check(&compared(&one[..other], &one))?;
        }
    }
    for _ in 0..run.cases(USUAL) {
        let length = run.generator.below(300) as usize;
        let (one, other) = (run.generator.vector(length), run.generator.vector(length));
        run.check(&compared(&one, &other))?;
        run.check(&compared(&one, &one))?;
    }
    Ok(())
}

fn compared(one: &[u8], other: &[u8]) -> Case {
    Case {
        routine: Routine::Same,
        salt: vec![],
        key: vec![],
        input: one.to_vec(),
        lent: other.to_vec(),
    }
}

#[cfg(test)]
mod tests {
    use super::*;
    use crate::implementation::{Implementation, LIBRARY};

    /// What the family says of an implementation with another comparison.
    fn said(same: fn(&[u8], &[u8]) -> u8) -> String {
        let wrong = Implementation { same, ..LIBRARY };
        FAMILY.tried(wrong, 1, Some(1)).unwrap_err()
    }

    #[test]
    fn the_library_passes() {
        assert!(FAMILY.tried(LIBRARY, 1, Some(5)).is_ok());
    }

    #[test]
    fn a_comparison_of_the_shorter_string_alone_is_seen() {
        let said = said(|a, b| a.iter().zip(b).all(|(x, y)| x == y).into());
        assert!(
            said.ends_with("done with a yes, where done is right"),
            "{said}"
        );
    }

    #[test]
    fn a_last_byte_that_is_not_looked_at_is_seen() {
        let said = said(|a, b| {
            let front = a.len().saturating_sub(1);
            (a.len() == b.len() && a[..front] == b[..front]).into()
        });
        assert!(
            said.ends_with("done with a yes, where done is right"),
            "{said}"
        );
    }

    /// As `memcmp` answers.
    #[test]
    fn a_zero_for_yes_is_seen() {
        let said = said(|a, b| (a != b).into());
        assert!(
            said.ends_with("done, where done with a yes is right"),
            "{said}"
        );
    }
}
