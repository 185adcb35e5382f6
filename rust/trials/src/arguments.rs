//! What the command line asks for.

/// The seed of the gate's run.
const SEED: u64 = 1;

/// What to try.
#[derive(Debug, PartialEq, Eq)]
pub struct Arguments {
    /// Where all random inputs come from.
    pub seed: u64,
    /// The number of random cases in each family that has such; none for the
    /// family's own.
    pub cases: Option<usize>,
}

/// Reads `[--seed N] [--cases N]`, each at most once; none for anything else.
pub fn read(words: &[&str]) -> Option<Arguments> {
    let (mut seed, mut cases) = (None, None);
    let mut pairs = words.chunks_exact(2);
    for pair in &mut pairs {
        match *pair {
            ["--seed", number] if seed.is_none() => seed = Some(number.parse().ok()?),
            ["--cases", number] if cases.is_none() => cases = Some(number.parse().ok()?),
            _ => return None,
        }
    }
    if !pairs.remainder().is_empty() || cases == Some(0) {
        return None;
    }
    Some(Arguments {
        seed: seed.unwrap_or(SEED),
        cases,
    })
}

#[cfg(test)]
mod tests {
    use super::*;

    #[test]
    fn what_is_asked_for() {
        let asked = |seed, cases| Some(Arguments { seed, cases });
        assert_eq!(read(&[]), asked(SEED, None));
        assert_eq!(read(&["--seed", "7"]), asked(7, None));
        assert_eq!(read(&["--cases", "5"]), asked(SEED, Some(5)));
        let both = read(&["--cases", "5", "--seed", "18446744073709551615"]);
        assert_eq!(both, asked(u64::MAX, Some(5)));
    }

    #[test]
    fn anything_else_is_no_request() {
        for words in [
            &["--seed"][..],
            &["--seed", "x"],
            &["--seed", "-1"],
            &["--seed", "1", "--seed", "1"],
            &["--seed", "18446744073709551616"],
            &["--cases", "0"],
            &["--cases", "5", "more"],
            &["--help"],
            &["7"],
        ] {
            assert_eq!(read(words), None, "{words:?}");
        }
    }
}
