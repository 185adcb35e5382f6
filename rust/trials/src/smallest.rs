//! A failing case made as small as it goes, for the one who has to look at it.

use crate::case::Case;

/// The case with the shortest front of its input that still fails, then of its
/// key, and then with zeros wherever it still fails with them. `fails` holds of the
/// case itself.
pub fn smallest(case: &Case, mut fails: impl FnMut(&Case) -> bool) -> Case {
    let mut smallest = case.clone();
    for part in [input, key] {
        let whole = part(&mut smallest).len();
        let shorter = |length| {
            let mut shorter = smallest.clone();
            part(&mut shorter).truncate(length);
            shorter
        };
        let found = (0..whole).map(shorter).find(&mut fails);
        smallest = found.unwrap_or(smallest);
    }
    for part in [input, key, salt, lent] {
        let mut simpler = smallest.clone();
        part(&mut simpler).fill(0);
        if fails(&simpler) {
            smallest = simpler;
        }
    }
    smallest
}

fn input(case: &mut Case) -> &mut Vec<u8> {
    &mut case.input
}

fn key(case: &mut Case) -> &mut Vec<u8> {
    &mut case.key
}

fn salt(case: &mut Case) -> &mut Vec<u8> {
    &mut case.salt
}

fn lent(case: &mut Case) -> &mut Vec<u8> {
    &mut case.lent
}

#[cfg(test)]
mod tests {
    use super::*;
    use crate::case::Routine;

    #[test]
    fn what_does_not_matter_is_gone() {
        let case = Case {
            routine: Routine::Fingerprint,
            salt: vec![9; 16],
            key: vec![9; 20],
            input: vec![9; 50],
            lent: vec![9; 32],
        };
        let found = smallest(&case, |case| case.input.len() >= 5 && case.salt[3] == 9);
        assert_eq!(found.input, [0; 5]);
        assert_eq!(found.key, []);
        assert_eq!(found.salt, [9; 16]);
        assert_eq!(found.lent, [0; 32]);
        let found = smallest(&case, |case| case.key.len() >= 7 && case.key[6] == 9);
        assert_eq!((found.input, found.key), (vec![], vec![9; 7]));
        let found = smallest(&case, |tried| tried.input == case.input);
        assert_eq!((found.input, found.salt), (case.input, vec![0; 16]));
    }
}
