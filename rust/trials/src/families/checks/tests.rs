use super::*;
use crate::implementation::{HmacCheck, Implementation, LIBRARY};

/// What the family says of an implementation with another check.
fn said(hmac_check: HmacCheck) -> String {
    let wrong = Implementation {
        hmac_check,
        ..LIBRARY
    };
    FAMILY.tried(wrong, 1, Some(1)).unwrap_err()
}

/// The tag of what a check is given.
fn tag(bits: u64, salt: &[u8], key: &[u8], message: &[u8]) -> Vec<u8> {
    let mut tag = vec![0; bits as usize / 8];
    assert_eq!((LIBRARY.hmac)(bits, salt, key, message, &mut tag), 0);
    tag
}

const YES_IS_WRONG: &str = "done with a yes, where done is right";

#[test]
fn the_library_passes_and_is_counted() {
    let agreed = FAMILY.tried(LIBRARY, 1, Some(50));
    // For each length 6 that are right, 4 longer, 5 of something else and one
    // with a bit changed; all that are cut; and all bits of four lengths.
    let cut: usize = (16..=64).sum();
    let checks = 49 * (6 + 4 + 5 + 1) + cut + 1160 + 50;
    assert_eq!(agreed, Ok(2 * checks));
}

#[test]
fn a_check_that_always_says_the_same_is_seen() {
    let no = said(|_, _, _, _, _| (0, 0));
    assert!(no.starts_with("case 1: check, 128 bits, "), "{no}");
    assert!(no.ends_with("done, where done with a yes is right"), "{no}");
    let yes = said(|_, _, _, _, _| (0, 1));
    assert!(yes.ends_with(YES_IS_WRONG), "{yes}");
}

/// As a caller would make of a check that forgets to look at the yes.
#[test]
fn a_verification_that_lets_a_wrong_tag_through_is_seen() {
    let wrong = Implementation {
        hmac_verify: |bits, salt, key, message, given| {
            let (number, _) = (LIBRARY.hmac_check)(bits, salt, key, message, given);
            number
        },
        ..LIBRARY
    };
    let said = FAMILY.tried(wrong, 1, Some(1)).unwrap_err();
    assert!(said.contains("verification, 128 bits, "), "{said}");
    let end = "done, where refused 19 at 0 is right";
    assert!(said.ends_with(end), "{said}");
}

#[test]
fn a_check_of_as_many_bytes_as_are_given_is_seen() {
    let said = said(|bits, salt, key, message, given| {
        let tag = tag(bits, salt, key, message);
        (0, tag.starts_with(given).into())
    });
    assert!(said.contains("tag empty: "), "{said}");
    assert!(said.ends_with(YES_IS_WRONG), "{said}");
}

#[test]
fn a_check_of_all_but_the_empty_tag_is_seen() {
    let said = said(|bits, salt, key, message, given| {
        let tag = tag(bits, salt, key, message);
        (0, (tag.starts_with(given) && !given.is_empty()).into())
    });
    assert!(said.ends_with(YES_IS_WRONG), "{said}");
}

#[test]
fn a_check_that_looks_at_no_byte_behind_the_tag_is_seen() {
    let said = said(|bits, salt, key, message, given| {
        let tag = tag(bits, salt, key, message);
        (0, given.starts_with(&tag).into())
    });
    assert!(said.ends_with(YES_IS_WRONG), "{said}");
}

#[test]
fn a_bit_that_is_not_looked_at_is_seen() {
    let said = said(|bits, salt, key, message, given| {
        let mut tag = tag(bits, salt, key, message);
        if bits == 264 && given.len() == 33 {
            tag[32] &= 0x7f;
            tag[32] |= given[32] & 0x80;
        }
        (0, (tag == given).into())
    });
    assert!(said.contains("check, 264 bits, "), "{said}");
    assert!(said.ends_with(YES_IS_WRONG), "{said}");
}

#[test]
fn a_key_whose_first_byte_alone_counts_is_seen() {
    let said = said(|bits, salt, key, message, given| {
        let mut key = key.to_vec();
        if let Some(rest) = key.get_mut(1..) {
            rest.fill(0);
        }
        (LIBRARY.hmac_check)(bits, salt, &key, message, given)
    });
    assert!(
        said.ends_with("done, where done with a yes is right"),
        "{said}"
    );
}

/// Both making and checking without the salt would agree with each other.
#[test]
fn a_check_without_the_salt_is_seen() {
    let said = said(|bits, _, key, message, given| {
        (LIBRARY.hmac_check)(bits, &[0; 16], key, message, given)
    });
    assert!(
        said.ends_with("done, where done with a yes is right"),
        "{said}"
    );
}

#[test]
fn every_part_is_another_once() {
    let generator = &mut Generator::new(1);
    let right = draw::check(generator, 256, 40, 30);
    let cases = for_something_else(generator, 256, &right);
    let parts = |case: &Case| {
        let Case {
            salt,
            key,
            input,
            lent,
            ..
        } = case.clone();
        [key, input, salt, lent]
    };
    for (turn, case) in cases.iter().enumerate() {
        let pairs = parts(case).into_iter().zip(parts(&right));
        let differ: Vec<bool> = pairs.map(|(given, right)| given != right).collect();
        let expected: Vec<bool> = (0..4).map(|part| part == turn.min(3)).collect();
        assert_eq!(differ, expected);
    }
    let lengths: Vec<usize> = cases.iter().map(|case| case.lent.len()).collect();
    assert_eq!(lengths, [32, 32, 32, 33, 32]);
}
