use super::*;
use crate::expected;
use crate::implementation::{Implementation, LIBRARY};
use std::collections::HashSet;

/// The sets of numbers that apply to a case, over all cases.
fn sets(cases: Vec<Case>) -> HashSet<Vec<u8>> {
    let numbers = |case| {
        let refusals = expected::refusals(case);
        refusals.into_iter().map(|(number, _)| number).collect()
    };
    cases.iter().map(numbers).collect()
}

/// Every set of some of these numbers.
fn every_set(numbers: &[u8]) -> HashSet<Vec<u8>> {
    let chosen = |set: usize| {
        let numbers = numbers.iter().enumerate();
        let numbers = numbers.filter(|(place, _)| set >> place & 1 == 1);
        numbers.map(|(_, number)| *number).collect()
    };
    (0..1 << numbers.len()).map(chosen).collect()
}

#[test]
fn every_set_of_refusals_is_met() {
    let generator = &mut Generator::new(1);
    let digests_without_mode = digests(generator, |bits| Routine::Digest { bits });
    assert_eq!(sets(digests_without_mode), every_set(&[1, 2, 5]));
    assert_eq!(sets(tags(generator)), every_set(&[1, 2, 5]));
    let checks = checks(generator);
    // Without an admitted length and a salt no tag is right.
    let mut verifications = every_set(&[1, 2, 19]);
    verifications.retain(|set| set.is_empty() || set.contains(&19));
    assert_eq!(sets(checks.iter().map(verified).collect()), verifications);
    assert_eq!(sets(checks), every_set(&[1, 2]));
    assert_eq!(sets(rounds(generator)), every_set(&[2, 6, 7]));
    assert_eq!(sets(wide_rounds(generator)), every_set(&[2, 6]));
    let without_mode = |counter| Routine::Compress { counter };
    let sets_met = sets(compressions(generator, &inputs::COUNTERS, without_mode));
    assert_eq!(sets_met, every_set(&[2, 6, 7]));
    // Of 9 and 10 only the one nearer the front applies.
    let mut tables = every_set(&[2, 5, 8, 9, 10]);
    tables.retain(|set| !(set.contains(&9) && set.contains(&10)));
    assert_eq!(sets(fingerprints(generator)), tables);
    tables.retain(|set| !set.contains(&2) && !set.contains(&5));
    assert_eq!(sets(counts(generator)), tables);
    // Past the end there is no record.
    let mut readings_met = every_set(&[6, 8, 9, 10]);
    readings_met.retain(|set| {
        let of_record = set.iter().filter(|number| **number >= 9).count();
        of_record <= usize::from(!set.contains(&6))
    });
    assert_eq!(sets(readings(generator)), readings_met);
    // A kind that no record has leaves no length that a body may miss.
    let mut writings_met = every_set(&[5, 9, 10]);
    writings_met.retain(|set| !(set.contains(&9) && set.contains(&10)));
    assert_eq!(sets(writings(generator)), writings_met);
}

/// With numbers that have a mode 6 never comes from a digest, and with others
/// always, alone or behind any others.
#[test]
fn every_set_of_refusals_is_met_in_each_mode() {
    let generator = &mut Generator::new(1);
    for mode in inputs::MODES {
        let (digests, compressions): (Vec<Case>, Vec<Case>) = in_modes(generator, &[mode])
            .into_iter()
            .partition(|case| matches!(case.routine, Routine::DigestIn { .. }));
        let mut expected = every_set(&[1, 2, 5, 6]);
        expected.retain(|set| set.contains(&6) == (mode > 1));
        assert_eq!(sets(digests), expected);
        let mut expected = every_set(&[2, 6, 7]);
        expected.retain(|set| set.contains(&6) || mode <= 1);
        assert_eq!(sets(compressions), expected);
        let wide = wide_in_modes(generator, &[mode]);
        expected.retain(|set| !set.contains(&7));
        assert_eq!(sets(wide), expected);
    }
}

/// Of a message with a bit count: 4 comes with 6 alone, and never with 17, since no
/// message is lent that is so long; and where the mode has no number, 6 always comes.
#[test]
fn every_set_of_refusals_of_bits_is_met() {
    let generator = &mut Generator::new(1);
    for mode in inputs::MODES {
        let mut expected = every_set(&[1, 2, 4, 5, 6, 17]);
        expected.retain(|set| {
            let has = |number| set.contains(&number);
            (!has(4) || has(6) && !has(17)) && (has(6) || mode <= 1)
        });
        assert_eq!(expected.len(), if mode <= 1 { 40 } else { 24 });
        assert_eq!(sets(of_bits(generator, &[mode])), expected);
    }
}

/// What the family says of an implementation with something else in its place.
fn said(wrong: Implementation) -> String {
    FAMILY.tried(wrong, 1, None).unwrap_err()
}

#[test]
fn the_wrong_order_of_two_refusals_is_seen() {
    let wrong = Implementation {
        digest: |bits, salt, message, out| match salt.len() {
            16 => (LIBRARY.digest)(bits, salt, message, out),
            _ => 2,
        },
        ..LIBRARY
    };
    assert!(said(wrong).ends_with("refused 2 at 0, where refused 1 at 0 is right"));
}

/// By bytes before by bits, the limit one off, set bits that are taken, and set bits that
/// are refused before the bytes are counted.
#[test]
fn refusals_of_bits_that_are_wrong_are_seen() {
    let wrong = Implementation {
        digest_bits: |mode, bits, salt, message, message_bits, out| match (LIBRARY.digest_bits)(
            mode,
            bits,
            salt,
            message,
            message_bits,
            out,
        ) {
            4 => 6,
            number => number,
        },
        ..LIBRARY
    };
    assert!(said(wrong).ends_with("refused 6 at 0, where refused 4 at 0 is right"));
    let wrong = Implementation {
        digest_bits: |mode, bits, salt, message, message_bits, out| {
            let message_bits = message_bits.saturating_sub(u64::from(message_bits > 1 << 63));
            (LIBRARY.digest_bits)(mode, bits, salt, message, message_bits, out)
        },
        ..LIBRARY
    };
    let limit = "bits of 18446744073709551456, ";
    assert!(said(wrong).contains(limit));
    let wrong = Implementation {
        digest_bits: |mode, bits, salt, message, message_bits, out| {
            let mut cleared = message.to_vec();
            if let Some(last) = cleared.last_mut() {
                *last &= 0xff << (message_bits.wrapping_neg() % 8);
            }
            (LIBRARY.digest_bits)(mode, bits, salt, &cleared, message_bits, out)
        },
        ..LIBRARY
    };
    let said_of_set_bits = said(wrong);
    let seen = "done, where refused 17 at 0 is right";
    assert!(said_of_set_bits.ends_with(seen), "{said_of_set_bits}");
    let wrong = Implementation {
        digest_bits: |mode, bits, salt, message, message_bits, out| {
            let number = (LIBRARY.digest_bits)(mode, bits, salt, message, message_bits, out);
            let behind = message.get(message_bits as usize / 8..).unwrap_or(&[]);
            match number {
                6 if behind.iter().any(|byte| *byte != 0) => 17,
                number => number,
            }
        },
        ..LIBRARY
    };
    assert!(said(wrong).ends_with("refused 17 at 0, where refused 6 at 0 is right"));
}

#[test]
fn a_bound_that_is_one_off_is_seen() {
    let wrong = Implementation {
        compress: |chaining, block, counter, salt| {
            let counter = counter.saturating_sub(1);
            (LIBRARY.compress)(chaining, block, counter, salt)
        },
        ..LIBRARY
    };
    assert!(said(wrong).contains("compression, counter 18446744073709551455"));
}

/// The limit of 64 bits, where there are 128.
#[test]
fn a_wide_counter_that_is_refused_is_seen() {
    let wrong = Implementation {
        rounds_back_wide: |square, count, counter, salt| match (LIBRARY.rounds_back_wide)(
            square, count, counter, salt,
        ) {
            0 if counter as u64 > expected::HIGHEST_COUNTER => 7,
            number => number,
        },
        ..LIBRARY
    };
    let said = said(wrong);
    assert!(said.contains("wide rounds backward, 8 of them, "), "{said}");
    assert!(said.contains("refused by 7, "), "{said}");
}

/// 64 and 128 in single-pipe: the mode is left out of the refusal.
#[test]
fn sizes_of_the_other_mode_that_are_taken_are_seen() {
    let wrong = Implementation {
        compress_in: |mode, chaining, block, counter, salt| match (LIBRARY.compress_in)(
            mode, chaining, block, counter, salt,
        ) {
            6 => (LIBRARY.compress)(chaining, block, counter, salt),
            number => number,
        },
        ..LIBRARY
    };
    let said = said(wrong);
    assert!(said.contains("compression, mode 1, counter 0, "), "{said}");
    assert!(
        said.contains("done, where refused 6 at 0 is right"),
        "{said}"
    );
}

#[test]
fn a_place_that_is_one_off_is_seen() {
    let wrong = Implementation {
        fingerprint: |salt, table, out| {
            let (number, place) = (LIBRARY.fingerprint)(salt, table, out);
            (number, place + u64::from(number == 10))
        },
        ..LIBRARY
    };
    assert!(said(wrong).contains("refused 10 at "));
}

#[test]
fn a_tag_refused_for_its_room_before_its_salt_is_seen() {
    let wrong = Implementation {
        hmac: |bits, salt, key, message, out| match bits / 8 > out.len() as u64 {
            true if (128..=512).contains(&bits) && bits.is_multiple_of(8) => 5,
            _ => (LIBRARY.hmac)(bits, salt, key, message, out),
        },
        ..LIBRARY
    };
    assert!(said(wrong).ends_with("refused 5 at 0, where refused 2 at 0 is right"));
}

#[test]
fn a_check_that_refuses_a_tag_for_its_length_is_seen() {
    let wrong = Implementation {
        hmac_check: |bits, salt, key, message, tag| {
            let (number, yes) = (LIBRARY.hmac_check)(bits, salt, key, message, tag);
            match number {
                0 if (tag.len() as u64) < bits / 8 => (5, 0),
                _ => (number, yes),
            }
        },
        ..LIBRARY
    };
    assert!(said(wrong).ends_with("refused 5 at 0, where done is right"));
}

/// The salt is made one of sixteen bytes, and refused all the same.
#[test]
fn a_refused_check_that_says_yes_is_seen() {
    let wrong = Implementation {
        hmac_check: |bits, salt, key, message, tag| {
            let mut made = salt.to_vec();
            made.resize(16, 0);
            let (number, _) = (LIBRARY.hmac_check)(bits, salt, key, message, tag);
            let (_, yes) = (LIBRARY.hmac_check)(bits, &made, key, message, tag);
            (number, yes)
        },
        ..LIBRARY
    };
    let seen = "refused 2 at 0 with a yes, where refused 2 at 0 is right";
    assert!(said(wrong).ends_with(seen));
}

#[test]
fn some_checks_say_yes() {
    let cases = checks(&mut Generator::new(1));
    let yes = |case: &&Case| case.outcome(&LIBRARY).yes == 1;
    // Six digest lengths are admitted, each with one length of the salt and one
    // of the tag, and three keys.
    assert_eq!(cases.iter().filter(yes).count(), 6 * 3);
}

/// The kind before the room, the end of the record past 2^64, a table's length before the
/// place, and a place that is told where there is none.
#[test]
fn refusals_over_tables_that_are_wrong_are_seen() {
    let wrong = Implementation {
        write_at: |room, place, kind, body| match kind {
            1..=5 => (LIBRARY.write_at)(room, place, kind, body),
            _ => (9, 0),
        },
        ..LIBRARY
    };
    assert!(said(wrong).ends_with("refused 9 at 0, where refused 5 at 0 is right"));
    let wrong = Implementation {
        write_at: |room, place, kind, body| {
            let end = place.wrapping_add(1 + body.len() as u64);
            match end <= room.len() as u64 && place > end {
                true => (0, end),
                false => (LIBRARY.write_at)(room, place, kind, body),
            }
        },
        ..LIBRARY
    };
    assert!(said(wrong).ends_with("done, where refused 5 at 0 is right"));
    let wrong = Implementation {
        read_at: |table, place| match table.len() {
            0..=4096 => (LIBRARY.read_at)(table, place),
            _ => (8, 0, 0),
        },
        ..LIBRARY
    };
    assert!(said(wrong).ends_with("refused 8 at 0, where refused 6 at 0 is right"));
    let wrong = Implementation {
        count: |table| match (LIBRARY.count)(table) {
            (8, count, _) => (8, count, 4096),
            told => told,
        },
        ..LIBRARY
    };
    assert!(said(wrong).ends_with("refused 8 at 4096, where refused 8 at 0 is right"));
}
