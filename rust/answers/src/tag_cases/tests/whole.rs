use super::*;
use crate::tag_cases::checks::tag_in_bits;
use crate::tag_cases::whole::{done, every_piece, keys, refused, CUTS};
use std::collections::HashSet;

fn all_done() -> Vec<Case> {
    done(&mut Generator::new(6))
}

#[test]
fn answers_are_two_digests() {
    for case in all_done() {
        let tag = by_hand(case.bits, &case.salt, &case.key(), &case.message());
        assert_eq!(case.line(), format!("{} yes no\n", hex::encode(&tag)));
    }
}

#[test]
fn only_the_refused_cases_are_refused() {
    let mut counts = [0; 3];
    for case in cases() {
        if case.task == Task::Whole {
            let number = refusals(&case).first().copied().unwrap_or(0);
            assert_eq!(case.tag().err().unwrap_or(0), number);
            assert_eq!(case.line() == format!("refused {number}\n"), number != 0);
            counts[usize::from(number)] += 1;
        }
    }
    // Done are, for each of 49 digest lengths, two messages under each of six
    // keys, in two cuts; and one message of each family in pieces of every size.
    // Eight digest lengths are refused, twice with a salt of 16 bytes and twice
    // with another; and four for the salt alone, three times.
    let done = 49 * 6 * 2 * 2 + (192 + 9) + (128 + 9);
    assert_eq!(counts, [done, 8 * 2 + 8 * 2, 4 * 3]);
}

#[test]
fn every_set_of_refusals_is_met_at_once_and_over_a_session() {
    let cases = refused(&mut Generator::new(6));
    let met = cases.iter().map(|case| (refusals(case), case.piece > 0));
    let met: HashSet<(Vec<u8>, bool)> = met.collect();
    for set in [vec![1], vec![2], vec![1, 2]] {
        assert!(met.contains(&(set.clone(), true)) && met.contains(&(set, false)));
    }
    assert_eq!(met.len(), 6);
    let keys: HashSet<u16> = cases.iter().map(|case| case.key_length).collect();
    assert_eq!(keys.len(), 6);
}

#[test]
fn every_digest_length_has_every_key() {
    let cases = all_done();
    for bits in (128..=512).step_by(8) {
        let b = block(bits) as u16;
        for key in [0, 1, b - 1, b, b + 1, 1000] {
            let met = |case: &&Case| case.bits == bits && case.key_length == key;
            assert_eq!(cases.iter().filter(met).count(), 2 * CUTS);
        }
    }
}

/// In each family every edge of a block meets every key, and every size of the
/// pieces.
#[test]
fn every_edge_meets_every_key_and_every_cut() {
    let cases = all_done();
    for b in [192, 128] {
        let family = cases.iter().filter(|case| block(case.bits) == b);
        let met: HashSet<(u16, u16, u16)> = family
            .map(|case| (case.message_length, case.key_length, case.piece))
            .collect();
        let b = b as u16;
        let near = [0, 1, b - 19, b - 18, b - 1, b, b + 1];
        let far = [2 * b - 19, 2 * b - 18, 2 * b - 1, 2 * b, 4 * b - 18];
        for length in near.into_iter().chain(far) {
            for key in keys(b) {
                assert!(met.iter().any(|met| (met.0, met.1) == (length, key)));
            }
            let few = if length <= b + 1 { 1 } else { 5 };
            for piece in [0, few, 7, b - 1, b, b + 1, length.max(1), 64, 13, 1000] {
                assert!(met.iter().any(|met| (met.0, met.2) == (length, piece)));
            }
        }
    }
}

#[test]
fn each_message_is_tagged_at_once_and_in_pieces() {
    for cuts in all_done().chunks(CUTS) {
        assert_eq!(cuts[0].piece, 0);
        assert!(cuts[1].piece > 0);
        assert_eq!(cuts[0].line(), cuts[1].line());
        let mut same = cuts[1].clone();
        same.piece = 0;
        assert_eq!(same.record(), cuts[0].record());
    }
}

#[test]
fn a_message_of_each_family_is_cut_in_every_size() {
    let cases = every_piece(&mut Generator::new(6));
    for (bits, length) in [(256, 192 + 9), (512, 128 + 9)] {
        let family = cases.iter().filter(|case| case.bits == bits);
        let (lines, sizes): (HashSet<String>, Vec<u16>) =
            family.map(|case| (case.line(), case.piece)).unzip();
        assert_eq!(lines.len(), 1);
        assert_eq!(sizes, (1..=length).collect::<Vec<u16>>());
    }
}

/// What the program does with pieces, step by step.
#[test]
fn pieces_with_a_reading_and_a_check_behind_each_give_the_answer() {
    let cases = [all_done(), every_piece(&mut Generator::new(6))].concat();
    for case in cases {
        if case.piece == 0 {
            continue;
        }
        let (number, mut session) = TagSession::open(case.bits, &case.salt, &case.key());
        assert_eq!(number, 0);
        for piece in case.message().chunks(case.piece.into()) {
            assert_eq!(session.add(piece), 0);
            assert_eq!(session.check(&tag_in_bits(&session)), (0, true));
        }
        assert_eq!(tag_in_bits(&session), case.tag().expect("a tag"));
    }
}

#[test]
fn some_salts_are_all_zero() {
    let cases = all_done();
    let zero = cases.iter().filter(|case| case.salt == [0; 16]).count();
    assert!(zero > cases.len() / 6 && zero < cases.len() / 3);
}
