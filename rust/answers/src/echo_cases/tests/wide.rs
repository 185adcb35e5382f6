use super::super::*;
use super::by_width;
use std::collections::HashSet;
use Kind::{CompressSingleWide, CompressWide, RoundsBackWide, RoundsWide};

const KINDS: [Kind; 4] = [RoundsWide, RoundsBackWide, CompressWide, CompressSingleWide];

/// Where a counter goes over into its upper half.
const EDGE: u128 = 1 << 64;

/// The round count, or the number of a mode's family that has as many.
fn rounds(case: &Case) -> u8 {
    match (case.kind, case.a_length) {
        (CompressWide, 64) | (CompressSingleWide, 32) => 8,
        (CompressWide, 128) | (CompressSingleWide, 64) => 10,
        _ => case.count,
    }
}

fn done(case: &&Case) -> bool {
    case.answer().0 == 0
}

#[test]
fn they_stand_behind_those_of_before() {
    let (before, wide) = by_width();
    assert_eq!(
        (before.len(), KINDS.map(|kind| kind as u8)),
        (227, [6, 7, 8, 9])
    );
    assert!(cases()[..227].iter().all(|case| !case.kind.is_wide()));
    assert!(wide.iter().all(|case| KINDS.contains(&case.kind)));
}

#[test]
fn the_upper_half_is_the_end_of_a_record() {
    for case in by_width().1 {
        let record = case.record();
        let halves = [&record[7..15], &record[545..]].concat();
        assert_eq!(halves, case.wide_counter().to_le_bytes());
    }
}

/// Words of ten rounds, from 1 to 160, that are the first ones behind an edge: from
/// so far before it.
fn before_an_edge<'a>(cases: impl Iterator<Item = &'a Case>, edge: u128) -> HashSet<u128> {
    let ten = cases.filter(|case| rounds(case) == 10 && done(case));
    let before = ten.map(|case| edge.wrapping_sub(case.wide_counter()));
    before.filter(|before| (1..=160).contains(before)).collect()
}

#[test]
fn the_counter_goes_over_at_each_word_of_ten_rounds() {
    let (_, wide) = by_width();
    let of = |kind| wide.iter().filter(move |case| case.kind == kind);
    assert_eq!(before_an_edge(wide.iter(), EDGE).len(), 160);
    assert_eq!(before_an_edge(of(RoundsWide), 0).len(), 160);
    let backward = [EDGE, 0].map(|edge| before_an_edge(of(RoundsBackWide), edge));
    assert_eq!((&backward[0] | &backward[1]).len(), 160);
}

/// Whether the upper half changes on the way.
fn goes_over(case: &Case) -> bool {
    let last = 16 * u128::from(rounds(case)) - 1;
    case.wide_counter().wrapping_add(last) >> 64 != u128::from(case.upper)
}

#[test]
fn each_kind_goes_over_both_edges_with_eight_rounds_or_ten() {
    let (_, wide) = by_width();
    for kind in KINDS {
        for count in [8, 10] {
            let of_kind = |case: &&Case| case.kind == kind && rounds(case) == count;
            let uppers: HashSet<u64> = wide
                .iter()
                .filter(of_kind)
                .filter(|case| done(case) && goes_over(case))
                .map(|case| case.upper)
                .collect();
            for upper in [0, u64::MAX] {
                assert!(uppers.contains(&upper), "{kind:?}, {count}, {upper}");
            }
        }
    }
}

#[test]
fn every_start_around_2_to_the_64_is_there() {
    let (_, wide) = by_width();
    let starts: HashSet<u128> = wide.iter().map(Case::wide_counter).collect();
    for start in (EDGE - 160..=EDGE + 160).chain(u128::MAX - 159..=u128::MAX) {
        assert!(starts.contains(&start), "{start}");
    }
}

/// Two squares with another counter of which one half alone differs.
#[test]
fn both_halves_count() {
    let (_, wide) = by_width();
    for case in wide.iter().filter(done) {
        for bit in [0, 63, 64, 127] {
            let counter = case.wide_counter() ^ 1 << bit;
            let other = Case {
                counter: counter as u64,
                upper: (counter >> 64) as u64,
                ..case.clone()
            };
            assert_ne!(other.answer(), case.answer());
        }
    }
}

/// By the table of refusals: 2 and 6, and no counter is refused.
#[test]
fn only_the_refused_ones_are_refused() {
    let mut counts = [0; 8];
    for case in by_width().1 {
        let sizes = (case.a_length, case.b_length);
        let shape = match case.kind {
            CompressWide => [(64, 192), (128, 128)].contains(&sizes),
            CompressSingleWide => [(32, 224), (64, 192)].contains(&sizes),
            _ => case.a_length == 256 && [8, 10].contains(&case.count),
        };
        let number = match (case.salt_length, shape) {
            (16, true) => 0,
            (16, false) => 6,
            _ => 2,
        };
        let (given, a) = case.answer();
        let lent = case.a_length as usize;
        assert_eq!(given, number);
        assert_eq!(number == 0, a != case.a);
        assert_eq!(a[lent..], case.a[lent..]);
        counts[number as usize] += 1;
    }
    // Alone, 3 of each kind are refused for the salt; 8 of each kind of rounds, 12
    // and 23 compressions for the shape. Of each kind of rounds 3 have several
    // reasons, and of each kind of compression 2.
    let salts = 4 * 3 + 2 * 3 + 2 * 2;
    assert_eq!(counts[1..], [0, salts, 0, 0, 0, 2 * 8 + 12 + 23, 0][..]);
}

/// Refused cases whose lower half is all ones, with an upper half of zero and of
/// something else.
#[test]
fn refused_ones_have_counters_that_64_bits_refuse() {
    let (_, wide) = by_width();
    for kind in KINDS {
        let refused = |case: &&Case| case.kind == kind && !done(case);
        let high: Vec<bool> = wide
            .iter()
            .filter(refused)
            .filter(|case| case.counter == u64::MAX)
            .map(|case| case.upper == 0)
            .collect();
        assert!(high.contains(&true) && high.contains(&false), "{kind:?}");
    }
}

/// The same record but for the kind, among those of before.
#[test]
fn pairs_have_the_same_answer_where_the_counter_is_not_refused() {
    let (before, wide) = by_width();
    let (mut same, mut refused) = (HashSet::new(), HashSet::new());
    for case in wide.iter().filter(|case| case.upper == 0) {
        let widened = |other: &&Case| other.kind.widened() == Some(case.kind);
        let one = before.iter().filter(widened);
        let Some(one) = one.into_iter().find(|one| {
            let (one, case) = (one.record(), case.record());
            one[1..] == case[1..545]
        }) else {
            continue;
        };
        if one.counter > COUNTER_LIMIT {
            assert_eq!(one.answer(), (7, case.a));
            assert_eq!(case.answer().0, 0);
            refused.insert((case.kind as u8, case.counter));
        } else {
            assert_eq!(one.answer(), case.answer());
            same.insert((case.kind as u8, case.counter == COUNTER_LIMIT));
        }
    }
    for kind in KINDS.map(|kind| kind as u8) {
        for at_the_limit in [true, false] {
            assert!(same.contains(&(kind, at_the_limit)), "{kind}");
        }
        for counter in [u64::MAX - 159, u64::MAX] {
            assert!(refused.contains(&(kind, counter)), "{kind}");
        }
    }
}
