mod wide;

use super::record::{RECORD, UPPER_HALF};
use super::*;

/// The cases from counters of 64 bits, and those from wide ones.
fn by_width() -> (Vec<Case>, Vec<Case>) {
    let cases = cases().into_iter();
    cases.partition(|case| !case.kind.is_wide())
}

#[test]
fn records_and_lines_have_their_sizes() {
    let cases = cases();
    assert!(cases.len() <= 940);
    for case in &cases {
        let upper = if case.kind.is_wide() { UPPER_HALF } else { 0 };
        assert_eq!(case.record().len(), RECORD + upper);
        assert!(case.salt_length <= 18 && case.a_length <= 272 && case.b_length <= 240);
        assert_eq!(case.line().len(), 2 + 2 * 272 + 1);
    }
}

/// The cases that were there before single-pipe.
fn double_pipe() -> Vec<Case> {
    let (mut cases, _) = by_width();
    let single = single_pipe::cases(&mut Generator::new(8)).len();
    cases.truncate(cases.len() - single);
    cases
}

#[test]
fn only_the_refused_cases_are_refused() {
    let mut counts = [0; 8];
    for case in double_pipe() {
        let (number, a) = case.answer();
        counts[number as usize] += 1;
        let lent = case.a_length as usize;
        assert_eq!(number == 0, a != case.a);
        assert_eq!(a[lent..], case.a[lent..]);
    }
    // 44 of rounds, 22 compressions and 4 empty messages are done. Alone, 9 are
    // refused for the salt, 23 for the shape and 6 for the counter; of the
    // twelve with several reasons, nine have a wrong salt. Byte by byte, 22 of
    // rounds are done; alone, 3 are refused for the salt, 8 for the shape and 2
    // for the counter, and of the four with several reasons three have a wrong
    // salt.
    let by_bytes = [22, 0, 3 + 3, 0, 0, 0, 8 + 1, 2];
    let others = [70, 0, 9 + 9, 0, 0, 0, 23 + 3, 6];
    let all: Vec<i32> = by_bytes.iter().zip(others).map(|(a, b)| a + b).collect();
    assert_eq!(counts[..], all[..]);
}

/// The sizes of a compression, by the table of refusals.
fn right_sizes(case: &Case) -> bool {
    let sizes = (case.a_length, case.b_length);
    match case.kind {
        Kind::Compress => [(64, 192), (128, 128)].contains(&sizes),
        _ => [(32, 224), (64, 192)].contains(&sizes),
    }
}

#[test]
fn only_the_refused_cases_are_refused_in_single_pipe() {
    let mut counts = [0; 8];
    for case in single_pipe::cases(&mut Generator::new(8)) {
        let reasons = [
            (2, case.salt_length != 16),
            (6, !right_sizes(&case)),
            (7, case.counter > u64::MAX - 160),
        ];
        let first = reasons.iter().find(|(_, holds)| *holds);
        let number = first.map_or(0, |(number, _)| *number);
        let (given, a) = case.answer();
        let lent = case.a_length as usize;
        assert_eq!(given, number);
        assert_eq!(number == 0, a != case.a);
        assert_eq!(a[lent..], case.a[lent..]);
        counts[number as usize] += 1;
    }
    // Both sizes at 11 counters, and one block in both modes. For each of the sizes
    // 3 are refused for the salt, 2 for the counter, and of the four with several
    // reasons three have a wrong salt; for their sizes alone, 23 and 3.
    assert_eq!(counts, [24, 0, 2 * (3 + 3), 0, 0, 0, 2 + 23 + 3, 2 * 2]);
}

#[test]
fn one_block_has_another_answer_in_the_other_mode() {
    let cases = single_pipe::cases(&mut Generator::new(8));
    let (double, single) = (&cases[22], &cases[23]);
    assert_eq!(double.record()[1..], single.record()[1..]);
    assert_eq!((double.kind as u8, single.kind as u8), (3, 5));
    assert_ne!(double.answer().1, single.answer().1);
}

#[test]
fn the_room_of_a_block_is_filled_to_its_end() {
    for case in cases() {
        let end = &case.b[208..];
        assert!(end.iter().any(|byte| *byte != end[0]));
    }
}

#[test]
fn backward_answers_are_the_squares_before() {
    let cases = cases();
    let pairs = cases[..44].chunks(2);
    let undone = pairs.filter(|pair| {
        let (forward, backward) = (&pair[0], &pair[1]);
        backward.a == forward.answer().1 && backward.answer().1 == forward.a
    });
    assert_eq!(undone.count(), 12);
}

#[test]
fn both_paths_have_the_same_answers() {
    let cases = cases();
    let answers = |kind| {
        let of_kind = cases.iter().filter(move |case| case.kind == kind);
        of_kind.map(Case::answer).collect::<Vec<_>>()
    };
    assert_eq!(answers(Kind::Rounds), answers(Kind::RoundsByBytes));
    assert_eq!(answers(Kind::Rounds).len(), 22 + 3 + 8 + 2 + 4);
}

#[test]
fn empty_messages_begin_with_the_published_digests() {
    let lines: Vec<String> = cases()[66..70].iter().map(Case::line).collect();
    assert!(lines[0].starts_with("0 17da087595166f733fff7cdb0bca6438f303d0e00c48b5e7a3075905"));
    assert!(
        lines[1].starts_with("0 4496cd09d425999aefa75189ee7fd3c97362aa9e4ca898328002d20a4b519788")
    );
    assert!(
        lines[2].starts_with("0 134040763f840559b84b7a1ae5d6d64fc3659821a789cc64a7f1444c09ee7f81")
    );
    assert!(
        lines[3].starts_with("0 158f58cc79d300a9aa292515049275d051a28ab931726d0ec44bdd9faef4a702")
    );
}

#[test]
fn the_files_hold_every_case() {
    let (cases, wide) = by_width();
    let count = cases.len() + wide.len();
    let files = files();
    let bytes = count * RECORD + wide.len() * UPPER_HALF;
    assert_eq!(files[0].bytes.len(), bytes);
    assert_eq!(files[1].lines(), count);
}
