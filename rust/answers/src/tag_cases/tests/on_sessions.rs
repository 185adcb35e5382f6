use super::*;
use crate::tag_cases::{checks, refused};
use std::collections::HashSet;

fn on(case: &Case) -> &On {
    case.on.as_ref().expect("a case on a tag session")
}

/// The cases of a task that are done, in the family of a block size.
fn done(task: Task, b: u64) -> Vec<Case> {
    let mut cases = without_mode();
    cases.retain(|case| {
        let same = case.task == task && refusals(case).is_empty();
        same && block(on(case).session.inner.bits) == b
    });
    cases
}

#[test]
fn refusals_are_those_of_the_table() {
    let mut counts = [[0; 6]; 2];
    for case in in_bytes() {
        let number = refusals(&case).first().copied().unwrap_or(0);
        match case.task {
            Task::Whole => {}
            Task::IsSession => {
                let yes = reasons(&on(&case).session).is_empty();
                assert_eq!(case.line(), if yes { "yes\n" } else { "no\n" });
            }
            _ => {
                assert_eq!(case.answer().number, number);
                assert!(case.line().starts_with(&format!("{number} ")));
                counts[usize::from(case.with_mode)][usize::from(number)] += 1;
            }
        }
    }
    // Done are, in each family, 6 openings, 7 from an opening that answer with a
    // number, 2 to the limit, 10 readings, 9 pieces and 10 checks. The 24 records
    // that are no tag session are refused three times, 12 of those whose salts
    // differ once, and 8 in pairs.
    let refused = [6 + 2, 4, 3 * 24 + 12 + 8, 4, 4];
    assert_eq!(counts[0][0], 2 * (6 + 7 + 2 + 10 + 9 + 10));
    assert_eq!(counts[0][1..], refused);
    // With the mode, openings and checks of their own are left out, and the 16
    // records that are no tag session are refused three times.
    assert_eq!(counts[1], [2 * (7 + 2 + 10 + 9), 0, 0, 3 * 16, 0, 0]);
}

#[test]
fn a_refusal_hands_everything_back_as_it_came() {
    for case in cases() {
        let answer = case.answer();
        if case.task == Task::Open && answer.number != 0 {
            assert_eq!(answer.session, BLANK);
        }
        let Some(On { session, room }) = &case.on else {
            continue;
        };
        if answer.number != 0 || case.task != Task::Add {
            assert_eq!(&answer.session, session);
        }
        if answer.number != 0 || case.task != Task::Read {
            assert_eq!(&answer.room, room);
        }
        assert!(answer.number == 0 || !answer.yes);
    }
}

#[test]
fn a_reading_changes_its_room_alone() {
    for case in [done(Task::Read, 192), done(Task::Read, 128)].concat() {
        let answer = case.answer();
        let size = on(&case).session.inner.bits as usize / 8;
        assert_ne!(answer.room[..size], on(&case).room[..size]);
        assert_eq!(answer.room[size..], on(&case).room[size..]);
    }
}

#[test]
fn a_piece_changes_the_inner_session_alone() {
    for case in [done(Task::Add, 192), done(Task::Add, 128)].concat() {
        let (before, after) = (&on(&case).session, case.answer().session);
        assert_eq!(after.outer, before.outer);
        let taken = before.inner.taken + u64::from(case.length);
        assert_eq!(after.inner.taken, taken);
        assert_eq!(after == *before, case.length == 0);
    }
}

#[test]
fn openings_have_keys_of_each_size() {
    let mut met = HashSet::new();
    for case in cases() {
        if case.task == Task::Open && refusals(&case).is_empty() {
            met.insert((block(case.bits), case.key_length));
            let session = case.answer().session;
            assert_eq!(reasons(&session), [""; 0]);
            let empty = by_hand(case.bits, &case.salt, &case.key(), b"");
            assert_eq!(tag(&session), empty);
        }
    }
    for b in [192, 128] {
        for key in [0, 1, b - 1, b, b + 1, 1000] {
            assert!(met.contains(&(b, key as u16)));
        }
    }
}

#[test]
fn every_pair_of_refusals_is_met() {
    let mut cases = refused::cases(&mut Generator::new(6));
    cases.extend(openings::cases(&mut Generator::new(6)));
    let sets: Vec<Vec<u8>> = cases.iter().map(refusals).collect();
    for (set, count) in [
        (vec![1, 2], 2),
        (vec![3, 4], 4),
        (vec![3, 5], 4),
        (vec![4], 4),
        (vec![5], 4),
        (vec![1], 6),
        (vec![2], 4),
    ] {
        assert_eq!(sets.iter().filter(|met| **met == set).count(), count);
    }
}

#[test]
fn both_sides_of_the_limit_are_met() {
    let total = |case: &Case| on(case).session.inner.taken + u64::from(case.length);
    let mut over = without_mode();
    over.retain(|case| refusals(case) == [4]);
    let over: Vec<u64> = over.iter().map(|case| total(case) - LIMIT).collect();
    assert_eq!(over, [1, 1, 255, 1]);
    for b in [192, 128] {
        let cases = done(Task::Add, b);
        for empty in [true, false] {
            let met = |case: &Case| total(case) == LIMIT && (case.length == 0) == empty;
            assert!(cases.iter().any(met));
        }
    }
}

#[test]
fn readings_meet_every_edge() {
    for b in [192, 128] {
        let cases = done(Task::Read, b);
        let taken: HashSet<u64> = cases
            .iter()
            .map(|case| on(case).session.inner.taken)
            .collect();
        for used in [b - 19, b - 18, b - 1, b] {
            assert!(taken.contains(&(b + used)));
        }
        let end = LIMIT - 107;
        for n in [b, b + 1, end - 19, end - 18, end, LIMIT] {
            assert!(taken.contains(&n));
        }
        let bits = cases.iter().map(|case| on(case).session.inner.bits);
        assert_eq!(bits.collect::<HashSet<u64>>().len(), 6);
    }
}

#[test]
fn pieces_end_on_every_side_of_a_block() {
    for b in [192, 128] {
        // Blocks that a piece fills, and bytes of it that wait then, up to one.
        let mut ends = HashSet::new();
        for case in done(Task::Add, b) {
            let in_use = on(&case).session.inner.taken % b;
            let bytes = in_use + u64::from(case.length);
            ends.insert((bytes / b, (bytes % b).min(1), in_use == 0));
        }
        for end in [(0, 1), (1, 0), (2, 1)] {
            assert!(ends.contains(&(end.0, end.1, false)));
        }
        for end in [(0, 0), (0, 1), (1, 0)] {
            assert!(ends.contains(&(end.0, end.1, true)));
        }
    }
}

/// Of each ten, only the first is the tag.
#[test]
fn checks_are_of_tags_that_are_nearly_right() {
    let cases = checks::cases(&mut Generator::new(6));
    for cases in cases.chunks(10) {
        let given = |case: &Case| on(case).room[..usize::from(case.length)].to_vec();
        let right = tag(&on(&cases[0]).session);
        let size = right.len();
        let lengths: Vec<usize> = cases.iter().map(|case| given(case).len()).collect();
        let others = [size - 1, size + 1, 255, 0, size - 1, size];
        assert_eq!(lengths[..4], [size; 4]);
        assert_eq!(lengths[4..], others);
        assert_eq!(given(&cases[0]), right);
        for (case, wrong) in cases[1..4].iter().zip([0, (size - 1) / 2, size - 1]) {
            for (place, (given, right)) in given(case).iter().zip(&right).enumerate() {
                let flipped = (given ^ right).count_ones();
                assert_eq!(flipped, u32::from(place == wrong));
            }
        }
        assert!(right.starts_with(&given(&cases[4])));
        assert!(given(&cases[5]).starts_with(&right));
        assert!(given(&cases[6]).starts_with(&right));
        assert!(!right.starts_with(&given(&cases[8])));
        for (turn, case) in cases.iter().enumerate() {
            assert_eq!((case.answer().number, case.answer().yes), (0, turn == 0));
        }
    }
}

#[test]
fn from_an_opening_readings_and_checks_are_of_tags() {
    for lengths in FAMILIES {
        let cases = from_an_opening(&mut Generator::new(6), &lengths);
        let opening = &cases[0];
        let mut message = Vec::new();
        let (mut readings, mut said) = (0, Vec::new());
        for case in &cases[1..] {
            let lent = &on(case).room[..usize::from(case.length)];
            if case.task == Task::Add {
                message.extend(lent);
            }
            let tag = by_hand(opening.bits, &opening.salt, &opening.key(), &message);
            let answer = case.answer();
            if case.task == Task::Read {
                assert_eq!(answer.room[..tag.len()], tag);
                readings += 1;
            }
            if case.task == Task::Check {
                assert_eq!(answer.yes, lent == tag);
                said.push(answer.yes);
            }
        }
        assert_eq!((readings, said), (2, vec![true, false]));
        assert_eq!(message.len() as u64, lengths.block + 22);
    }
}

#[test]
fn a_case_follows_on_the_session_before_it() {
    for lengths in FAMILIES {
        let mut generator = Generator::new(6);
        for cases in [
            from_an_opening(&mut generator, &lengths),
            to_the_limit(&mut generator, &lengths),
        ] {
            for pair in cases.windows(2) {
                assert_eq!(on(&pair[1]).session, pair[0].answer().session);
            }
        }
    }
}
