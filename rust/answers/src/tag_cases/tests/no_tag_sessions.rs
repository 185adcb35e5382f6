use super::*;
use crate::tag_cases::no_tag_sessions::{cases, records, would_be_tag};
use crate::tag_cases::units::in_bits;
use std::collections::HashSet;

const TASKS: [Task; 4] = [Task::Add, Task::Read, Task::IsSession, Task::Check];

fn session(case: &Case) -> &TagSession {
    &case.on.as_ref().expect("a case on a tag session").session
}

#[test]
fn each_record_is_no_tag_session_for_its_reason() {
    let met: Vec<Vec<String>> = records(&mut Generator::new(6))
        .iter()
        .map(reasons)
        .collect();
    let expected: [(&[&str], usize); 12] = [
        (&["inner bits", "outer bits"], 2),
        (&["inner bits", "bits differ"], 1),
        (&["outer bits", "bits differ"], 1),
        (&["bits differ"], 3),
        (&["inner taken"], 3),
        (&["inner limit"], 1),
        (&["outer taken"], 6),
        (&["outer limit", "outer taken"], 1),
        (&["inner waiting"], 2),
        (&["outer waiting"], 2),
        (&["inner chaining"], 1),
        (&["outer chaining"], 1),
    ];
    for (reasons, count) in expected {
        let same = met.iter().filter(|met| *met == reasons);
        assert_eq!(same.count(), count, "{reasons:?}");
    }
    assert_eq!(met.len(), 24);
}

#[test]
fn each_reason_meets_each_task() {
    let cases = cases(&mut Generator::new(6));
    let of_task = |task: Task| -> Vec<Vec<String>> {
        let cases = cases.iter().filter(|case| case.task == task);
        cases.map(|case| reasons(session(case))).collect()
    };
    for task in TASKS {
        let met = of_task(task);
        assert_eq!(met.len(), 24 + 4);
        assert_eq!(met, of_task(Task::Add));
        let salts = met.iter().filter(|reasons| *reasons == &["salts differ"]);
        assert_eq!(salts.count(), 4);
    }
}

#[test]
fn salts_differ_once_at_each_place() {
    let mut places = Vec::new();
    for case in cases(&mut Generator::new(6)) {
        let TagSession { inner, outer } = session(&case);
        let differ = |place: &usize| inner.salt[*place] != outer.salt[*place];
        places.extend((0..16).filter(differ));
    }
    assert_eq!(places, (0..16).collect::<Vec<usize>>());
}

#[test]
fn outer_numbers_of_bytes_are_met_on_both_sides_of_a_block() {
    let numbers: HashSet<(u64, u64)> = records(&mut Generator::new(6))
        .iter()
        .filter(|session| reasons(session) == ["outer taken"])
        .map(|session| (block(session.outer.bits), session.outer.taken))
        .collect();
    let expected = [
        (192, 0),
        (192, 128),
        (192, 193),
        (128, 127),
        (128, 192),
        (128, 256),
    ];
    assert_eq!(numbers, HashSet::from(expected));
}

/// Where both are digest sessions, a check that forgot what else is asked would
/// say yes.
#[test]
fn checks_are_given_what_would_be_the_tag() {
    let mut given = 0;
    for case in cases(&mut Generator::new(6)) {
        let TagSession { inner, outer } = in_bits(session(&case));
        let both = inner.is_session() && outer.is_session();
        if case.task == Task::Check && both {
            let mut joined = outer.clone();
            let mut room = vec![0; inner.bits as usize / 8];
            inner.read(&mut room);
            joined.add(&room);
            let mut tag = vec![0; outer.bits as usize / 8];
            assert_eq!(joined.read(&mut tag), 0);
            assert_eq!(usize::from(case.length), tag.len());
            assert!(case.record()[HEADER + 770..].starts_with(&tag));
            given += 1;
        }
    }
    // Digest lengths that differ, numbers of bytes, and salts.
    assert_eq!(given, 3 + 3 + 6 + 4);
    assert_eq!(would_be_tag(&BLANK), [0; 64]);
}

#[test]
fn all_are_refused() {
    for case in cases(&mut Generator::new(6)) {
        let line = case.line();
        match case.task {
            Task::IsSession => assert_eq!(line, "no\n"),
            Task::Check => assert!(line.starts_with("3 no ")),
            _ => assert!(line.starts_with("3 ")),
        }
        assert_eq!(refusals(&case).is_empty(), case.task == Task::IsSession);
    }
}
