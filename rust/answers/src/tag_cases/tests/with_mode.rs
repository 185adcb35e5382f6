use super::*;
use crate::tag_cases::no_tag_sessions::would_be_tag;
use crate::tag_cases::units::in_bits;
use crate::tag_cases::with_mode::{but_for_the_mode, cases, records};

fn on(case: &Case) -> &On {
    case.on.as_ref().expect("a case on a tag session")
}

#[test]
fn each_record_is_no_tag_session_for_its_reason() {
    let met: Vec<Vec<String>> = records(&mut Generator::new(10))
        .iter()
        .map(reasons)
        .collect();
    let expected: [(&[&str], usize); 7] = [
        // The mode alone; where the blocks go by it, the outer one is another too.
        (&["inner mode"], 2 + 2),
        (&["outer mode"], 2),
        (&["outer mode", "outer taken"], 2),
        (&["inner mode", "outer mode"], 2),
        (&["inner mode", "outer mode", "outer taken"], 2),
        (&["inner waiting"], 2),
        (&["outer waiting"], 2),
    ];
    for (reasons, count) in expected {
        let same = met.iter().filter(|met| *met == reasons);
        assert_eq!(same.count(), count, "{reasons:?}");
    }
    assert_eq!(met.len(), 16);
}

/// Nothing but the mode is wrong: in double-pipe it is a tag session.
#[test]
fn the_mode_alone_is_wrong() {
    for bits in [256, 512] {
        for modes in [[SinglePipe, DoublePipe], [SinglePipe, SinglePipe]] {
            let session = but_for_the_mode(&mut Generator::new(10), bits, modes);
            let mut session = in_bits(&session);
            assert!(session.inner.is_session() && session.outer.is_session());
            assert!(!session.is_session());
            session.inner.mode = DoublePipe;
            session.outer.mode = DoublePipe;
            assert!(session.is_session());
        }
    }
}

#[test]
fn each_record_meets_each_task_and_comes_back_as_it_was() {
    let mut cases = cases(&mut Generator::new(10));
    let records = records_of(&mut cases);
    for cases in records.chunks(4) {
        let tasks: Vec<Task> = cases.iter().map(|case| case.task).collect();
        assert_eq!(tasks, [Task::Add, Task::Read, Task::IsSession, Task::Check]);
        for case in cases {
            let answer = case.answer();
            assert_eq!(on(case).session, on(&cases[0]).session);
            assert_eq!(answer.session, on(case).session);
            assert_eq!((answer.room, answer.yes), (on(case).room, false));
            match case.task {
                Task::IsSession => assert_eq!(case.line(), "no\n"),
                _ => assert!(case.line().starts_with("3 ")),
            }
        }
        // A check that forgot the modes would say yes.
        let tag = would_be_tag(&on(&cases[3]).session);
        assert!(on(&cases[3]).room.starts_with(&tag));
        assert_eq!(usize::from(cases[3].length), tag.len());
    }
}

/// The cases on records that are no tag session, which stand last.
fn records_of(cases: &mut Vec<Case>) -> Vec<Case> {
    cases.split_off(cases.len() - 4 * 16)
}

#[test]
fn the_others_are_tag_sessions_that_are_told_with_their_mode() {
    let mut cases = cases(&mut Generator::new(10));
    records_of(&mut cases);
    for task in [Task::Add, Task::Read, Task::Check] {
        assert!(cases.iter().any(|case| case.task == task));
    }
    for case in cases {
        if let Some(On { session, .. }) = &case.on {
            assert_eq!(reasons(session), [""; 0]);
            assert_eq!(case.answer().number, 0);
        }
        let fields = case.line().split(' ').count();
        match case.task {
            Task::Open => assert_eq!(fields, 1 + 10),
            Task::Add => assert_eq!(fields, 1 + 12),
            Task::Read | Task::Check => assert_eq!(fields, 2 + 12),
            _ => assert_eq!(case.line(), "yes\n"),
        }
    }
}
