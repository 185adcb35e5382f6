use super::*;
use crate::tag_cases::in_bits::{self, parts};
use crate::tag_cases::units;
use std::collections::HashSet;

/// The most bits of a message: 2^64 - 161.
const MOST_BITS: u64 = 18_446_744_073_709_551_455;

fn in_bits() -> Vec<Case> {
    in_bits::cases(&mut Generator::new(14))
}

fn on(case: &Case) -> &On {
    case.on.as_ref().expect("a case on a tag session")
}

/// Why a record that counts bits is no tag session, by the words of the rule. Nothing but
/// the numbers of bits is wrong in any.
fn reasons_in_bits(session: &TagSession) -> Vec<&'static str> {
    let TagSession { inner, outer } = session;
    let block = 8 * block(outer.bits);
    holding([
        ("inner limit", inner.taken > MOST_BITS),
        ("outer limit", outer.taken > MOST_BITS),
        ("inner part", inner.taken % 8 != 0),
        ("inner taken", inner.taken < block),
        ("outer taken", outer.taken != block),
    ])
}

fn refusals_in_bits(case: &Case) -> Vec<u8> {
    let On { session, .. } = on(case);
    let no_session = (3, !reasons_in_bits(session).is_empty());
    let taken = u128::from(session.inner.taken) + 8 * u128::from(case.length);
    let room = u64::from(case.length);
    match case.task {
        Task::Add => holding([no_session, (4, taken > u128::from(MOST_BITS))]),
        Task::Read => holding([no_session, (5, room < session.inner.bits / 8)]),
        _ => holding([no_session]),
    }
}

#[test]
fn they_stand_behind_all_others() {
    let (all, bytes) = (cases(), in_bytes().len());
    assert!(all[bytes..]
        .iter()
        .all(|case| case.in_bits && case.with_mode));
    assert_eq!(all.len() - bytes, in_bits().len());
}

#[test]
fn refusals_are_those_of_the_table_in_bits() {
    let mut met = HashSet::new();
    for case in in_bits() {
        let numbers = refusals_in_bits(&case);
        let number = numbers.first().copied().unwrap_or(0);
        let answer = case.answer();
        match case.task {
            Task::IsSession => {
                assert_eq!(case.line(), if number == 0 { "yes\n" } else { "no\n" });
            }
            _ => assert_eq!(answer.number, number),
        }
        if number != 0 || case.task != Task::Add {
            assert_eq!(answer.session, on(&case).session);
        }
        if number != 0 || case.task != Task::Read {
            assert_eq!(answer.room, on(&case).room);
        }
        assert_eq!(answer.yes, case.task == Task::Check && number == 0);
        met.insert((numbers, case.task as u8));
    }
    for (numbers, tasks) in [
        (
            vec![],
            &[Task::Add, Task::Read, Task::IsSession, Task::Check][..],
        ),
        (
            vec![3],
            &[Task::Add, Task::Read, Task::IsSession, Task::Check],
        ),
        (vec![4], &[Task::Add]),
        (vec![5], &[Task::Read]),
        (vec![3, 4], &[Task::Add]),
        (vec![3, 5], &[Task::Read]),
    ] {
        for task in tasks {
            assert!(met.contains(&(numbers.clone(), *task as u8)));
        }
    }
}

/// A part of a byte of every size, in either session and in both, and each task: each
/// part of the record is a digest session for itself.
#[test]
fn every_part_of_a_byte_is_met() {
    for lengths in FAMILIES {
        let records = parts(&mut Generator::new(14), &lengths);
        let mut met = HashSet::new();
        for session in &records {
            assert!(session.inner.is_session() && session.outer.is_session());
            let [inner, outer] = [&session.inner, &session.outer].map(|part| part.taken % 8);
            met.insert((inner, outer));
        }
        for part in 1..8 {
            for sizes in [(part, 0), (0, part), (part, part)] {
                assert!(met.contains(&sizes));
            }
        }
        let limit = records.iter().map(|session| session.inner.taken).max();
        assert_eq!(limit, Some(MOST_BITS));
    }
    let tasks: HashSet<(u64, u8)> = in_bits()
        .iter()
        .map(|case| (on(case).session.inner.taken % 8, case.task as u8))
        .collect();
    assert_eq!(tasks.iter().filter(|(part, _)| *part != 0).count(), 7 * 4);
}

/// What is asked in bytes has the same answer in bits.
#[test]
fn records_in_bytes_are_answered_as_in_bits() {
    for mut case in in_bytes() {
        if !case.with_mode || case.task == Task::Open {
            continue;
        }
        let answer = case.answer();
        let line = case.line();
        let on = case.on_mut();
        on.session = units::in_bits(&on.session);
        case.in_bits = true;
        let in_bits = case.answer();
        assert_eq!(in_bits.session, units::in_bits(&answer.session));
        assert_eq!((in_bits.number, in_bits.yes), (answer.number, answer.yes));
        assert_eq!(in_bits.room, answer.room);
        assert_eq!(case.line() == line, case.task == Task::IsSession);
    }
}

#[test]
fn lines_in_bits_have_their_fields() {
    let mut session = BLANK;
    for part in [&mut session.inner, &mut session.outer] {
        (part.bits, part.taken) = (256, 1536);
    }
    session.inner.taken = 1539;
    let zeros = "0".repeat(448);
    let fields = |taken: u64| format!("0 256 {taken} {} {} {zeros}", &zeros[..32], &zeros[..256]);
    let mut case = Case::on(&mut Generator::new(14), Task::Add, 0, session);
    (case.with_mode, case.in_bits) = (true, true);
    assert_eq!(
        case.line(),
        format!("3 {} {}\n", fields(1539), fields(1536))
    );
    case.on_mut().session.inner.taken = 1544;
    assert_eq!(
        case.line(),
        format!("0 {} {}\n", fields(1544), fields(1536))
    );
}
