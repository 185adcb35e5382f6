mod in_bits;

use super::forged::families;
use super::record::{RECORD, RECORD_IN_BITS, ROOM};
use super::*;
use plain::digest;
use plain::mode::Mode::{self, SinglePipe};
use plain::mode::MODES;
use std::collections::HashSet;

/// The most bytes of a message: 2^61 - 21.
const LIMIT: u64 = 2_305_843_009_213_693_931;

/// Bytes of a block, by mode and family.
fn block(mode: Mode, bits: u64) -> u64 {
    match (mode, bits <= 256) {
        (SinglePipe, true) => 224,
        (SinglePipe, false) | (DoublePipe, true) => 192,
        (DoublePipe, false) => 128,
    }
}

/// The cases on sessions that count bytes.
fn in_bytes() -> Vec<Case> {
    let mut cases = cases();
    cases.retain(|case| case.in_bits.is_none());
    cases
}

/// Why a record that counts bytes is no session, by the words of the rule.
fn reasons(session: &Session) -> Vec<&'static str> {
    let b = block(session.mode, session.bits);
    let in_use = session.taken % b;
    let waits = |place: usize| session.waiting[place] != 0 && place as u64 >= in_use;
    let chained = |place: usize| session.chaining[place] != 0 && place as u64 >= 256 - b;
    let reasons = [
        ("bits", !(16..=64).any(|bytes| 8 * bytes == session.bits)),
        ("taken", session.taken > LIMIT),
        ("waiting", (0..224).any(waits)),
        ("chaining", (0..128).any(chained)),
    ];
    holding(reasons)
}

/// Every refusal number that applies, the lowest first, by the table of refusal
/// numbers.
fn refusals(case: &Case) -> Vec<u8> {
    let Session { bits, taken, .. } = case.session;
    let admitted = (16..=64).any(|bytes| 8 * bytes == bits);
    let no_session = (3, !reasons(&case.session).is_empty());
    let long = u128::from(taken) + u128::from(case.length) > u128::from(LIMIT);
    match case.task {
        Task::Open => holding([(1, !admitted), (2, case.length < 16)]),
        Task::Add => holding([no_session, (4, long)]),
        Task::Read => holding([no_session, (5, u64::from(case.length) < bits / 8)]),
        Task::AddBits | Task::IsSession => vec![],
    }
}

fn holding<T, const N: usize>(conditions: [(T, bool); N]) -> Vec<T> {
    let holding = conditions.into_iter().filter(|(_, holds)| *holds);
    holding.map(|(what, _)| what).collect()
}

/// What the cases of a mode are counted by: whether their lines tell it.
const GROUPS: [(Mode, bool); 3] = [(DoublePipe, false), (DoublePipe, true), (SinglePipe, true)];

/// The cases of a group, but for sessions that come from the other mode.
fn group(mode: Mode, with_mode: bool) -> Vec<Case> {
    let mut cases = in_bytes();
    cases.truncate(cases.len() - 18);
    cases.retain(|case| (case.session.mode, case.with_mode) == (mode, with_mode));
    cases
}

/// The cases of a task in a group that are done, in the family of a block size.
fn done(group: (Mode, bool), task: Task, b: u64) -> Vec<Case> {
    let mut cases = self::group(group.0, group.1);
    cases.retain(|case| {
        let family = block(case.session.mode, case.session.bits);
        case.task == task && refusals(case).is_empty() && family == b
    });
    cases
}

/// Each group with the block of each of its families.
fn families_of_groups() -> impl Iterator<Item = ((Mode, bool), u64)> {
    let blocks = |mode| families(mode).map(|lengths| lengths.block);
    GROUPS
        .into_iter()
        .flat_map(move |group| blocks(group.0).map(|b| (group, b)))
}

#[test]
fn records_have_their_layout() {
    let mut case = Case {
        task: Task::Read,
        with_mode: false,
        in_bits: None,
        length: 3,
        session: Session {
            mode: SinglePipe,
            bits: 0x0b0a_0908_0706_0504,
            salt: [0x14; 16],
            chaining: [0x15; 128],
            taken: 0x1312_1110_0f0e_0d0c,
            waiting: [0x16; 224],
        },
        room: [0x17; ROOM],
    };
    let numbers: Vec<u8> = (2..0x14).collect();
    let Session {
        salt,
        chaining,
        waiting,
        ..
    } = &case.session;
    let record = [&numbers[..], salt, chaining, waiting, &[1], &case.room].concat();
    assert_eq!(case.record(), record);
    assert_eq!(case.record().len(), RECORD);
    let tasks = [Task::Add, Task::Read, Task::IsSession, Task::Open];
    for (with_mode, numbers) in [(false, [1, 2, 3, 4]), (true, [5, 6, 3, 7])] {
        for (task, number) in tasks.into_iter().zip(numbers) {
            (case.task, case.with_mode) = (task, with_mode);
            assert_eq!(case.record()[0], number);
        }
    }
    case.in_bits = Some(0x1f1e_1d1c_1b1a_1918);
    let count: Vec<u8> = (0x18..0x20).collect();
    for (task, number) in [
        (Task::AddBits, 8),
        (Task::Read, 9),
        (Task::IsSession, 10),
        (Task::Add, 11),
    ] {
        case.task = task;
        assert_eq!(case.record(), [&[number], &record[1..], &count].concat());
        assert_eq!(case.record().len(), RECORD_IN_BITS);
    }
}

/// The mode stands in front, and the waiting room goes on.
#[test]
fn lines_with_the_mode_have_their_fields() {
    let mut session = Session {
        mode: SinglePipe,
        bits: 256,
        taken: 224 + 223,
        ..BLANK
    };
    session.waiting[222] = 0x0f;
    let case = |task, length| Case {
        task,
        with_mode: true,
        in_bits: None,
        length,
        session: session.clone(),
        room: [0xee; ROOM],
    };
    let zeros = "0".repeat(444);
    let kept = format!("1 256 447 {} {} {zeros}0f00", &zeros[..32], &zeros[..256]);
    assert_eq!(case(Task::Add, 0).line(), format!("0 {kept}\n"));
    assert_eq!(case(Task::Read, 2).line(), format!("5 {kept} eeee\n"));
    assert_eq!(case(Task::IsSession, 0).line(), "yes\n");
    let opened = case(Task::Open, 16).line();
    let begin = format!("0 1 256 0 {} 0001", &zeros[..32]);
    assert!(opened.starts_with(&begin));
    // A refused opening hands out the blank session, which is in double-pipe.
    let blank = format!("0 0 0 {} {} {zeros}0000", &zeros[..32], &zeros[..256]);
    assert_eq!(case(Task::Open, 15).line(), format!("2 {blank}\n"));
}

#[test]
fn lines_have_their_fields() {
    let mut session = Session {
        bits: 256,
        taken: 2,
        ..BLANK
    };
    session.waiting[1] = 0x0f;
    session.salt[15] = 0xa0;
    let case = |task, length| Case {
        task,
        with_mode: false,
        in_bits: None,
        length,
        session: session.clone(),
        room: [0xee; ROOM],
    };
    let zeros = "0".repeat(380);
    let salt = format!("{}a0", &zeros[..30]);
    let kept = format!("256 2 {salt} {} 000f{zeros}", &zeros[..256]);
    assert_eq!(case(Task::Add, 0).line(), format!("0 {kept}\n"));
    assert_eq!(case(Task::Read, 0).line(), format!("5 {kept} \n"));
    assert_eq!(case(Task::Read, 2).line(), format!("5 {kept} eeee\n"));
    let line = case(Task::Read, 33).line();
    assert!(line.starts_with(&format!("0 {kept} ")) && line.ends_with("ee\n"));
    assert_eq!(line.len(), 2 + kept.len() + 1 + 66 + 1);
    assert_eq!(case(Task::IsSession, 0).line(), "yes\n");
    let opened = case(Task::Open, 200).line();
    assert!(opened.starts_with(&format!("0 256 0 {salt} 0001")));
}

#[test]
fn refusals_are_those_of_the_table() {
    for case in in_bytes() {
        let number = refusals(&case).first().copied().unwrap_or(0);
        assert_eq!(case.answer().number, number);
        if case.task == Task::IsSession {
            let yes = reasons(&case.session).is_empty();
            assert_eq!(case.line(), if yes { "yes\n" } else { "no\n" });
        } else {
            assert!(case.line().starts_with(&format!("{number} ")));
        }
    }
    // Done are, in each family, 5 from an opening, 2 to the limit, 15 readings
    // and 16 pieces, and one opening more; and where the mode is told, 6 openings.
    // The records that are no session are refused once each, and in 10 pairs.
    let mut numbers = Vec::new();
    for ((mode, with_mode), openings, records) in
        [(GROUPS[0], 0, 23), (GROUPS[1], 6, 23), (GROUPS[2], 6, 33)]
    {
        let mut counts = [0; 6];
        for case in group(mode, with_mode) {
            if case.task != Task::IsSession {
                counts[usize::from(case.answer().number)] += 1;
            }
        }
        let done = 2 * (5 + 2 + 15 + 16 + openings) + 1;
        assert_eq!(counts, [done, 3, 2, records + 10, 6, 6]);
        numbers.push(counts.iter().sum::<usize>());
    }
    assert_eq!(numbers, [127, 139, 149]);
}

/// Four of six are no session, for the chaining value or the waiting bytes.
#[test]
fn sessions_of_the_other_mode_are_asked_about() {
    let mut cases = in_bytes();
    let met: Vec<Vec<&str>> = cases
        .split_off(cases.len() - 18)
        .chunks(3)
        .map(|cases| {
            let session = &cases[0].session;
            assert!(cases.iter().all(|case| case.session == *session));
            let refused = !reasons(session).is_empty();
            assert_eq!(cases[0].line(), if refused { "no\n" } else { "yes\n" });
            let number = if refused { 3 } else { 0 };
            assert!(cases[1..].iter().all(|case| case.answer().number == number));
            reasons(session)
        })
        .collect();
    let [chaining, waiting, none] = [vec!["chaining"], vec!["waiting"], vec![]];
    let expected = [&chaining, &chaining, &waiting, &waiting, &none, &none];
    assert!(met.iter().eq(expected));
}

#[test]
fn a_refusal_hands_everything_back_as_it_came() {
    for case in cases() {
        let answer = case.answer();
        if answer.number != 0 && case.task == Task::Open {
            assert_eq!(answer.session, BLANK);
        } else if answer.number != 0 {
            assert_eq!(answer.session, case.session);
        }
        if answer.number != 0 || case.task != Task::Read {
            assert_eq!(answer.room, case.room);
        }
    }
}

#[test]
fn a_reading_changes_its_room_and_nothing_else() {
    let readings = families_of_groups().flat_map(|(group, b)| done(group, Task::Read, b));
    for case in readings {
        let answer = case.answer();
        let size = case.session.bits as usize / 8;
        assert_eq!(answer.session, case.session);
        assert_ne!(answer.room[..size], case.room[..size]);
        assert_eq!(answer.room[size..], case.room[size..]);
    }
}

#[test]
fn each_record_is_no_session_for_one_reason() {
    let generator = &mut Generator::new(5);
    // The blank session is one of those with a wrong digest length.
    for (records, expected) in [
        (no_sessions::records(generator), [1 + 8, 4, 8, 2]),
        (
            near_sessions::records(generator, DoublePipe),
            [1 + 8, 4, 8, 2],
        ),
        (
            near_sessions::records(generator, SinglePipe),
            [1 + 8, 4, 12, 8],
        ),
    ] {
        let mut counts = [0; 4];
        for session in records {
            let reasons = reasons(&session);
            assert_eq!(reasons.len(), 1);
            let names = ["bits", "taken", "waiting", "chaining"];
            let which = names.iter().position(|name| *name == reasons[0]);
            counts[which.expect("one of the four")] += 1;
        }
        assert_eq!(counts, expected);
    }
}

/// Places of the waiting room past 192, which only single-pipe up to 256 bits has a
/// use for, and of the chaining room past 32 and past 64.
#[test]
fn rooms_that_are_not_in_use_are_met_to_their_ends() {
    let mut met = HashSet::new();
    for mode in MODES {
        for session in near_sessions::records(&mut Generator::new(9), mode) {
            let family = block(mode, session.bits);
            let last = |room: &[u8]| room.iter().rposition(|byte| *byte != 0);
            for reason in reasons(&session) {
                let room = match reason {
                    "waiting" => &session.waiting[..],
                    "chaining" => &session.chaining,
                    _ => continue,
                };
                met.insert((reason, mode.number(), family, last(room)));
            }
        }
    }
    for (reason, mode, family, place) in [
        ("waiting", 0, 192, 192),
        ("waiting", 0, 192, 223),
        ("waiting", 0, 128, 192),
        ("waiting", 0, 128, 223),
        ("waiting", 1, 192, 192),
        ("waiting", 1, 192, 223),
        ("waiting", 1, 224, 223),
        ("chaining", 0, 192, 64),
        ("chaining", 0, 192, 127),
        ("chaining", 1, 192, 64),
        ("chaining", 1, 192, 127),
        ("chaining", 1, 224, 32),
        ("chaining", 1, 224, 127),
    ] {
        assert!(met.contains(&(reason, mode, family, Some(place))));
    }
}

#[test]
fn every_pair_of_refusals_is_met() {
    for mode in MODES {
        let pairs: Vec<Vec<u8>> = refused::cases(&mut Generator::new(5), mode)
            .iter()
            .map(refusals)
            .filter(|numbers| numbers.len() > 1)
            .collect();
        for (pair, count) in [([1, 2], 1), ([3, 4], 5), ([3, 5], 5)] {
            let met = pairs.iter().filter(|numbers| **numbers == pair);
            assert_eq!(met.count(), count);
        }
        assert_eq!(pairs.len(), 11);
    }
}

#[test]
fn both_sides_of_the_limit_are_met() {
    let over = |case: &Case| case.session.taken + u64::from(case.length) - LIMIT;
    for (mode, with_mode) in GROUPS {
        let refused = group(mode, with_mode);
        let refused = refused.iter().filter(|case| refusals(case) == [4]);
        let over: Vec<u64> = refused.map(over).collect();
        assert_eq!(over, [1, 1, 1, 255, 1, 1]);
    }
    for (group, b) in families_of_groups() {
        let cases = done(group, Task::Add, b);
        for empty in [true, false] {
            assert!(cases.iter().any(|case| {
                let total = case.session.taken + u64::from(case.length);
                total == LIMIT && (case.length == 0) == empty
            }));
        }
    }
}

#[test]
fn pieces_end_on_every_side_of_a_block() {
    for (group, b) in families_of_groups() {
        // Blocks that a piece fills, and bytes of it that wait then.
        let mut ends = HashSet::new();
        for case in done(group, Task::Add, b) {
            let in_use = case.session.taken % b;
            let bytes = in_use + u64::from(case.length);
            let answer = case.answer().session;
            assert_eq!(
                case.session.chaining == answer.chaining,
                bytes / b == 0,
                "a block that is full is compressed at once"
            );
            if case.length == 0 {
                assert_eq!(case.session, answer);
            }
            ends.insert((bytes / b, (bytes % b).min(1), in_use == 0));
        }
        for end in [(0, 1), (1, 0), (1, 1), (2, 0), (2, 1)] {
            assert!(ends.contains(&(end.0, end.1, false)));
        }
        for end in [(0, 0), (0, 1), (1, 0), (1, 1)] {
            assert!(ends.contains(&(end.0, end.1, true)));
        }
    }
}

#[test]
fn readings_meet_every_row_of_counters() {
    for (group, b) in families_of_groups() {
        let cases = done(group, Task::Read, b);
        let met = |taken: u64| cases.iter().any(|case| case.session.taken == taken);
        for begin in [0, LIMIT - 107 - b] {
            for used in [b - 19, b - 18, b - 1, b] {
                assert!(met(begin + used));
            }
        }
        assert!(met(0) && met(b + 1) && met(LIMIT));
        let more = cases
            .iter()
            .map(|case| u64::from(case.length) - case.session.bits / 8);
        let more: HashSet<u64> = more.collect();
        assert_eq!(more, HashSet::from([0, 1, 7, 64]));
        let bits: HashSet<u64> = cases.iter().map(|case| case.session.bits).collect();
        assert_eq!(bits.len(), 6);
    }
}

#[test]
fn from_an_opening_the_readings_are_digests() {
    for lengths in MODES.into_iter().flat_map(families) {
        let cases = from_an_opening(&mut Generator::new(5), &lengths);
        let (bits, salt) = (lengths.bits[4], cases[0].session.salt);
        let mut message = Vec::new();
        for pair in cases[1..].chunks(2) {
            message.extend(&pair[0].room[..usize::from(pair[0].length)]);
            let expected = digest::digest(lengths.mode, bits, &salt, &message);
            assert_eq!(pair[1].answer().room[..expected.len()], expected);
        }
        assert_eq!(message.len() as u64, lengths.block + 22);
    }
}

#[test]
fn a_case_follows_on_the_session_before_it() {
    for lengths in MODES.into_iter().flat_map(families) {
        let mut generator = Generator::new(5);
        for cases in [
            from_an_opening(&mut generator, &lengths),
            to_the_limit(&mut generator, &lengths),
        ] {
            for pair in cases.windows(2) {
                assert_eq!(pair[1].session, pair[0].answer().session);
            }
        }
    }
}

#[test]
fn the_files_hold_every_case() {
    let (all, bytes) = (cases().len(), in_bytes().len());
    let files = files();
    let size = bytes * RECORD + (all - bytes) * RECORD_IN_BITS;
    assert_eq!(files[0].bytes.len(), size);
    assert_eq!(files[1].lines(), all);
}
