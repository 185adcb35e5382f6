use super::*;
use crate::session_cases::in_bits::{self, refused};
use crate::session_cases::units;

/// The most bits of a message: 2^64 - 161.
const MOST: u64 = 18_446_744_073_709_551_455;

fn in_bits() -> Vec<Case> {
    in_bits::cases(&mut Generator::new(13))
}

/// Whether a bit is set, the most significant one of a byte first.
fn bit(bytes: &[u8], place: usize) -> bool {
    bytes[place / 8] & 0x80 >> (place % 8) != 0
}

/// Why a record that counts bits is no session, by the words of the rule.
fn reasons_in_bits(session: &Session) -> Vec<&'static str> {
    let b = block(session.mode, session.bits);
    let in_use = session.taken % (8 * b);
    let waits = |place: usize| bit(&session.waiting, place) && place as u64 >= in_use;
    let chained = |place: usize| session.chaining[place] != 0 && place as u64 >= 256 - b;
    holding([
        ("bits", !(16..=64).any(|bytes| 8 * bytes == session.bits)),
        ("taken", session.taken > MOST),
        ("waiting", (0..8 * 224).any(waits)),
        ("chaining", (0..128).any(chained)),
    ])
}

/// Every refusal number that applies, the lowest first.
fn refusals_in_bits(case: &Case) -> Vec<u8> {
    let Session { bits, taken, .. } = case.session;
    let piece = &case.room[..usize::from(case.length)];
    let (count, set) = match (case.task, case.in_bits) {
        (Task::AddBits, Some(count)) => {
            let behind = (0..8 * piece.len()).filter(|place| *place as u64 >= count);
            (count, behind.into_iter().any(|place| bit(piece, place)))
        }
        _ => (8 * u64::from(case.length), false),
    };
    let no_session = (3, !reasons_in_bits(&case.session).is_empty());
    match case.task {
        Task::Add | Task::AddBits => holding([
            no_session,
            (4, u128::from(taken) + u128::from(count) > u128::from(MOST)),
            (
                6,
                u64::from(case.length) != count / 8 + u64::from(count % 8 > 0),
            ),
            (16, count > 0 && taken % 8 != 0),
            (17, set),
        ]),
        Task::Read => holding([no_session, (5, u64::from(case.length) < bits / 8)]),
        Task::IsSession => vec![],
        Task::Open => panic!("nothing is opened in bits"),
    }
}

#[test]
fn they_stand_behind_all_others() {
    let (all, bytes) = (cases(), in_bytes().len());
    assert!(all[bytes..].iter().all(|case| case.in_bits.is_some()));
    assert_eq!(all.len() - bytes, in_bits().len());
}

#[test]
fn refusals_are_those_of_the_table_in_bits() {
    let mut counts = [0; 18];
    for case in in_bits() {
        let number = refusals_in_bits(&case).first().copied().unwrap_or(0);
        if case.task == Task::IsSession {
            let yes = reasons_in_bits(&case.session).is_empty();
            assert_eq!(case.line(), if yes { "yes\n" } else { "no\n" });
            continue;
        }
        let answer = case.answer();
        assert_eq!(answer.number, number);
        assert!(case
            .line()
            .starts_with(&format!("{number} {} ", case.session.mode.number())));
        counts[usize::from(number)] += 1;
    }
    for number in [3, 4, 5, 6, 16, 17] {
        assert!(counts[number] > 0);
    }
    assert_eq!(
        counts[0] + counts[3..].iter().sum::<usize>(),
        counts.iter().sum()
    );
}

#[test]
fn a_refusal_in_bits_hands_everything_back_as_it_came() {
    for case in in_bits() {
        let answer = case.answer();
        if answer.number != 0 || matches!(case.task, Task::Read | Task::IsSession) {
            assert_eq!(answer.session, case.session);
        }
        if answer.number != 0 || case.task != Task::Read {
            assert_eq!(answer.room, case.room);
        }
    }
}

/// Each of the 32 sets of numbers that a piece may be refused by, and each of the 8 that
/// whole bytes may be, in each family.
#[test]
fn every_set_of_refusals_is_met_in_each_family() {
    for lengths in MODES.into_iter().flat_map(families) {
        let generator = &mut Generator::new(13);
        let met =
            |cases: Vec<Case>| -> HashSet<Vec<u8>> { cases.iter().map(refusals_in_bits).collect() };
        let sets = |numbers: &[u8]| -> HashSet<Vec<u8>> {
            let chosen = |set: usize| {
                let numbers = numbers.iter().enumerate();
                let numbers = numbers.filter(|(place, _)| set >> place & 1 == 1);
                numbers.map(|(_, number)| *number).collect()
            };
            (0..1 << numbers.len()).map(chosen).collect()
        };
        let pieces = refused::every_set(generator, &lengths);
        assert_eq!(met(pieces), sets(&[3, 4, 6, 16, 17]));
        let bytes = refused::every_set_of_bytes(generator, &lengths);
        assert_eq!(met(bytes), sets(&[3, 4, 16]));
    }
}

/// Each bit of a part of a byte is asked about, in use and not, in each family; and each
/// is set in a piece that is refused for it alone.
#[test]
fn every_place_of_a_part_of_a_byte_is_met() {
    for lengths in MODES.into_iter().flat_map(families) {
        let same = |case: &&Case| {
            let Session { mode, bits, .. } = case.session;
            (mode, block(mode, bits)) == (lengths.mode, lengths.block)
        };
        let cases = in_bits();
        let cases: Vec<&Case> = cases.iter().filter(same).collect();
        for part in 1..8 {
            for place in part - 1..8 {
                let byte = 0x80 >> place;
                let asked = cases.iter().find(|case| {
                    let in_use = case.session.taken % (8 * lengths.block);
                    let last = case.session.waiting[in_use as usize / 8];
                    let bare = case.session.chaining == [0; 128];
                    case.task == Task::IsSession && bare && in_use % 8 == part && last == byte
                });
                let line = asked.expect("a case").line();
                assert_eq!(line, if place < part { "yes\n" } else { "no\n" });
                let set = cases.iter().any(|case| {
                    let last = case.room[usize::from(case.length.max(1)) - 1];
                    case.task == Task::AddBits
                        && case.in_bits.is_some_and(|count| count % 8 == part)
                        && refusals_in_bits(case) == [17]
                        && last & (0xff >> part) == byte
                });
                assert!(set || place < part);
            }
        }
    }
}

#[test]
fn each_record_in_bits_is_no_session_for_one_reason() {
    let mut counts = [0; 2];
    for case in in_bits() {
        let reasons = reasons_in_bits(&case.session);
        assert!(reasons.len() <= 1);
        if !reasons.is_empty() {
            counts[usize::from(case.session.taken % 8 != 0)] += 1;
        }
    }
    assert!(counts[0] > 50 && counts[1] > 50);
}

/// Pieces end in a part of a byte of every size and in whole ones: in a block, in its
/// last byte, at its end and behind one or two.
#[test]
fn pieces_end_in_every_part_of_a_byte() {
    for lengths in MODES.into_iter().flat_map(families) {
        let msize = 8 * lengths.block;
        let mut met = HashSet::new();
        for case in in_bits() {
            let Session {
                mode, bits, taken, ..
            } = case.session;
            let same = (mode, block(mode, bits)) == (lengths.mode, lengths.block);
            if !same || case.task != Task::AddBits || !refusals_in_bits(&case).is_empty() {
                continue;
            }
            let count = case.in_bits.expect("a bit count");
            let (bits, after) = (taken % msize + count, case.answer().session);
            assert_eq!(after.taken, taken + count);
            assert_eq!(after.chaining != case.session.chaining, bits >= msize);
            let last_byte = bits % msize > msize - 8;
            met.insert((bits / msize, bits % 8, last_byte));
        }
        for part in 1..8 {
            assert!(met.contains(&(0, part, false)) && met.contains(&(0, part, true)));
            assert!(met.contains(&(1, part, false)) && met.contains(&(2, part, false)));
        }
        assert!(met.contains(&(1, 0, false)) && met.contains(&(2, 0, false)));
    }
}

/// Empty pieces in bits and in bytes behind a part of a byte, and bytes there that are
/// refused.
#[test]
fn what_comes_behind_a_part_of_a_byte() {
    let mut met = HashSet::new();
    for case in in_bits() {
        let empty = case.length == 0 && matches!(case.in_bits, Some(0)) || case.task == Task::Add;
        if case.session.taken % 8 != 0 && empty {
            let numbers = refusals_in_bits(&case);
            met.insert((case.task == Task::Add, case.length == 0, numbers));
        }
    }
    for expected in [
        (false, true, vec![]),
        (true, true, vec![]),
        (true, false, vec![16]),
        (true, false, vec![4, 16]),
        (true, false, vec![3, 4, 16]),
    ] {
        assert!(met.contains(&expected), "{expected:?}");
    }
}

#[test]
fn both_sides_of_the_limit_are_met_in_bits() {
    for lengths in MODES.into_iter().flat_map(families) {
        let mut over = HashSet::new();
        let mut read = HashSet::new();
        for case in in_bits() {
            let Session {
                mode, bits, taken, ..
            } = case.session;
            if (mode, block(mode, bits)) != (lengths.mode, lengths.block) {
                continue;
            }
            match (case.task, case.in_bits) {
                (Task::AddBits, Some(count)) if [0, 4].contains(&case.answer().number) => {
                    over.insert(i128::from(taken) + i128::from(count) - i128::from(MOST));
                }
                (Task::Read, _) if case.answer().number == 0 => {
                    read.insert(taken);
                }
                _ => {}
            }
        }
        assert!(over.contains(&0) && over.contains(&1));
        for taken in [
            0,
            1,
            8 * lengths.block - 145,
            8 * lengths.block - 144,
            MOST - 7,
            MOST,
        ] {
            assert!(read.contains(&taken));
        }
    }
}

#[test]
fn from_an_opening_the_readings_in_bits_are_digests() {
    for lengths in MODES.into_iter().flat_map(families) {
        let cases = in_bits::from_an_opening(&mut Generator::new(13), &lengths);
        let (bits, salt) = (lengths.bits[4], cases[0].session.salt);
        let (mut message, mut count) = (Vec::new(), 0);
        for pair in cases.chunks(2) {
            message.extend(&pair[0].room[..usize::from(pair[0].length)]);
            count += pair[0].in_bits.expect("a bit count");
            let expected = digest::digest_bits(lengths.mode, bits, &salt, &message, count);
            assert_eq!(pair[1].answer().room[..expected.len()], expected);
        }
        assert_eq!(count, 8 * (lengths.block + 21) + 5);
    }
}

/// What is asked in bytes has the same answer in bits.
#[test]
fn sessions_in_bytes_are_answered_as_in_bits() {
    for mut case in in_bytes() {
        if matches!(case.task, Task::Open) || !case.with_mode || case.session.taken > LIMIT {
            continue;
        }
        let (session, number) = (units::in_bits(&case.answer().session), case.answer().number);
        let room = case.answer().room;
        case.session = units::in_bits(&case.session);
        case.in_bits = Some(0);
        let answer = case.answer();
        assert_eq!((answer.number, answer.room), (number, room));
        assert_eq!(answer.session, session);
    }
}

#[test]
fn lines_in_bits_have_their_fields() {
    let mut session = Session {
        mode: SinglePipe,
        bits: 256,
        taken: 1792 + 11,
        ..BLANK
    };
    session.waiting[1] = 0b1010_0000;
    let mut case = Case::piece(&mut Generator::new(13), 0, session);
    case.room = [0xee; ROOM];
    let zeros = "0".repeat(444);
    let kept = format!("1 256 1803 {} {} 00a0{zeros}", &zeros[..32], &zeros[..256]);
    assert_eq!(case.line(), format!("0 {kept}\n"));
    (case.task, case.length) = (Task::Add, 1);
    assert_eq!(case.line(), format!("16 {kept}\n"));
    (case.task, case.length) = (Task::Read, 2);
    assert_eq!(case.line(), format!("5 {kept} eeee\n"));
    case.task = Task::IsSession;
    assert_eq!(case.line(), "yes\n");
    case.session.taken -= 1;
    assert_eq!(case.line(), "no\n");
}
