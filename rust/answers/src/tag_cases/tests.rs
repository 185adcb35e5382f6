mod in_bits;
mod no_tag_sessions;
mod on_sessions;
mod whole;
mod with_mode;

use super::record::{On, HEADER, MOST, ROOM};
use super::*;
use plain::digest::digest;
use plain::hex;
use plain::mode::Mode::{DoublePipe, SinglePipe};
use plain::session::{self, Session};

/// The most bytes of a message: 2^61 - 21.
const LIMIT: u64 = 2_305_843_009_213_693_931;

/// Bytes of a record on a tag session.
const RECORD: usize = HEADER + 2 * 385 + ROOM;

fn admitted(bits: u64) -> bool {
    (16..=64).any(|bytes| 8 * bytes == bits)
}

/// Bytes of a block in double-pipe, by the family.
fn block(bits: u64) -> u64 {
    if bits <= 256 {
        192
    } else {
        128
    }
}

/// The same by the mode of a session: in single-pipe, half of the chaining value is
/// the block's.
fn block_of(session: &Session) -> u64 {
    let double = block(session.bits);
    match session.mode {
        DoublePipe => double,
        SinglePipe => double + (256 - double) / 2,
    }
}

/// The cases on records that count bytes.
fn in_bytes() -> Vec<Case> {
    let mut cases = cases();
    cases.retain(|case| !case.in_bits);
    cases
}

/// The cases whose lines do not tell the mode.
fn without_mode() -> Vec<Case> {
    let mut cases = cases();
    cases.retain(|case| !case.with_mode);
    cases
}

fn holding<T>(conditions: impl IntoIterator<Item = (T, bool)>) -> Vec<T> {
    let holding = conditions.into_iter().filter(|(_, holds)| *holds);
    holding.map(|(what, _)| what).collect()
}

/// Why a record that counts bytes is no digest session, by the words of the rule.
fn digest_reasons(session: &Session) -> Vec<&'static str> {
    if !admitted(session.bits) {
        return vec!["bits"];
    }
    let b = block_of(session);
    let in_use = session.taken % b;
    let waits = |place: usize| session.waiting[place] != 0 && place as u64 >= in_use;
    let chained = |place: usize| session.chaining[place] != 0 && place as u64 >= 256 - b;
    holding([
        ("limit", session.taken > LIMIT),
        ("waiting", (0..224).any(waits)),
        ("chaining", (0..128).any(chained)),
    ])
}

/// Why a record that counts bytes is no tag session, by the words of the rule.
fn reasons(session: &TagSession) -> Vec<String> {
    let TagSession { inner, outer } = session;
    let mut reasons = Vec::new();
    for (which, session) in [("inner", inner), ("outer", outer)] {
        let wrong = digest_reasons(session);
        reasons.extend(wrong.iter().map(|reason| format!("{which} {reason}")));
    }
    let b = block(outer.bits);
    let sized = admitted(inner.bits) && admitted(outer.bits);
    let wrong = [
        ("inner mode", inner.mode != DoublePipe),
        ("outer mode", outer.mode != DoublePipe),
        ("bits differ", inner.bits != outer.bits),
        ("salts differ", inner.salt != outer.salt),
        ("inner taken", sized && inner.taken < b),
        ("outer taken", sized && outer.taken != b),
    ];
    reasons.extend(holding(wrong).into_iter().map(String::from));
    reasons
}

/// Every refusal number that applies, the lowest first, by the table of refusal
/// numbers.
fn refusals(case: &Case) -> Vec<u8> {
    let keyed = [(1, !admitted(case.bits)), (2, case.salt_length != 16)];
    let Some(On { session, .. }) = &case.on else {
        return holding(keyed);
    };
    let no_session = (3, !reasons(session).is_empty());
    let taken = u128::from(session.inner.taken) + u128::from(case.length);
    let room = u64::from(case.length);
    match case.task {
        Task::Add => holding([no_session, (4, taken > u128::from(LIMIT))]),
        Task::Read => holding([no_session, (5, room < session.inner.bits / 8)]),
        Task::Check => holding([no_session]),
        Task::Whole | Task::Open | Task::IsSession => vec![],
    }
}

/// The tag of a message by two digests, each joined here.
fn by_hand(bits: u64, salt: &[u8; 16], key: &[u8], message: &[u8]) -> Vec<u8> {
    let b = block(bits) as usize;
    let digested = digest(DoublePipe, bits, salt, key);
    let key = if key.len() > b { &digested } else { key };
    let (mut inner, mut outer) = (vec![0x36; b], vec![0x5c; b]);
    for (place, byte) in key.iter().enumerate() {
        inner[place] ^= byte;
        outer[place] ^= byte;
    }
    inner.extend(message);
    outer.extend(digest(DoublePipe, bits, salt, &inner));
    digest(DoublePipe, bits, salt, &outer)
}

/// A digest session whose every byte in a record is the one after the last.
fn counted(first: u8) -> Session {
    let number = |first: u8| u64::from_le_bytes(std::array::from_fn(|i| first + i as u8));
    Session {
        mode: SinglePipe,
        bits: number(first),
        taken: number(first + 8),
        salt: std::array::from_fn(|i| first + 16 + i as u8),
        chaining: [first + 32; 128],
        waiting: [first + 33; 224],
    }
}

#[test]
fn records_have_their_layout() {
    let mut case = Case {
        task: Task::Check,
        with_mode: false,
        in_bits: false,
        length: 7,
        bits: 0x0908_0706_0504_0302,
        key_length: 0x0b0a,
        message_length: 0x0d0c,
        piece: 0x0f0e,
        key_seed: 16,
        message_seed: 17,
        salt_length: 18,
        salt: std::array::from_fn(|i| 24 + i as u8),
        on: None,
    };
    let mut header: Vec<u8> = (0..40).collect();
    header[..2].copy_from_slice(&[6, 7]);
    header[19..24].fill(0);
    assert_eq!(case.record(), header);
    let session = TagSession {
        inner: counted(50),
        outer: counted(100),
    };
    case.on = Some(On {
        session,
        room: [0xee; ROOM],
    });
    let mut record = header;
    for first in [50, 100] {
        record.extend(first..first + 32);
        record.extend([first + 32; 128]);
        record.extend([first + 33; 224]);
        record.push(1);
    }
    record.extend([0xee; 255]);
    assert_eq!(case.record(), record);
    assert_eq!((HEADER, RECORD), (40, record.len()));
    let tasks = [
        (Task::Whole, [1, 1]),
        (Task::Open, [2, 2]),
        (Task::Add, [3, 7]),
        (Task::Read, [4, 8]),
        (Task::IsSession, [5, 5]),
        (Task::Check, [6, 9]),
    ];
    for (task, numbers) in tasks {
        for (with_mode, number) in [false, true].into_iter().zip(numbers) {
            (case.task, case.with_mode) = (task, with_mode);
            assert_eq!(case.record()[0], number);
        }
    }
    case.in_bits = true;
    for (task, number) in [
        (Task::Add, 10),
        (Task::Read, 11),
        (Task::IsSession, 12),
        (Task::Check, 13),
    ] {
        case.task = task;
        assert_eq!(case.record(), [&[number], &record[1..]].concat());
    }
}

/// The mode stands in front of each session, and the waiting room goes on.
#[test]
fn lines_with_the_mode_have_their_fields() {
    let zeros = "0".repeat(448);
    let mut session = BLANK;
    for part in [&mut session.inner, &mut session.outer] {
        (part.bits, part.taken) = (256, 192);
    }
    let fields = |mode: u8, last: &str| {
        let (salt, chaining) = (&zeros[..32], &zeros[..256]);
        format!("{mode} 256 192 {salt} {chaining} {}{last}", &zeros[..446])
    };
    let case = |task, length, session: &TagSession| {
        let mut case = Case::on(&mut Generator::new(6), task, length, session.clone());
        (case.with_mode, case.on_mut().room) = (true, [0xee; ROOM]);
        case.line()
    };
    let kept = format!("{} {}", fields(0, "00"), fields(0, "00"));
    assert_eq!(case(Task::Add, 0, &session), format!("0 {kept}\n"));
    assert_eq!(case(Task::Read, 2, &session), format!("5 {kept} eeee\n"));
    assert_eq!(case(Task::Check, 32, &session), format!("0 no {kept}\n"));
    assert_eq!(case(Task::IsSession, 0, &session), "yes\n");
    session.inner.waiting[223] = 0xa0;
    session.outer.mode = SinglePipe;
    let kept = format!("{} {}", fields(0, "a0"), fields(1, "00"));
    assert_eq!(case(Task::Add, 0, &session), format!("3 {kept}\n"));
    assert_eq!(case(Task::Read, 1, &session), format!("3 {kept} ee\n"));
    assert_eq!(case(Task::Check, 0, &session), format!("3 no {kept}\n"));
    assert_eq!(case(Task::IsSession, 0, &session), "no\n");
}

#[test]
fn every_number_is_within_its_bounds() {
    for case in cases() {
        assert!(case.key_length <= MOST && case.message_length <= MOST);
        assert!(case.salt_length <= 16);
        let on_session = !matches!(case.task, Task::Whole | Task::Open);
        assert_eq!(case.on.is_some(), on_session);
        let length = if on_session { RECORD } else { HEADER };
        assert_eq!(case.record().len(), length);
    }
}

#[test]
fn keys_and_messages_by_their_rule() {
    let mut case = Case::keyed(&mut Generator::new(6), Task::Whole, 256, 1000);
    (case.key_seed, case.message_seed, case.message_length) = (0xfe, 3, 1024);
    let (key, message) = (case.key(), case.message());
    assert_eq!((key.len(), message.len()), (1000, 1024));
    assert_eq!(key[..4], [0xfe, 0x1b, 0x38, 0x55]);
    // 254 + 29 * 256 + 101 and 3 + 29 * 1023 + 303, without whole 256s.
    assert_eq!((key[256], message[1023]), (0x63, 0x15));
}

#[test]
fn lines_of_whole_messages_have_their_fields() {
    let mut case = Case::keyed(&mut Generator::new(6), Task::Whole, 128, 5);
    let tag = by_hand(128, &case.salt, &case.key(), &case.message());
    assert_eq!(case.line(), format!("{} yes no\n", hex::encode(&tag)));
    case.salt_length = 15;
    assert_eq!(case.line(), "refused 2\n");
    case.bits = 127;
    assert_eq!(case.line(), "refused 1\n");
}

#[test]
fn lines_of_sessions_have_their_fields() {
    let zeros = "0".repeat(384);
    let mut session = BLANK;
    for (number, part) in [(2, &mut session.inner), (1, &mut session.outer)] {
        (part.bits, part.taken) = (256, 192 * number);
        part.salt[15] = 0xa0;
        part.chaining[0] = number as u8;
    }
    let salt = format!("{}a0", &zeros[..30]);
    let fields = |number: u64| {
        let (first, n) = (format!("0{number}"), 192 * number);
        let chaining = &zeros[..254];
        format!("256 {n} {salt} {first}{chaining} {zeros}")
    };
    let kept = format!("{} {}", fields(2), fields(1));
    let case = |task, length| {
        let mut case = Case::on(&mut Generator::new(6), task, length, session.clone());
        case.on_mut().room = [0xee; ROOM];
        case
    };
    assert_eq!(case(Task::Add, 0).line(), format!("0 {kept}\n"));
    assert_eq!(case(Task::Read, 0).line(), format!("5 {kept} \n"));
    assert_eq!(case(Task::Read, 2).line(), format!("5 {kept} eeee\n"));
    let line = case(Task::Read, 33).line();
    assert!(line.starts_with(&format!("0 {kept} ")) && line.ends_with("ee\n"));
    assert_eq!(line.len(), 2 + kept.len() + 1 + 66 + 1);
    assert_eq!(case(Task::IsSession, 0).line(), "yes\n");
    assert_eq!(case(Task::Check, 32).line(), format!("0 no {kept}\n"));
    let right = Case::check(&mut Generator::new(6), session.clone(), &tag(&session));
    assert_eq!(right.line(), format!("0 yes {kept}\n"));
    let mut refused = right;
    refused.on_mut().session.outer = session::BLANK;
    let blank = format!("0 0 {} {} {zeros}", &zeros[..32], &zeros[..256]);
    let line = format!("3 no {} {blank}\n", fields(2));
    assert_eq!(refused.line(), line);
    let refused = Case::keyed(&mut Generator::new(6), Task::Open, 0, 5);
    assert_eq!(refused.line(), format!("1 {blank} {blank}\n"));
}

#[test]
fn the_files_hold_every_case() {
    let cases = cases();
    let on_sessions = cases.iter().filter(|case| case.on.is_some()).count();
    let files = files();
    let bytes = HEADER * (cases.len() - on_sessions) + RECORD * on_sessions;
    assert_eq!(files[0].bytes.len(), bytes);
    assert!(bytes < 660_000);
    assert_eq!(files[1].lines(), cases.len());
}
