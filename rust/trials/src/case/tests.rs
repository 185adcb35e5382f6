use super::*;
use crate::implementation::LIBRARY;

fn case() -> Case {
    Case {
        routine: Routine::Digest { bits: 128 },
        salt: vec![0x5a; 16],
        key: vec![],
        input: b"abc".to_vec(),
        lent: vec![0xee; 20],
    }
}

fn guarded(by: &Implementation) -> Result<Outcome, String> {
    case().guarded_outcome(by, &mut Generator::new(1))
}

#[test]
fn a_case_shows_its_inputs() {
    let salt = "5a".repeat(16);
    let shown = format!("digest, 128 bits, salt {salt}, message 616263, room of 20 bytes");
    assert_eq!(case().to_string(), shown);
    let mut case = case();
    case.routine = Routine::Compress { counter: 7 };
    case.input = (0..=255).collect();
    case.lent.clear();
    let ends = "000102030405060708090a0b0c0d0e0f..f0f1f2f3f4f5f6f7f8f9fafbfcfdfeff";
    let shown = format!(
        "compression, counter 7, salt {salt}, block of 256 bytes {ends}, chaining value empty"
    );
    assert_eq!(case.to_string(), shown);
}

#[test]
fn a_case_in_a_mode_shows_its_number() {
    let mut case = case();
    case.routine = Routine::DigestIn { mode: 1, bits: 128 };
    let shown = case.to_string();
    assert!(shown.starts_with("digest, mode 1, 128 bits, "), "{shown}");
    assert!(shown.ends_with(", room of 20 bytes"), "{shown}");
    let (mode, counter) = (255, 7);
    case.routine = Routine::CompressIn { mode, counter };
    let shown = case.to_string();
    assert!(shown.starts_with("compression, mode 255, counter 7, "));
}

#[test]
fn a_message_of_bits_shows_how_many() {
    let mut case = case();
    case.routine = Routine::DigestBits {
        mode: 1,
        bits: 128,
        message_bits: 23,
    };
    let shown = case.to_string();
    let begin = "digest of bits, mode 1, 128 bits of 23, salt 5a";
    assert!(shown.starts_with(begin), "{shown}");
    assert!(
        shown.ends_with(", message 616263, room of 20 bytes"),
        "{shown}"
    );
}

#[test]
fn a_wide_counter_is_shown_in_hex() {
    let mut case = case();
    let (count, counter) = (8, (1 << 64) - 1);
    case.routine = Routine::RoundsWide { count, counter };
    let shown = case.to_string();
    let begin = "wide rounds, 8 of them, counter 0xffffffffffffffff, ";
    assert!(shown.starts_with(begin), "{shown}");
    case.routine = Routine::RoundsBackWide { count, counter };
    let shown = case.to_string();
    assert!(shown.starts_with("wide rounds backward, 8 of them, counter 0xff"));
    let (mode, counter) = (1, 1 << 64);
    case.routine = Routine::CompressWide { mode, counter };
    let shown = case.to_string();
    let begin = "wide compression, mode 1, counter 0x10000000000000000, ";
    assert!(shown.starts_with(begin), "{shown}");
}

#[test]
fn a_tag_and_a_check_show_their_key() {
    let mut case = case();
    case.key = vec![0xc3; 2];
    case.routine = Routine::Hmac { bits: 256 };
    let salt = "5a".repeat(16);
    let shown = format!("256 bits, key c3c3, salt {salt}, message 616263");
    assert_eq!(case.to_string(), format!("tag, {shown}, room of 20 bytes"));
    case.routine = Routine::HmacCheck { bits: 256 };
    let tag = "ee".repeat(20);
    assert_eq!(case.to_string(), format!("check, {shown}, tag {tag}"));
}

#[test]
fn guards_make_no_difference() {
    assert_eq!(guarded(&LIBRARY), Ok(case().outcome(&LIBRARY)));
}

#[test]
fn a_refusal_that_writes_is_seen() {
    let wrong = Implementation {
        digest: |_, _, _, out| {
            out[19] ^= 1;
            5
        },
        ..LIBRARY
    };
    let seen = "refused by 5, but a lent byte was changed";
    assert_eq!(guarded(&wrong), Err(seen.into()));
}

#[test]
fn every_part_of_an_outcome_counts() {
    let right = case().outcome(&LIBRARY);
    assert_eq!(right.difference(&right), None);
    let number = Outcome {
        number: 9,
        place: 3,
        ..right.clone()
    };
    let seen = "refused 9 at 3, where done is right";
    assert_eq!(number.difference(&right), Some(seen.into()));
    let place = Outcome {
        place: 4,
        ..number.clone()
    };
    let seen = "refused 9 at 4, where refused 9 at 3 is right";
    assert_eq!(place.difference(&number), Some(seen.into()));
    let place = Outcome {
        place: 4,
        ..right.clone()
    };
    let seen = "done at 4, where done is right";
    assert_eq!(place.difference(&right), Some(seen.into()));
    let yes = Outcome {
        yes: 1,
        ..right.clone()
    };
    let seen = "done with a yes, where done is right";
    assert_eq!(yes.difference(&right), Some(seen.into()));
    let unwritten = Outcome {
        yes: 0xa5,
        ..number.clone()
    };
    let seen = "refused 9 at 3 with 165 for a yes, where refused 9 at 3 is right";
    assert_eq!(unwritten.difference(&number), Some(seen.into()));
    let mut lent = right.clone();
    lent.lent[19] = 0xef;
    let seen = "lent byte 19 became ef, where ee is right";
    assert_eq!(lent.difference(&right), Some(seen.into()));
}

#[test]
fn a_case_over_tables_shows_its_place() {
    let mut case = case();
    case.routine = Routine::ReadAt { place: 7 };
    assert_eq!(case.to_string(), "reading, place 7, table 616263");
    case.routine = Routine::Count;
    assert_eq!(case.to_string(), "count, table 616263");
    let (place, kind) = (9, 5);
    case.routine = Routine::WriteAt { place, kind };
    let shown = "writing, place 9, kind 05, body 616263, room of 20 bytes";
    assert_eq!(case.to_string(), shown);
}

#[test]
fn what_is_told_counts() {
    let mut case = case();
    case.routine = Routine::ReadAt { place: 0 };
    case.input = vec![2, 0, 0x3c];
    let right = case.outcome(&LIBRARY);
    let told = Outcome {
        told: 3,
        ..right.clone()
    };
    let seen = "done at 3 with 3, where done at 3 with 2 is right";
    assert_eq!(told.difference(&right), Some(seen.into()));
}
