use super::record::RECORD;
use super::*;
use plain::mode::Mode::SinglePipe;
use plain::session::Session;
use std::collections::HashSet;

/// Published digests of the empty message under the all-zero salt.
const PUBLISHED: &str = "\
17da087595166f733fff7cdb0bca6438f303d0e00c48b5e7a3075905
4496cd09d425999aefa75189ee7fd3c97362aa9e4ca898328002d20a4b519788
134040763f840559b84b7a1ae5d6d64fc3659821a789cc64a7f1444c09ee7f81a54d72beee8273bae5ef18ec43aa5f34
158f58cc79d300a9aa292515049275d051a28ab931726d0ec44bdd9faef4a702c36db9e7922fff077402236465833c5cc76af4efc352b4b44c7fa15aa0ef234e
";

#[test]
fn the_answers_begin_with_the_published_digests() {
    let answers = files().remove(1).bytes;
    assert!(answers.starts_with(PUBLISHED.repeat(2).as_bytes()));
}

#[test]
fn records_have_their_layout() {
    for case in cases() {
        let record = case.record();
        assert_eq!(record.len(), RECORD);
        assert!(case.length <= 1024 && case.salt_length <= 16);
        assert!(record[8] <= 1 && record[9] <= if case.length == 0 { 1 } else { 8 });
        assert_eq!(record[10..16], [0; 6]);
    }
    let mut case = Case {
        mode: SinglePipe,
        bits: 0x0201,
        length: 0x0403,
        unused: None,
        seed: 5,
        piece: 0x0706,
        salt_length: 8,
        salt: std::array::from_fn(|i| 16 + i as u8),
    };
    for (unused, ninth) in [(None, 0), (Some(0), 1), (Some(7), 8)] {
        case.unused = unused;
        let numbers = [1, 2, 3, 4, 5, 6, 7, 8, 1, ninth];
        assert_eq!(case.record(), [&numbers[..], &[0; 6], &case.salt].concat());
    }
}

/// The cases of before, in bytes.
fn in_bytes() -> Vec<Case> {
    let mut cases = cases();
    cases.retain(|case| case.unused.is_none());
    cases
}

#[test]
fn cases_in_bits_stand_behind_all_others() {
    let first = cases().iter().position(|case| case.unused.is_some());
    assert_eq!(first, Some(in_bytes().len()));
}

#[test]
fn messages_by_their_rule() {
    let mut case = Case::new(&mut Generator::new(2), 256, 1024, 0);
    case.seed = 0xfe;
    let message = case.message();
    assert_eq!(message.len(), 1024);
    assert_eq!(message[..4], [0xfe, 0x1b, 0x38, 0x55]);
    // 254 + 29 * 256 + 101 and 254 + 29 * 1023 + 303, without whole 256s.
    assert_eq!((message[256], message[1023]), (0x63, 0x10));
    case.length = 0;
    assert_eq!(case.message(), b"");
    assert_eq!(case.message_bits(), 0);
}

/// The low bits of the last byte that are not in use are cleared.
#[test]
fn messages_in_bits_by_their_rule() {
    let mut case = Case::new(&mut Generator::new(2), 256, 2, 0);
    case.seed = 0xe2;
    assert_eq!(
        (case.message(), case.message_bits()),
        (vec![0xe2, 0xff], 16)
    );
    for unused in 0..8 {
        case.unused = Some(unused);
        assert_eq!(case.message(), [0xe2, 0xff << unused]);
        assert_eq!(case.message_bits(), 16 - u64::from(unused));
    }
}

#[test]
fn only_the_refused_cases_are_refused() {
    let mut counts = [[[0; 3]; 2]; 2];
    for case in cases() {
        let counts = &mut counts[usize::from(case.unused.is_some())];
        let counts = &mut counts[usize::from(case.mode.number())];
        match case.answer() {
            Ok(digest) => {
                assert_eq!(8 * digest.len(), case.bits.into());
                counts[0] += 1;
            }
            Err(number) => {
                assert_eq!(case.line(), format!("refused {number}\n"));
                counts[number as usize] += 1;
            }
        }
    }
    // Done are 8 of empty messages, and 23 messages in three cuts for each of 49
    // digest lengths. Refused for the digest length are 18 with a salt of 16
    // bytes and 36 with another; for the salt alone, 16.
    assert_eq!(counts[0][0], [8 + 49 * 23 * 3, 18 + 36, 16]);
    // In single-pipe, every length to 3 bytes past three blocks in both families,
    // and 19 messages in two cuts for each of 49 digest lengths.
    let every_length = (3 * 224 + 4) + (3 * 192 + 4);
    assert_eq!(counts[0][1], [every_length + 49 * 19 * 2, 18 + 36, 16]);
    // In bits, every length to 4,700 in both families, and 17 messages around each of
    // four edges for each of 49 digest lengths, in both modes.
    let done = 2 * 4701 + 49 * 4 * 17;
    assert_eq!(counts[1], [[done, 18 + 36, 16]; 2]);
}

#[test]
fn every_kind_of_hand_over_is_met() {
    for (mode, blocks, cuts) in [(DoublePipe, 4, CUTS), (SinglePipe, 3, single_pipe::CUTS)] {
        let mut done = in_bytes();
        done.retain(|case| case.mode == mode && case.answer().is_ok());
        let lengths: HashSet<u16> = done.iter().map(|case| case.bits).collect();
        assert_eq!(lengths.len(), 49);
        for bits in lengths {
            let b = block(mode, bits);
            for j in 1..=blocks {
                for length in [j * b - 19, j * b - 18, j * b, j * b + 1] {
                    let met = |case: &&Case| case.bits == bits && case.length == length;
                    assert!(done.iter().filter(met).count() >= cuts);
                }
            }
        }
        for bits in [256, 512] {
            let b = block(mode, bits);
            let family = done.iter().filter(|case| block(mode, case.bits) == b);
            let pieces: HashSet<u16> = family.map(|case| case.piece).collect();
            for piece in [0, 1, 5, 7, 13, 64, b - 1, b, b + 1, 1000] {
                assert!(pieces.contains(&piece));
            }
        }
        let zero = done.iter().filter(|case| case.salt == [0; 16]).count();
        assert!(zero > done.len() / 6 && zero < done.len() / 3);
    }
}

/// All lengths up to past three blocks, and among them the last message that
/// leaves room for its padding in each block, and the first that doesn't.
#[test]
fn every_length_is_met_in_single_pipe() {
    let cases = single_pipe::every_length(&mut Generator::new(7));
    for (bits, edges) in [
        (256, [205, 206, 224, 429, 430, 448, 653, 654, 672, 675]),
        (512, [173, 174, 192, 365, 366, 384, 557, 558, 576, 579]),
    ] {
        let family = cases.iter().filter(|case| case.bits == bits);
        let lengths: Vec<u16> = family.map(|case| case.length).collect();
        assert_eq!(lengths, (0..=edges[9]).collect::<Vec<u16>>());
        assert!(edges.iter().all(|edge| lengths.contains(edge)));
    }
}

/// In each family every edge of a block meets every size of the pieces.
#[test]
fn every_edge_meets_every_cut_in_single_pipe() {
    let cases = single_pipe::block_edges(&mut Generator::new(7));
    for b in [224, 192] {
        let family = cases
            .iter()
            .filter(|case| block(SinglePipe, case.bits) == b);
        let met: HashSet<(u16, u16)> = family.map(|case| (case.length, case.piece)).collect();
        let edges = [b - 19, b - 18, b - 1, b, b + 1];
        for length in [0, 1].into_iter().chain(edges) {
            for piece in pieces(b, length) {
                assert!(met.contains(&(length, piece)));
            }
        }
    }
}

/// What the program does with pieces, step by step.
#[test]
fn pieces_with_a_reading_behind_each_give_the_answer_in_single_pipe() {
    let mut cases = single_pipe::cases(&mut Generator::new(7));
    cases.retain(|case| case.piece > 0 && case.answer().is_ok());
    for case in cases {
        let (number, mut session) = Session::open(case.mode, case.bits.into(), &case.salt);
        assert_eq!(number, 0);
        let mut room = [0; 64];
        for piece in case.message().chunks(case.piece.into()) {
            assert_eq!([session.add(piece), session.read(&mut room)], [0, 0]);
        }
        assert_eq!(session.read(&mut room), 0);
        let digest = case.answer().expect("a digest");
        assert_eq!(room[..digest.len()], digest);
    }
}

/// All lengths in bits, each size of a part of a byte with each cut, and among them
/// the last message that leaves room for its padding in a block and the first that
/// doesn't.
#[test]
fn every_length_in_bits_is_met() {
    let cases = in_bits::every_length(&mut Generator::new(12));
    for (mode, bits, edges) in [
        (
            DoublePipe,
            256,
            [1391, 1392, 1536, 2927, 2928, 3072, 4463, 4464, 4608],
        ),
        (
            DoublePipe,
            512,
            [879, 880, 1024, 1903, 1904, 2048, 2927, 2928, 3072],
        ),
        (
            SinglePipe,
            256,
            [1647, 1648, 1792, 3439, 3440, 3584, 4000, 4001, 4700],
        ),
        (
            SinglePipe,
            512,
            [1391, 1392, 1536, 2927, 2928, 3072, 4463, 4464, 4608],
        ),
    ] {
        let mut family = cases.clone();
        family.retain(|case| case.mode == mode && case.bits == bits);
        let lengths: Vec<u64> = family.iter().map(Case::message_bits).collect();
        assert_eq!(lengths, (0..=4700).collect::<Vec<u64>>());
        assert!(edges.iter().all(|edge| lengths.contains(edge)));
        for unused in 0..8 {
            let same = family.iter().filter(|case| case.unused == Some(unused));
            let pieces: HashSet<u16> = same.map(|case| case.piece).collect();
            let b = block(mode, bits);
            for piece in [0, 1, 5, 7, 13, 64, b - 1, b, b + 1, 1000] {
                assert!(pieces.contains(&piece), "{unused} and {piece}");
            }
        }
    }
}

/// Every size of a part of a byte on both sides of every edge, for every digest length.
#[test]
fn every_edge_meets_every_part_of_a_byte() {
    let cases = in_bits::block_edges(&mut Generator::new(12));
    for edges in cases.chunks(4 * 17) {
        let (mode, bits) = (edges[0].mode, edges[0].bits);
        let msize = 8 * u64::from(block(mode, bits));
        let last = [msize - 145, msize, 2 * msize - 145, 2 * msize];
        for (edge, cases) in last.into_iter().zip(edges.chunks(17)) {
            assert!(cases
                .iter()
                .all(|case| (case.mode, case.bits) == (mode, bits)));
            let lengths: Vec<u64> = cases.iter().map(Case::message_bits).collect();
            assert_eq!(lengths, (edge - 8..=edge + 8).collect::<Vec<u64>>());
        }
    }
    assert_eq!(cases.len(), 2 * 49 * 4 * 17);
    let at_once = cases.iter().filter(|case| case.piece == 0).count();
    assert_eq!(at_once, cases.len() / 10);
}

/// What the program does with pieces in bits, step by step.
#[test]
fn pieces_in_bits_with_a_reading_behind_each_give_the_answer() {
    let mut cases = in_bits::cases(&mut Generator::new(12));
    cases.retain(|case| case.piece > 0 && case.answer().is_ok());
    for case in cases {
        let (number, mut session) = Session::open(case.mode, case.bits.into(), &case.salt);
        assert_eq!(number, 0);
        let mut room = [0; 64];
        let mut rest = case.message_bits();
        for piece in case.message().chunks(case.piece.into()) {
            let count = rest.min(8 * piece.len() as u64);
            assert_eq!(
                [session.add_bits(piece, count), session.read(&mut room)],
                [0, 0]
            );
            rest -= count;
        }
        assert_eq!([session.read(&mut room), rest as u8], [0, 0]);
        let digest = case.answer().expect("a digest");
        assert_eq!(room[..digest.len()], digest);
    }
}

/// Whole bytes in bits are what they are in bytes.
#[test]
fn whole_bytes_have_one_answer() {
    let mut cases = in_bits::cases(&mut Generator::new(12));
    cases.retain(|case| case.unused == Some(0));
    for case in cases {
        let line = case.line();
        let bytes = Case {
            unused: None,
            ..case
        };
        assert_eq!(bytes.line(), line);
    }
}

#[test]
fn every_row_of_the_counter_table_is_met() {
    let cases = block_edges(&mut Generator::new(2));
    for (b, lengths) in [
        (192, vec![0, 173, 174, 192, 193]),
        (128, vec![0, 109, 110, 128]),
    ] {
        for length in lengths {
            let met = |case: &Case| block(DoublePipe, case.bits) == b && case.length == length;
            assert!(cases.iter().any(met));
        }
    }
}

#[test]
fn each_message_is_cut_in_several_ways() {
    for cuts in single_pipe::block_edges(&mut Generator::new(7)).chunks(single_pipe::CUTS) {
        let [first, second] = cuts else {
            panic!("two cuts");
        };
        assert!(first.piece == 0 && second.piece > 0);
        assert_eq!(first.line(), second.line());
        assert_eq!(first.message(), second.message());
    }
    for cuts in block_edges(&mut Generator::new(2)).chunks(CUTS) {
        assert_eq!(cuts[0].piece, 0);
        for case in cuts {
            assert_eq!(case.message(), cuts[0].message());
            assert_eq!((case.bits, case.salt), (cuts[0].bits, cuts[0].salt));
        }
        assert!(cuts[1].piece != cuts[2].piece || cuts[0].length <= 1);
    }
}

#[test]
fn the_files_hold_every_case() {
    let count = cases().len();
    let files = files();
    assert_eq!(files[0].bytes.len(), count * RECORD);
    assert_eq!(files[1].lines(), count);
}
