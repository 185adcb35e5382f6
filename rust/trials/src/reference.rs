//! The right outcome of a case: what `plain` makes of it, provided that the
//! table of refusals, and `third` where it answers, say the same.

use crate::case::{Case, Outcome, Routine};
use crate::expected;
use crate::implementation::PLAIN;
use third::Mode::{DoublePipe, SinglePipe};

/// The right outcome, or how the references differ among themselves.
pub fn outcome(case: &Case) -> Result<Outcome, String> {
    let plain = case.outcome(&PLAIN);
    let (number, place) = expected::answer(case);
    let by_table = match number {
        0 => Outcome {
            number,
            place,
            ..plain.clone()
        },
        _ => Outcome {
            number,
            place,
            told: 0,
            yes: 0,
            lent: case.lent.clone(),
        },
    };
    if let Some(difference) = plain.difference(&by_table) {
        return Err(format!("plain against the table of refusals: {difference}"));
    }
    let by_third = match number {
        0 => third(case),
        _ => None,
    };
    match by_third.and_then(|third| plain.difference(&third)) {
        Some(difference) => Err(format!("plain against third: {difference}")),
        None => Ok(plain),
    }
}

/// The outcome by the AES instruction, where there is one and it is asked about
/// whole routines. The case is not refused.
fn third(case: &Case) -> Option<Outcome> {
    let salt = case.salt.as_slice().try_into().ok()?;
    let mut third = Outcome {
        number: 0,
        place: 0,
        told: 0,
        yes: 0,
        lent: case.lent.clone(),
    };
    match case.routine {
        Routine::Digest { bits } | Routine::DigestIn { mode: 0, bits } => {
            let digest = third::digest(DoublePipe, bits, salt, &case.input)?;
            third.lent[..digest.len()].copy_from_slice(&digest);
        }
        Routine::DigestIn { bits, .. } => {
            let digest = third::digest(SinglePipe, bits, salt, &case.input)?;
            third.lent[..digest.len()].copy_from_slice(&digest);
        }
        Routine::DigestBits {
            mode,
            bits,
            message_bits,
        } => {
            let mode = if mode == 0 { DoublePipe } else { SinglePipe };
            let digest = third::digest_bits(mode, bits, salt, &case.input, message_bits)?;
            third.lent[..digest.len()].copy_from_slice(&digest);
        }
        Routine::Hmac { bits } => {
            let tag = third::hmac(bits, salt, &case.key, &case.input)?;
            third.lent[..tag.len()].copy_from_slice(&tag);
        }
        Routine::HmacCheck { bits } => {
            let tag = third::hmac(bits, salt, &case.key, &case.input)?;
            third.yes = (tag == case.lent).into();
        }
        // It was verified, so that `third` has to find it right.
        Routine::HmacVerify { bits } => {
            let tag = third::hmac(bits, salt, &case.key, &case.input)?;
            third.number = if tag == case.lent { 0 } else { 19 };
        }
        Routine::Rounds { count, counter } => {
            rounds(&mut third.lent, count, counter.into(), salt)?;
        }
        Routine::RoundsWide { count, counter } => {
            rounds(&mut third.lent, count, counter, salt)?;
        }
        Routine::Compress { counter } => {
            compress(0, &mut third.lent, &case.input, counter.into(), salt)?;
        }
        Routine::CompressIn { mode, counter } => {
            compress(mode, &mut third.lent, &case.input, counter.into(), salt)?;
        }
        Routine::CompressWide { mode, counter } => {
            compress(mode, &mut third.lent, &case.input, counter, salt)?;
        }
        Routine::RoundsBack { .. }
        | Routine::RoundsBackWide { .. }
        | Routine::Fingerprint
        | Routine::ReadAt { .. }
        | Routine::Count
        | Routine::WriteAt { .. }
        | Routine::Same => return None,
    }
    Some(third)
}

/// Rounds by the instruction; none where there is no such instruction.
fn rounds(square: &mut [u8], count: u64, counter: u128, salt: &third::Word) -> Option<()> {
    let square = square.try_into().ok()?;
    third::rounds(square, count, counter, salt).then_some(())
}

/// A compression by the instruction in the mode of a number; none where there is no
/// such instruction.
fn compress(
    mode: u8,
    chaining: &mut [u8],
    block: &[u8],
    counter: u128,
    salt: &third::Word,
) -> Option<()> {
    let mode = if mode == 0 { DoublePipe } else { SinglePipe };
    third::compress(mode, chaining, block, counter, salt).then_some(())
}

#[cfg(test)]
mod tests {
    use super::*;
    use plain::hex;

    /// A published digest, with two bytes of room behind it.
    #[test]
    fn the_outcome_of_a_published_digest() {
        let case = Case {
            routine: Routine::Digest { bits: 256 },
            salt: vec![0; 16],
            key: vec![],
            input: vec![],
            lent: vec![0xee; 34],
        };
        let published = "4496cd09d425999aefa75189ee7fd3c97362aa9e4ca898328002d20a4b519788";
        let outcome = outcome(&case).unwrap();
        assert_eq!(hex::encode(&outcome.lent), format!("{published}eeee"));
        assert_eq!((outcome.number, outcome.place), (0, 0));
        if let Some(third) = third(&case) {
            assert_eq!(third, outcome);
        }
    }

    /// In both modes, by `third` too where there is one.
    #[test]
    fn the_outcome_of_a_digest_in_a_mode() {
        let modes = [plain::mode::Mode::DoublePipe, plain::mode::Mode::SinglePipe];
        for mode in modes {
            for bits in [256, 512] {
                let routine = Routine::DigestIn {
                    mode: mode.number(),
                    bits,
                };
                let case = Case {
                    routine,
                    salt: vec![7; 16],
                    key: vec![],
                    input: vec![3; 210],
                    lent: vec![0xee; 66],
                };
                let outcome = outcome(&case).unwrap();
                let size = bits as usize / 8;
                let digest = plain::digest::digest(mode, bits, &[7; 16], &[3; 210]);
                assert_eq!(outcome.lent[..size], digest);
                assert_eq!(outcome.lent[size..], [0xee; 66][size..]);
                if let Some(third) = third(&case) {
                    assert_eq!(third, outcome);
                }
            }
        }
    }

    /// A message that ends within a byte, in both modes, by `third` too where there is
    /// one.
    #[test]
    fn the_outcome_of_a_digest_of_bits() {
        let modes = [plain::mode::Mode::DoublePipe, plain::mode::Mode::SinglePipe];
        for mode in modes {
            let routine = Routine::DigestBits {
                mode: mode.number(),
                bits: 256,
                message_bits: 1391,
            };
            let case = Case {
                routine,
                salt: vec![7; 16],
                key: vec![],
                input: vec![2; 174],
                lent: vec![0xee; 34],
            };
            let outcome = outcome(&case).unwrap();
            let digest = plain::digest::digest_bits(mode, 256, &[7; 16], &[2; 174], 1391);
            assert_eq!(outcome.lent, [&digest[..], &[0xee; 2]].concat());
            if let Some(third) = third(&case) {
                assert_eq!(third, outcome);
            }
        }
    }

    /// Rounds and compressions from both widths of a counter, by `third` too where
    /// there is one.
    #[test]
    fn the_outcome_from_a_counter() {
        let (mode, count) = (1, 8);
        for (narrow, wide, input, lent) in [
            (
                Routine::Rounds { count, counter: 9 },
                Routine::RoundsWide { count, counter: 9 },
                0,
                256,
            ),
            (
                Routine::CompressIn { mode, counter: 9 },
                Routine::CompressWide { mode, counter: 9 },
                224,
                32,
            ),
        ] {
            let [narrow, wide] = [narrow, wide].map(|routine| {
                let case = Case {
                    routine,
                    salt: vec![7; 16],
                    key: vec![],
                    input: vec![3; input],
                    lent: vec![0xee; lent],
                };
                let outcome = outcome(&case).unwrap();
                assert_ne!(outcome.lent, case.lent);
                if let Some(third) = third(&case) {
                    assert_eq!(third, outcome);
                }
                outcome
            });
            assert_eq!(narrow, wide);
        }
    }

    /// Of the whole tag, by `third` too where there is one; and of a cut one.
    #[test]
    fn the_outcome_of_a_tag_and_its_checks() {
        let mut case = Case {
            routine: Routine::Hmac { bits: 128 },
            salt: vec![7; 16],
            key: b"key".to_vec(),
            input: b"abc".to_vec(),
            lent: vec![0xee; 18],
        };
        let mut tag = outcome(&case).unwrap().lent;
        assert_eq!(tag.split_off(16), [0xee; 2]);
        assert_eq!(tag, plain::hmac::hmac(128, &[7; 16], b"key", b"abc"));
        case.routine = Routine::HmacCheck { bits: 128 };
        for (given, yes) in [(&tag[..], 1), (&tag[..15], 0), (&[], 0)] {
            case.lent = given.to_vec();
            let outcome = outcome(&case).unwrap();
            assert_eq!((outcome.number, outcome.yes), (0, yes));
            if let Some(third) = third(&case) {
                assert_eq!(third, outcome);
            }
        }
        case.lent = tag;
        case.salt.pop();
        let outcome = outcome(&case).unwrap();
        assert_eq!((outcome.number, outcome.yes), (2, 0));
    }

    #[test]
    fn a_refusal_leaves_the_lent_bytes() {
        let case = Case {
            routine: Routine::Digest { bits: 256 },
            salt: vec![0; 15],
            key: vec![],
            input: vec![],
            lent: vec![0xee; 34],
        };
        let outcome = outcome(&case).unwrap();
        assert_eq!((outcome.number, outcome.lent), (2, case.lent));
    }
}
