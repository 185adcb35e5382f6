//! Every combination of inputs at both sides of their bounds, so that each set
//! of refusals that can meet does meet.

mod inputs;
#[cfg(test)]
mod tests;

use super::null_pointers::WITH_NULL;
use crate::case::{Case, Routine};
use crate::draw;
use crate::family::{Family, Run};
use seeded::Generator;

pub const FAMILY: Family = Family {
    name: "refusals in every combination",
    run,
};

fn run(run: &mut Run) -> Result<(), String> {
    let subject = run.subject;
    let mut cases = digests(&mut run.generator, |bits| Routine::Digest { bits });
    cases.extend(tags(&mut run.generator));
    cases.extend(rounds(&mut run.generator));
    let without_mode = |counter| Routine::Compress { counter };
    cases.extend(compressions(
        &mut run.generator,
        &inputs::COUNTERS,
        without_mode,
    ));
    cases.extend(in_modes(&mut run.generator, &inputs::MODES[..2]));
    cases.extend(fingerprints(&mut run.generator));
    cases.extend(wide_rounds(&mut run.generator));
    cases.extend(wide_in_modes(&mut run.generator, &inputs::MODES[..2]));
    cases.extend(of_bits(&mut run.generator, &inputs::MODES[..2]));
    cases.iter().try_for_each(|case| run.check(case))?;
    let checks = checks(&mut run.generator);
    checks.iter().try_for_each(|case| run.check(case))?;
    // The C functions themselves: the refusals of a check say no in so many words, a
    // salt may have any length where a tag is verified, and a mode any number.
    run.subject = WITH_NULL;
    checks.iter().try_for_each(|case| run.check(case))?;
    let mut verified = checks.iter().map(verified);
    verified.try_for_each(|case| run.check(&case))?;
    let mut cases = in_modes(&mut run.generator, &inputs::MODES);
    cases.extend(wide_rounds(&mut run.generator));
    cases.extend(wide_in_modes(&mut run.generator, &inputs::MODES));
    cases.extend(of_bits(&mut run.generator, &inputs::MODES));
    cases.iter().try_for_each(|case| run.check(case))?;
    let mut cases = readings(&mut run.generator);
    cases.extend(counts(&mut run.generator));
    cases.extend(writings(&mut run.generator));
    for by in [subject, WITH_NULL] {
        run.subject = by;
        cases.iter().try_for_each(|case| run.check(case))?;
    }
    Ok(())
}

/// Digests and compressions in each of these modes.
fn in_modes(generator: &mut Generator, modes: &[u8]) -> Vec<Case> {
    let mut cases = Vec::new();
    for &mode in modes {
        cases.extend(digests(generator, |bits| Routine::DigestIn { mode, bits }));
        let routine = |counter| Routine::CompressIn { mode, counter };
        cases.extend(compressions(generator, &inputs::COUNTERS, routine));
    }
    cases
}

/// Compressions in each of these modes, from counters of 128 bits.
fn wide_in_modes(generator: &mut Generator, modes: &[u8]) -> Vec<Case> {
    let mut cases = Vec::new();
    for &mode in modes {
        let routine = |counter| Routine::CompressWide { mode, counter };
        cases.extend(compressions(generator, &inputs::WIDE_COUNTERS, routine));
    }
    cases
}

/// Numbers 1, 2 and 5, each with 6 and without where there is a mode.
fn digests(generator: &mut Generator, routine: impl Fn(u64) -> Routine) -> Vec<Case> {
    let mut cases = Vec::new();
    for bits in inputs::BITS {
        for salt in inputs::SALTS {
            for room in inputs::rooms(bits) {
                for message in [0, 3, 200] {
                    cases.push(filled(generator, routine(bits), salt, message, room));
                }
            }
        }
    }
    cases
}

/// Numbers 1, 2, 5, 6 and 17 in each of these modes, and 4 with 6, since no message is
/// lent that is so long.
fn of_bits(generator: &mut Generator, modes: &[u8]) -> Vec<Case> {
    let mut cases = Vec::new();
    for &mode in modes {
        for bits in inputs::BITS {
            for salt in inputs::SALTS {
                for room in inputs::rooms(bits) {
                    for message in inputs::MESSAGES_OF_BITS {
                        let routine = Routine::DigestBits {
                            mode,
                            bits,
                            message_bits: message.bits,
                        };
                        let case = filled(generator, routine, salt, 0, room);
                        cases.push(Case {
                            input: message.bytes(generator),
                            ..case
                        });
                    }
                }
            }
        }
    }
    cases
}

/// Numbers 1, 2 and 5.
fn tags(generator: &mut Generator) -> Vec<Case> {
    let mut cases = Vec::new();
    for bits in inputs::BITS {
        for salt in inputs::SALTS {
            for room in inputs::rooms(bits) {
                for (key, message) in [(0, 3), (3, 0), (200, 200)] {
                    let routine = Routine::Hmac { bits };
                    let case = filled(generator, routine, salt, message, room);
                    cases.push(Case {
                        key: generator.vector(key),
                        ..case
                    });
                }
            }
        }
    }
    cases
}

/// Numbers 1 and 2, with tags of any length. Where there is a right one for the
/// salt, or for sixteen bytes made of it, the tag begins with that or is cut from
/// it.
fn checks(generator: &mut Generator) -> Vec<Case> {
    let mut cases = tags(generator);
    for case in &mut cases {
        let Routine::Hmac { bits } = case.routine else {
            continue;
        };
        case.routine = Routine::HmacCheck { bits };
        if draw::digest_lengths().any(|admitted| admitted == bits) {
            let mut salted = case.clone();
            salted.salt.resize(16, 0);
            let length = case.lent.len();
            case.lent = draw::right_tag(bits, &salted);
            case.lent.resize(length, 0);
        }
    }
    cases
}

/// A check as a verification: numbers 1, 2 and 19.
fn verified(check: &Case) -> Case {
    let Routine::HmacCheck { bits } = check.routine else {
        panic!("no check: {check}");
    };
    check.with(Routine::HmacVerify { bits })
}

/// Numbers 2, 6 and 7, forward and backward.
fn rounds(generator: &mut Generator) -> Vec<Case> {
    on_squares(generator, &inputs::COUNTERS, |count, counter| {
        [
            Routine::Rounds { count, counter },
            Routine::RoundsBack { count, counter },
        ]
    })
}

/// Numbers 2 and 6, forward and backward.
fn wide_rounds(generator: &mut Generator) -> Vec<Case> {
    on_squares(generator, &inputs::WIDE_COUNTERS, |count, counter| {
        [
            Routine::RoundsWide { count, counter },
            Routine::RoundsBackWide { count, counter },
        ]
    })
}

fn on_squares<Counter: Copy>(
    generator: &mut Generator,
    counters: &[Counter],
    routines: impl Fn(u64, Counter) -> [Routine; 2],
) -> Vec<Case> {
    let mut cases = Vec::new();
    for salt in inputs::SALTS {
        for square in inputs::SQUARES {
            for count in inputs::COUNTS {
                for &counter in counters {
                    for routine in routines(count, counter) {
                        cases.push(filled(generator, routine, salt, 0, square));
                    }
                }
            }
        }
    }
    cases
}

/// Numbers 2 and 6, each with 7 and without where a counter has 64 bits.
fn compressions<Counter: Copy>(
    generator: &mut Generator,
    counters: &[Counter],
    routine: impl Fn(Counter) -> Routine,
) -> Vec<Case> {
    let mut cases = Vec::new();
    for salt in inputs::SALTS {
        for (chaining, block) in inputs::SIZES {
            for &counter in counters {
                let routine = routine(counter);
                cases.push(filled(generator, routine, salt, block, chaining));
            }
        }
    }
    cases
}

/// Numbers 2, 5 and 8, each with 9, with 10 and with neither.
fn fingerprints(generator: &mut Generator) -> Vec<Case> {
    let mut cases = Vec::new();
    for table in inputs::tables(generator) {
        for salt in inputs::SALTS {
            for room in inputs::FINGERPRINT_ROOMS {
                let case = filled(generator, Routine::Fingerprint, salt, 0, room);
                cases.push(Case {
                    input: table.clone(),
                    ..case
                });
            }
        }
    }
    cases
}

/// Numbers 6 and 8; and 8 with 9, with 10 and with neither: past the end there is no
/// record.
fn readings(generator: &mut Generator) -> Vec<Case> {
    let mut cases = Vec::new();
    for table in inputs::tables(generator) {
        for place in inputs::places(&table) {
            let routine = Routine::ReadAt { place };
            cases.push(over_table(routine, &table));
        }
    }
    cases
}

/// Number 8, with 9, with 10 and with neither.
fn counts(generator: &mut Generator) -> Vec<Case> {
    let tables = inputs::tables(generator);
    let cases = tables.iter().map(|table| over_table(Routine::Count, table));
    cases.collect()
}

/// A case of a routine that reads a table and nothing else.
fn over_table(routine: Routine, table: &[u8]) -> Case {
    Case {
        routine,
        salt: vec![],
        key: vec![],
        input: table.to_vec(),
        lent: vec![],
    }
}

/// Number 5 with 9, with 10 and with neither.
fn writings(generator: &mut Generator) -> Vec<Case> {
    let mut cases = Vec::new();
    for kind in inputs::KINDS {
        for body in inputs::BODIES {
            for room in inputs::WRITING_ROOMS {
                for place in inputs::writing_places(room, body) {
                    let routine = Routine::WriteAt { place, kind };
                    cases.push(filled(generator, routine, 0, body, room));
                }
            }
        }
    }
    cases
}

/// A case with buffers of these lengths, and no key.
fn filled(
    generator: &mut Generator,
    routine: Routine,
    salt: usize,
    input: usize,
    lent: usize,
) -> Case {
    Case {
        routine,
        salt: generator.vector(salt),
        key: vec![],
        input: generator.vector(input),
        lent: generator.vector(lent),
    }
}
