//! Cases of the program `writing_cases`: records put at a place of a room, by their
//! values and by kind byte and body, done and refused.

mod record;
#[cfg(test)]
mod tests;

use crate::file::File;
use plain::refusal::TABLE_LIMIT;
use plain::table::{body_length, Radio, Values};
use record::{Case, Given};
use seeded::Generator;

/// The kinds that records have.
const KINDS: [u8; 5] = [1, 2, 3, 4, 5];

/// Kind bytes that no record has.
const UNKNOWN: [u8; 3] = [0, 6, 255];

/// Bytes of a room in which every record finds more than one place.
const ROOM: usize = 40;

/// Addresses about the first that six bytes don't hold, and the ends.
const ADDRESSES: [u64; 6] = [0, 1, (1 << 48) - 1, 1 << 48, (1 << 48) + 1, u64::MAX];

/// The program's input and the output it has to give.
pub fn files() -> Vec<File> {
    let cases = cases();
    vec![
        File {
            path: "crates/writing_cases/stdin",
            bytes: cases.iter().flat_map(Case::record).collect(),
        },
        File {
            path: "crates/writing_cases/stdout",
            bytes: cases.iter().map(Case::line).collect::<String>().into(),
        },
    ]
}

fn cases() -> Vec<Case> {
    let mut generator = Generator::new(16);
    let mut cases = places(&mut generator);
    cases.extend(exact_rooms(&mut generator));
    cases.extend(short_rooms(&mut generator));
    cases.extend(long_rooms(&mut generator));
    cases.extend(addresses(&mut generator));
    cases.extend(numbers(&mut generator));
    cases.extend(bodies(&mut generator));
    cases
}

/// Every kind at the front of a room, in its middle, at the last place that fits, one
/// further, at the end, past it, at a place that is 0 in 32 bits, and at such from which
/// the place behind the record would be 2^64 or more.
fn places(generator: &mut Generator) -> Vec<Case> {
    let mut cases = Vec::new();
    for kind in KINDS {
        let size = size(kind);
        let last = (ROOM - size) as u64;
        let end = ROOM as u64;
        let wraps = u64::MAX - size as u64 + 1;
        for place in [
            0,
            last / 2,
            last,
            last + 1,
            end,
            end + 1,
            1 << 32,
            wraps,
            u64::MAX,
        ] {
            cases.extend(both(generator, kind, ROOM, place));
        }
    }
    cases
}

/// Every kind in a room that is as long as the record, and one byte shorter and longer,
/// at the first two places.
fn exact_rooms(generator: &mut Generator) -> Vec<Case> {
    let mut cases = Vec::new();
    for kind in KINDS {
        for room in size(kind) - 1..=size(kind) + 1 {
            for place in 0..2 {
                cases.extend(both(generator, kind, room, place));
            }
        }
    }
    cases
}

/// Rooms of every length up to 40, kinds by turns, at a place up to the end.
fn short_rooms(generator: &mut Generator) -> Vec<Case> {
    let mut cases = Vec::new();
    for room in 0..=ROOM {
        let place = generator.below(room as u64 + 1);
        cases.extend(both(generator, KINDS[room % 5], room, place));
    }
    cases
}

/// A note at the end of a room as long as the longest table, and of one that is longer:
/// a room has no limit.
fn long_rooms(generator: &mut Generator) -> Vec<Case> {
    let mut cases = Vec::new();
    for room in [TABLE_LIMIT, TABLE_LIMIT + 1] {
        let last = (room - size(5)) as u64;
        for place in [last, last + 1] {
            cases.extend(both(generator, 5, room, place));
        }
    }
    cases
}

/// Addresses in rooms that are long enough and too short: 12, 5, and both, where 5 wins.
fn addresses(generator: &mut Generator) -> Vec<Case> {
    let mut cases = Vec::new();
    for address in ADDRESSES {
        for (room, place) in [(7, 0), (6, 0), (ROOM, 20), (ROOM, 34)] {
            let given = Given::Values(Values::Node { address });
            cases.push(Case::new(generator, given, room, place));
        }
    }
    cases
}

/// The ends of the other numbers, and such whose every byte is another.
fn numbers(generator: &mut Generator) -> Vec<Case> {
    let mut all = Vec::new();
    for radio in [Radio::Low, Radio::High] {
        all.extend([0, 0x0102, 0xff00, u16::MAX].map(|level| Values::Floor { radio, level }));
    }
    all.extend([0, 0x0102_0304, 0xffff_0000, u32::MAX].map(|time| Values::Hold { time }));
    all.extend([0, u64::MAX].map(|number| Values::Note([number; 4])));
    let counting: [u64; 4] =
        std::array::from_fn(|i| 0x0001_0203_0405_0607 + i as u64 * 0x0808_0808_0808_0808);
    all.push(Values::Note(counting));
    all.into_iter()
        .map(|values| Case::new(generator, Given::Values(values), ROOM, 3))
        .collect()
}

/// Bodies that are empty, one byte too short, right and one too long, and kinds that no
/// record has, in rooms that hold them and in such that lack a byte: 5, 9, 10, and all
/// that can meet.
fn bodies(generator: &mut Generator) -> Vec<Case> {
    let mut cases = Vec::new();
    for kind in KINDS {
        let right = size(kind) - 1;
        for length in [0, right - 1, right, right + 1] {
            cases.extend(body_of_length(generator, kind, length));
        }
    }
    for kind in UNKNOWN {
        for length in [0, 2, 6] {
            cases.extend(body_of_length(generator, kind, length));
        }
    }
    cases
}

/// A body of a length, whatever its kind's is, behind three bytes and in front of two,
/// and where a byte is missing.
fn body_of_length(generator: &mut Generator, kind: u8, length: usize) -> [Case; 2] {
    let given = Given::Body(kind, generator.vector(length));
    [3 + 1 + length + 2, 3 + length].map(|room| Case::new(generator, given.clone(), room, 3))
}

/// A record of a kind at a place of a room, by its values and by kind byte and body.
fn both(generator: &mut Generator, kind: u8, room: usize, place: u64) -> [Case; 2] {
    let values = some_values(generator, kind);
    let body = values.body().expect("an address of six bytes");
    let room = generator.vector(room);
    [Given::Values(values), Given::Body(kind, body)].map(|given| Case {
        given,
        place,
        room: room.clone(),
        filled: generator.bytes(),
    })
}

/// What a record of a kind may say.
fn some_values(generator: &mut Generator, kind: u8) -> Values {
    let numbers: [u64; 4] = std::array::from_fn(|_| generator.number());
    let level = numbers[0] as u16;
    match kind {
        1 => Values::Node {
            address: numbers[0] >> 16,
        },
        2 => Values::Floor {
            radio: Radio::Low,
            level,
        },
        3 => Values::Floor {
            radio: Radio::High,
            level,
        },
        4 => Values::Hold {
            time: numbers[0] as u32,
        },
        _ => Values::Note(numbers),
    }
}

/// The bytes of a record of a kind.
fn size(kind: u8) -> usize {
    1 + body_length(kind).expect("a kind that records have")
}
