//! One case of `writing_cases`: its record, a header of 24 bytes, the room and what is
//! put there, and the line it has to give.

use plain::hex;
use plain::table::{self, Values, Written};
use seeded::Generator;

/// Bytes behind the room, which begin with the record's numbers or with its body.
pub const GIVEN: usize = 40;

/// What is put into a room.
#[derive(Clone)]
pub enum Given {
    /// A record by its values: task 4.
    Values(Values),
    /// A record by its kind byte and its body: task 5.
    Body(u8, Vec<u8>),
}

/// A case: a record, and the room and the place where it is put.
pub struct Case {
    pub given: Given,
    pub place: u64,
    /// All that the room holds before.
    pub room: Vec<u8>,
    /// What the bytes behind the room hold where they are not in use.
    pub filled: [u8; GIVEN],
}

impl Case {
    /// A case with a room of a length, filled from the generator.
    pub fn new(generator: &mut Generator, given: Given, room: usize, place: u64) -> Case {
        Case {
            given,
            place,
            room: generator.vector(room),
            filled: generator.bytes(),
        }
    }

    /// The record. Numbers have their least significant byte first.
    pub fn record(&self) -> Vec<u8> {
        let (task, kind, length, front) = match &self.given {
            Given::Values(values) => (4, values.kind(), 0, numbers(values)),
            Given::Body(kind, body) => (5, *kind, body.len() as u8, body.clone()),
        };
        let mut record = vec![task, kind, length, 0, 0, 0];
        record.extend((self.room.len() as u16).to_le_bytes());
        record.extend(self.place.to_le_bytes());
        record.extend([0; 8]);
        record.extend(&self.room);
        record.extend(&front);
        record.extend(&self.filled[front.len()..]);
        record
    }

    /// The line that the program has to print for the record.
    pub fn line(&self) -> String {
        let ((number, next), room) = self.written();
        format!("{number} {next} {}\n", hex::encode(&room))
    }

    /// The refusal number, or 0, with the place behind the record, and the whole room
    /// afterwards.
    pub fn written(&self) -> (Written, Vec<u8>) {
        let mut room = self.room.clone();
        let answer = match &self.given {
            Given::Values(values) => table::write_at(&mut room, self.place, values),
            Given::Body(kind, body) => table::write_body_at(&mut room, self.place, *kind, body),
        };
        (answer, room)
    }
}

/// The numbers of a record, each with as many bytes as it has: eight for an address too,
/// so that one can be given that six don't hold.
fn numbers(values: &Values) -> Vec<u8> {
    match values {
        Values::Node { address } => address.to_le_bytes().to_vec(),
        Values::Floor { level, .. } => level.to_le_bytes().to_vec(),
        Values::Hold { time } => time.to_le_bytes().to_vec(),
        Values::Note(numbers) => numbers.map(u64::to_le_bytes).concat(),
    }
}
