//! One case of `table_cases`: its record, a header of 24 bytes and the table, and
//! the line it has to give.

use plain::table::{self, Record};
use plain::{checked, hex};
use seeded::Generator;

/// Bytes of a record before its table.
pub const HEADER: usize = 24;

/// Bytes of the room whose first bytes are lent for a fingerprint.
pub const ROOM: usize = 40;

/// What every byte of the room holds before.
pub const FILL: u8 = 0xa5;

/// What is asked about a table.
#[derive(Debug, Clone, Copy, PartialEq, Eq)]
pub enum Task {
    /// The record at a place.
    ReadAt = 1,
    /// How many records there are.
    Count = 2,
    Fingerprint = 3,
}

/// A case: a table, and all that a task may be handed over with it.
#[derive(Clone)]
pub struct Case {
    pub task: Task,
    /// Bytes of the salt that are handed over.
    pub salt_length: u8,
    /// Bytes of the room that are lent.
    pub room_length: u8,
    /// Where to read.
    pub place: u16,
    pub salt: [u8; 16],
    pub table: Vec<u8>,
}

impl Case {
    /// A case with everything else from the generator, but for a salt and a room
    /// that are handed over whole.
    pub fn new(generator: &mut Generator, task: Task, table: &[u8]) -> Case {
        Case {
            task,
            salt_length: 16,
            room_length: ROOM as u8,
            place: generator.number() as u16,
            salt: generator.bytes(),
            table: table.to_vec(),
        }
    }

    /// The record. Numbers have their least significant byte first.
    pub fn record(&self) -> Vec<u8> {
        let mut record = Vec::with_capacity(HEADER + self.table.len());
        record.extend([self.task as u8, self.salt_length, self.room_length, 0]);
        record.extend(self.place.to_le_bytes());
        record.extend((self.table.len() as u16).to_le_bytes());
        record.extend(self.salt);
        record.extend(&self.table);
        record
    }

    /// The line that the program has to print for the record.
    pub fn line(&self) -> String {
        match self.task {
            Task::ReadAt => self.found(),
            Task::Count => self.count(),
            Task::Fingerprint => {
                let ((number, place), room) = self.fingerprint();
                format!("{number} {place} {}\n", hex::encode(&room))
            }
        }
    }

    fn found(&self) -> String {
        match table::read_at(&self.table, self.place.into()) {
            Ok(Some((record, next))) => format!("found {next} {}\n", entry(&record)),
            Ok(None) => "end\n".into(),
            Err(refused) => table::refused_line(refused),
        }
    }

    fn count(&self) -> String {
        match table::read(&self.table) {
            Ok(records) => format!("records {}\n", records.len()),
            Err(refused) => table::refused_line(refused),
        }
    }

    /// The refusal number, or 0, with its place, and the whole room afterwards.
    pub fn fingerprint(&self) -> ((u8, u64), [u8; ROOM]) {
        let salt = &self.salt[..usize::from(self.salt_length)];
        let mut room = [FILL; ROOM];
        let lent = &mut room[..usize::from(self.room_length)];
        let answer = checked::fingerprint(salt, &self.table, lent);
        (answer, room)
    }
}

/// What a record says. Its numbers stand in the body with their most significant
/// byte first, and are printed so.
fn entry(record: &Record) -> String {
    let numbers = hex::encode(record.body);
    match record.kind {
        1 => format!("node {numbers}"),
        2 => format!("floor low {numbers}"),
        3 => format!("floor high {numbers}"),
        4 => format!("hold {numbers}"),
        _ => {
            let numbers: Vec<String> = record.body.chunks(8).map(hex::encode).collect();
            format!("note {}", numbers.join(" "))
        }
    }
}
