//! Steering tables: records of one kind byte and a body whose length the kind
//! fixes, one after the other. The empty table is valid.

mod text;
mod writing;

pub use text::{write_table, write_table_output, TEXT_LIMIT};
pub use writing::{write_at, write_body_at, Radio, Values, Written};

use crate::checked;
use crate::hex;
use crate::refusal::{self, TABLE_LIMIT};
use std::fmt::Write;

/// A refusal's number and place. The place is 0 except with 9 and 10.
pub type Refused = (u8, u64);

/// A record as it stands in its table.
#[derive(Debug, Clone, Copy, PartialEq, Eq)]
pub struct Record<'a> {
    /// The place of the kind byte, from the table's first byte.
    pub place: u64,
    /// The kind byte.
    pub kind: u8,
    /// The bytes behind it.
    pub body: &'a [u8],
}

/// The bytes of a kind's body: node address, join floor at 2.4 GHz, join floor
/// at 5 GHz, hold time, note.
pub fn body_length(kind: u8) -> Option<usize> {
    match kind {
        1 => Some(6),
        2 | 3 => Some(2),
        4 => Some(4),
        5 => Some(32),
        _ => None,
    }
}

/// The record at a place and the place behind it, or none at the table's end.
/// Refusals 6, 8, 9, 10.
pub fn read_at(table: &[u8], place: u64) -> Result<Option<(Record<'_>, u64)>, Refused> {
    if place > table.len() as u64 {
        return Err((refusal::SHAPE, 0));
    }
    if table.len() > TABLE_LIMIT {
        return Err((refusal::TABLE, 0));
    }
    let Some((&kind, rest)) = table[place as usize..].split_first() else {
        return Ok(None);
    };
    let length = body_length(kind).ok_or((refusal::KIND, place))?;
    let body = rest.get(..length).ok_or((refusal::CUT_SHORT, place))?;
    let record = Record { place, kind, body };
    Ok(Some((record, place + 1 + length as u64)))
}

/// All records of a table in order. Refusals 8, 9, 10.
pub fn read(table: &[u8]) -> Result<Vec<Record<'_>>, Refused> {
    let mut records = Vec::new();
    let mut place = 0;
    while let Some((record, next)) = read_at(table, place)? {
        records.push(record);
        place = next;
    }
    Ok(records)
}

/// What the lister prints for a table: place, kind and body of each record on
/// its line, then the count; or the refusal alone.
pub fn list(input: &[u8]) -> String {
    let records = match read(input) {
        Ok(records) => records,
        Err(refused) => return refused_line(refused),
    };
    let mut text = String::new();
    for Record { place, kind, body } in &records {
        let body = hex::encode(body);
        writeln!(text, "{place} {kind:02x} {body}").expect("a string takes any text");
    }
    text + &format!("records {}\n", records.len())
}

/// What the fingerprint program prints for sixteen salt bytes and a table. An
/// input too short for the salt is refused as a salt that isn't 16 bytes.
pub fn fingerprint_output(input: &[u8]) -> String {
    let (salt, table) = input.split_at(input.len().min(16));
    let mut out = [0; checked::FINGERPRINT];
    match checked::fingerprint(salt, table, &mut out) {
        (refusal::NONE, _) => hex::encode(&out) + "\n",
        refused => refused_line(refused),
    }
}

/// What the programs print for a refusal.
pub fn refused_line((number, place): Refused) -> String {
    format!("refused {number} at {place}\n")
}

#[cfg(test)]
mod tests;
