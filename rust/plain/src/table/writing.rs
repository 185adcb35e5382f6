//! Records put at a place of a room: by what they say, or by kind byte and body.

use super::body_length;
use crate::refusal;

/// A refusal's number, or 0, and the place behind the record, which is 0 in a refusal.
pub type Written = (u8, u64);

/// The two radios that a join floor is for.
#[derive(Debug, Clone, Copy, PartialEq, Eq)]
pub enum Radio {
    /// 2.4 GHz.
    Low,
    /// 5 GHz.
    High,
}

/// What a record says.
#[derive(Debug, Clone, Copy, PartialEq, Eq)]
pub enum Values {
    /// A node address, of which six bytes hold those below 2^48.
    Node { address: u64 },
    /// The join floor of a radio.
    Floor { radio: Radio, level: u16 },
    /// A hold time.
    Hold { time: u32 },
    /// Four numbers.
    Note([u64; 4]),
}

impl Values {
    /// The kind byte.
    pub fn kind(&self) -> u8 {
        match self {
            Values::Node { .. } => 1,
            Values::Floor { radio, .. } => match radio {
                Radio::Low => 2,
                Radio::High => 3,
            },
            Values::Hold { .. } => 4,
            Values::Note(_) => 5,
        }
    }

    /// The body, each number with its most significant byte first; none for an address
    /// that six bytes don't hold.
    pub fn body(&self) -> Option<Vec<u8>> {
        match *self {
            Values::Node { address } => match address.to_be_bytes() {
                [0, 0, body @ ..] => Some(body.to_vec()),
                _ => None,
            },
            Values::Floor { level, .. } => Some(level.to_be_bytes().to_vec()),
            Values::Hold { time } => Some(time.to_be_bytes().to_vec()),
            Values::Note(numbers) => Some(numbers.map(u64::to_be_bytes).concat()),
        }
    }
}

/// Puts a record at a place of a room; bytes outside of it stay. Refusals 5, 12.
pub fn write_at(room: &mut [u8], place: u64, record: &Values) -> Written {
    let length = body_length(record.kind()).expect("a kind of a record");
    let Some(part) = part(room, place, length) else {
        return (refusal::ROOM, 0);
    };
    match record.body() {
        Some(body) => put(part, place, record.kind(), &body),
        None => (refusal::ADDRESS, 0),
    }
}

/// The same by kind byte and body. Refusals 5, 9, 10.
pub fn write_body_at(room: &mut [u8], place: u64, kind: u8, body: &[u8]) -> Written {
    let Some(part) = part(room, place, body.len()) else {
        return (refusal::ROOM, 0);
    };
    match body_length(kind) {
        None => (refusal::KIND, 0),
        Some(length) if length != body.len() => (refusal::CUT_SHORT, 0),
        Some(_) => put(part, place, kind, body),
    }
}

/// The part of a room where a record with so long a body goes; none where the room ends
/// before that.
fn part(room: &mut [u8], place: u64, body: usize) -> Option<&mut [u8]> {
    let behind = room.get_mut(usize::try_from(place).ok()?..)?;
    behind.get_mut(..1 + body)
}

fn put(part: &mut [u8], place: u64, kind: u8, body: &[u8]) -> Written {
    part[0] = kind;
    part[1..].copy_from_slice(body);
    (refusal::NONE, place + part.len() as u64)
}

#[cfg(test)]
mod tests;
