//! Steering tables: what stands at a place, how many records there are, and records
//! written one behind the other.

use crate::{answer, face, Refusal, RefusedTable};
use core::array::from_fn;
use core::iter::FusedIterator;

/// The most bytes of a table.
pub const MOST_TABLE_BYTES: usize = 4096;

/// The kind byte of the record at a place of a table and the place behind the record,
/// whose body stands between the two; none at the table's end. What stands before and
/// behind the record is not looked at. Refuses by 6, 8, 9 or 10.
///
/// [`records`] goes through a whole table.
///
/// ```
/// use bahmorist::{read_at, Refusal, RefusedTable};
///
/// let table = [1, 0xa2, 0, 0, 0, 0, 7, 2, 0, 0x3c, 3, 0, 0x41];
/// assert_eq!(read_at(&table, 7)?, Some((2, 10)));
/// assert_eq!(table[8..10], [0, 0x3c]);
/// assert_eq!(read_at(&table, 13)?, None);
///
/// let refused = read_at(&table, 14).unwrap_err();
/// assert_eq!(refused.refusal, Refusal::Shape);
/// let refused = read_at(&table[..12], 10);
/// let (refusal, place) = (Refusal::CutShort, 10);
/// assert_eq!(refused, Err(RefusedTable { refusal, place }));
/// # Ok::<(), RefusedTable>(())
/// ```
pub fn read_at(table: &[u8], place: u64) -> Result<Option<(u8, u64)>, RefusedTable> {
    let (mut kind, mut next) = (0, 0);
    // SAFETY: the pointer comes with its slice's length, and the answers are variables
    // of this function; see `face`.
    answer(unsafe {
        face::bahmorist_read_at(table.as_ptr(), table.len(), place, &mut kind, &mut next)
    })
    .map(|()| match kind {
        0 => None,
        kind => Some((kind, next)),
    })
    .map_err(|refusal| RefusedTable {
        refusal,
        place: next,
    })
}

/// How many records a table has. Refuses by 8, 9 or 10.
///
/// ```
/// use bahmorist::{count, Refusal, RefusedTable};
///
/// let table = [1, 0xa2, 0, 0, 0, 0, 7, 2, 0, 0x3c, 3, 0, 0x41];
/// assert_eq!(count(&table)?, 3);
/// assert_eq!(count(&[])?, 0);
///
/// let refused = count(&[2, 0, 0x3c, 6]);
/// let (refusal, place) = (Refusal::Kind, 3);
/// assert_eq!(refused, Err(RefusedTable { refusal, place }));
/// # Ok::<(), RefusedTable>(())
/// ```
pub fn count(table: &[u8]) -> Result<u64, RefusedTable> {
    let (mut count, mut place) = (0, 0);
    // SAFETY: the pointer comes with its slice's length, and the answers are variables
    // of this function; see `face`.
    answer(unsafe { face::bahmorist_count(table.as_ptr(), table.len(), &mut count, &mut place) })
        .map(|()| count)
        .map_err(|refusal| RefusedTable { refusal, place })
}

/// Puts a record, its kind byte and then its body, at a place of a room, and gives the
/// place behind it; bytes outside of it stay. Refuses by 5, 9 or 10.
///
/// [`TableWriter`] puts a table together.
///
/// ```
/// use bahmorist::{write_at, Refusal};
///
/// let mut room = [7; 8];
/// assert_eq!(write_at(&mut room, 1, 2, &[0, 0x3c])?, 4);
/// assert_eq!(room, [7, 2, 0, 0x3c, 7, 7, 7, 7]);
///
/// assert_eq!(write_at(&mut room, 6, 2, &[0, 0x3c]), Err(Refusal::Room));
/// assert_eq!(write_at(&mut room, 4, 6, &[0, 0x3c]), Err(Refusal::Kind));
/// assert_eq!(write_at(&mut room, 4, 2, &[0x3c]), Err(Refusal::CutShort));
/// assert_eq!(room, [7, 2, 0, 0x3c, 7, 7, 7, 7]);
/// # Ok::<(), Refusal>(())
/// ```
pub fn write_at(room: &mut [u8], place: u64, kind: u8, body: &[u8]) -> Result<u64, Refusal> {
    let mut next = 0;
    // SAFETY: each pointer comes with its slice's length, and the answer is a variable
    // of this function; see `face`.
    answer(unsafe {
        face::bahmorist_write_at(
            room.as_mut_ptr(),
            room.len(),
            place,
            kind,
            body.as_ptr(),
            body.len(),
            &mut next,
        )
    })
    .map(|()| next)
}

/// The two radios that a join floor is for.
#[derive(Debug, Clone, Copy, PartialEq, Eq, Hash)]
pub enum Radio {
    /// 2.4 GHz.
    Low,
    /// 5 GHz.
    High,
}

/// What a record says. In a table its numbers have their most significant byte first.
/// Further kinds may come.
///
/// ```
/// use bahmorist::{Radio, Record};
///
/// let floor = Record::Floor { radio: Radio::High, level: 65 };
/// assert_eq!(floor.kind(), 3);
/// ```
#[derive(Debug, Clone, Copy, PartialEq, Eq, Hash)]
#[non_exhaustive]
pub enum Record {
    /// A node address, as its bytes stand in the table.
    Node {
        /// The six bytes.
        address: [u8; 6],
    },
    /// The join floor of a radio.
    Floor {
        /// Which one.
        radio: Radio,
        /// The floor.
        level: u16,
    },
    /// A hold time.
    Hold {
        /// The time.
        time: u32,
    },
    /// A note: four numbers.
    Note([u64; 4]),
}

impl Record {
    /// The kind byte: 1 for a node address, 2 and 3 for the join floors at 2.4 and at 5
    /// GHz, 4 for a hold time, and 5 for a note.
    pub fn kind(&self) -> u8 {
        match self {
            Record::Node { .. } => 1,
            Record::Floor { radio, .. } => match radio {
                Radio::Low => 2,
                Radio::High => 3,
            },
            Record::Hold { .. } => 4,
            Record::Note(_) => 5,
        }
    }

    /// The record of a kind and a body, and none where no record here has them: an
    /// archive of a later version may know more.
    fn read(kind: u8, body: &[u8]) -> Option<Record> {
        let floor = |radio| {
            let level = u16::from_be_bytes(body.try_into().ok()?);
            Some(Record::Floor { radio, level })
        };
        match kind {
            1 => {
                let address = body.try_into().ok()?;
                Some(Record::Node { address })
            }
            2 => floor(Radio::Low),
            3 => floor(Radio::High),
            4 => {
                let time = u32::from_be_bytes(body.try_into().ok()?);
                Some(Record::Hold { time })
            }
            5 => {
                let body: [u8; 32] = body.try_into().ok()?;
                let number = |place| from_fn(|byte| body[8 * place + byte]);
                Some(Record::Note(from_fn(|place| {
                    u64::from_be_bytes(number(place))
                })))
            }
            _ => None,
        }
    }

    /// Puts the record at a place of a room, and gives the place behind it.
    fn write(&self, room: &mut [u8], place: u64) -> Result<u64, Refusal> {
        let mut put = |body: &[u8]| write_at(room, place, self.kind(), body);
        match *self {
            Record::Node { address } => put(&address),
            Record::Floor { level, .. } => put(&level.to_be_bytes()),
            Record::Hold { time } => put(&time.to_be_bytes()),
            Record::Note(numbers) => {
                let mut body = [0; 32];
                for (bytes, number) in body.chunks_mut(8).zip(numbers) {
                    bytes.copy_from_slice(&number.to_be_bytes());
                }
                put(&body)
            }
        }
    }
}

/// The records of a table in order, each with the place of its kind byte.
///
/// ```
/// use bahmorist::{records, Radio, Record, RefusedTable};
///
/// let table = [1, 0xa2, 0, 0, 0, 0, 7, 2, 0, 0x3c, 3, 0, 0x41];
/// let all: Result<Vec<(u64, Record)>, RefusedTable> = records(&table).collect();
/// let floor = |radio, level| Record::Floor { radio, level };
/// let node = Record::Node { address: [0xa2, 0, 0, 0, 0, 7] };
/// let right = [(0, node), (7, floor(Radio::Low, 60)), (10, floor(Radio::High, 65))];
/// assert_eq!(all?, right);
/// # Ok::<(), RefusedTable>(())
/// ```
///
/// The first that is no record, or a table that is too long, is refused, and nothing
/// comes behind that:
///
/// ```
/// use bahmorist::{records, Record, Refusal, RefusedTable};
///
/// let mut records = records(&[4, 0, 0, 0, 9, 6, 1, 2]);
/// assert_eq!(records.next(), Some(Ok((0, Record::Hold { time: 9 }))));
/// let (refusal, place) = (Refusal::Kind, 5);
/// assert_eq!(records.next(), Some(Err(RefusedTable { refusal, place })));
/// assert_eq!(records.next(), None);
/// assert_eq!(records.next(), None);
/// ```
pub fn records(table: &[u8]) -> Records<'_> {
    Records {
        table,
        place: Some(0),
    }
}

/// An iterator over the records of a table: [`records`].
#[derive(Debug, Clone)]
pub struct Records<'a> {
    table: &'a [u8],
    /// Where to read on; none where all is said.
    place: Option<u64>,
}

impl Iterator for Records<'_> {
    type Item = Result<(u64, Record), RefusedTable>;

    fn next(&mut self) -> Option<Self::Item> {
        let place = self.place.take()?;
        match read_at(self.table, place) {
            Ok(None) => None,
            Ok(Some((kind, next))) => {
                self.place = Some(next);
                let body = &self.table[place as usize + 1..next as usize];
                let refusal = Refusal::Kind;
                let record = Record::read(kind, body).ok_or(RefusedTable { refusal, place });
                Some(record.map(|record| (place, record)))
            }
            Err(refused) => Some(Err(refused)),
        }
    }
}

impl FusedIterator for Records<'_> {}

/// Writes a table into a room, record by record. Of a room that is longer than a table
/// the rest stays as it is.
///
/// ```
/// use bahmorist::{count, Radio, Record, Refusal, TableWriter};
///
/// let mut room = [0; 12];
/// let mut writer = TableWriter::new(&mut room);
/// writer.push(&Record::Node { address: [0xa2, 0, 0, 0, 0, 7] })?;
/// writer.push(&Record::Floor { radio: Radio::Low, level: 60 })?;
/// assert_eq!(writer.len(), 10);
///
/// // Two bytes are left, and a floor has three.
/// let refused = writer.push(&Record::Floor { radio: Radio::High, level: 65 });
/// assert_eq!(refused, Err(Refusal::Room));
///
/// let table = writer.into_table();
/// assert_eq!(table, [1, 0xa2, 0, 0, 0, 0, 7, 2, 0, 0x3c]);
/// assert_eq!(count(table), Ok(2));
/// # Ok::<(), Refusal>(())
/// ```
#[derive(Debug)]
pub struct TableWriter<'a> {
    /// At most as long as a table.
    room: &'a mut [u8],
    /// The bytes that are written.
    length: usize,
}

impl<'a> TableWriter<'a> {
    /// The empty table at the front of a room.
    pub fn new(room: &'a mut [u8]) -> TableWriter<'a> {
        let most = room.len().min(MOST_TABLE_BYTES);
        TableWriter {
            room: &mut room[..most],
            length: 0,
        }
    }

    /// Puts a record behind those that are there. Refuses by 5 where the room, or the
    /// 4,096 bytes of a table, are too short for it; the table stays as it is then.
    pub fn push(&mut self, record: &Record) -> Result<(), Refusal> {
        self.length = record.write(self.room, self.length as u64)? as usize;
        Ok(())
    }

    /// The bytes that are written so far.
    pub fn len(&self) -> usize {
        self.length
    }

    /// Whether there is no record yet.
    pub fn is_empty(&self) -> bool {
        self.length == 0
    }

    /// The table so far.
    pub fn table(&self) -> &[u8] {
        &self.room[..self.length]
    }

    /// The table, for as long as the room is lent.
    pub fn into_table(self) -> &'a [u8] {
        &self.room[..self.length]
    }
}

#[cfg(test)]
mod tests;
