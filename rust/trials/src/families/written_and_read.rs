//! Tables there and back without regard to the second implementation: what was written
//! record by record is read and counted, and what was read is written again, byte for
//! byte. Then the wrapper's own records, against what `plain` writes by their values.

use super::null_pointers::WITH_NULL;
use crate::case::shown;
use crate::family::{Family, Run};
use crate::implementation::Implementation;
use crate::table;
use bahmorist::{Radio, Record, TableWriter};
use plain::table::Values;
use seeded::Generator;

pub const FAMILY: Family = Family {
    name: "tables written and read, there and back",
    run,
};

const USUAL: usize = 2_000;

fn run(run: &mut Run) -> Result<(), String> {
    let subject = run.subject;
    for _ in 0..run.cases(USUAL) {
        let length = run.generator.below(400) as usize;
        let table = table::records(&mut run.generator, length);
        let records: Vec<Record> = (0..run.generator.below(60))
            .map(|_| some(&mut run.generator))
            .collect();
        for by in [subject, WITH_NULL] {
            let wrong = |what| format!("table {}: {what}", shown(&table));
            there_and_back(&by, &table).map_err(wrong)?;
        }
        by_values(&records)?;
        run.count(3);
    }
    Ok(())
}

/// Reads a valid table record by record and writes each into a room, and reads and
/// counts that.
fn there_and_back(by: &Implementation, table: &[u8]) -> Result<(), String> {
    let mut room = vec![0xee; table.len()];
    let (mut place, mut records) = (0, 0);
    loop {
        let (number, kind, next) = (by.read_at)(table, place);
        if number != 0 {
            return Err(format!("refused {number} at {next}"));
        }
        if kind == 0 {
            break;
        }
        let body = table
            .get(place as usize + 1..next as usize)
            .ok_or(format!("a record from {place} to {next}"))?;
        let written = (by.write_at)(&mut room, place, kind as u8, body);
        let again = (by.read_at)(&room, place);
        if written != (0, next) || again != (0, kind, next) {
            return Err(format!("place {place}: {written:?}, and read {again:?}"));
        }
        place = next;
        records += 1;
    }
    let counted = (by.count)(&room);
    if room != table || place != table.len() as u64 || counted != (0, records, 0) {
        return Err(format!(
            "{records} records to {place}, counted {counted:?}, and written {}",
            shown(&room)
        ));
    }
    Ok(())
}

/// A record of any kind.
fn some(generator: &mut Generator) -> Record {
    match generator.below(5) {
        0 => Record::Node {
            address: generator.bytes(),
        },
        1 => Record::Hold {
            time: generator.number() as u32,
        },
        2 => Record::Note([0; 4].map(|_| generator.number())),
        _ => Record::Floor {
            radio: generator.pick(&[Radio::Low, Radio::High]),
            level: generator.number() as u16,
        },
    }
}

/// The same for `plain`, which has an address as a number.
fn values(record: &Record) -> Values {
    match *record {
        Record::Node {
            address: [a, b, c, d, e, f],
        } => Values::Node {
            address: u64::from_be_bytes([0, 0, a, b, c, d, e, f]),
        },
        Record::Floor { radio, level } => Values::Floor {
            radio: match radio {
                Radio::Low => plain::table::Radio::Low,
                Radio::High => plain::table::Radio::High,
            },
            level,
        },
        Record::Hold { time } => Values::Hold { time },
        Record::Note(numbers) => Values::Note(numbers),
        _ => unreachable!("`some` makes no other"),
    }
}

/// Records by the wrapper's writer and by `plain`, in rooms that end within the last one
/// too; and read back by the wrapper's iterator.
fn by_values(records: &[Record]) -> Result<(), String> {
    let mut room = [0; 4096];
    let mut place = 0;
    let mut places = Vec::new();
    for record in records {
        places.push(place);
        let (number, next) = plain::table::write_at(&mut room, place, &values(record));
        assert_eq!(number, 0, "a room that is long enough");
        place = next;
    }
    let table = &room[..place as usize];
    for spare in [0, 1] {
        let mut lent = vec![0xee; table.len() + spare];
        let mut writer = TableWriter::new(&mut lent);
        if !records.iter().all(|record| writer.push(record).is_ok()) || writer.table() != table {
            return Err(format!("{records:?}: written {}", shown(writer.table())));
        }
    }
    if let Some(last) = places.last() {
        let mut lent = vec![0xee; table.len() - 1];
        let mut writer = TableWriter::new(&mut lent);
        let written = records.iter().filter(|record| writer.push(record).is_ok());
        if written.count() != records.len() - 1 || writer.table() != &table[..*last as usize] {
            return Err(format!(
                "{records:?}: in a short room {}",
                shown(writer.table())
            ));
        }
    }
    let read: Result<Vec<(u64, Record)>, _> = bahmorist::records(table).collect();
    let right: Vec<(u64, Record)> = places.into_iter().zip(records.iter().copied()).collect();
    match read == Ok(right) {
        true => Ok(()),
        false => Err(format!("table {}: read {read:?}", shown(table))),
    }
}
