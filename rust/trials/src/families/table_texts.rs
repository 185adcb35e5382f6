//! Texts through `write_table`: good ones and such with damage of every sort, in pieces,
//! at the limits of a table and of a text, and without an end.

mod damage;

use crate::family::{Family, Run};
use crate::folder::Folder;
use crate::program::{at_once, check_all, By, Job, Piece};
use crate::table;
use plain::table::{list, write_table_output, TEXT_LIMIT};
use seeded::Generator;
use std::fs::File;
use std::io::{ErrorKind, Read, Seek, Write};
use std::process::{Command, Stdio};

pub const FAMILY: Family = Family {
    name: "texts through the writer, good, damaged and endless",
    run,
};

const USUAL: usize = 1_000;

const NAME: &str = "write_table";

fn run(run: &mut Run) -> Result<(), String> {
    let generator = &mut run.generator;
    let mut texts = damage::by_hand();
    texts.extend(damage::each_byte(EXAMPLE));
    texts.extend(damage::each_byte(b"12 04 0102030a\nrecords 1\n"));
    texts.extend(long_tables(generator));
    texts.extend(long_texts());
    let jobs = texts.into_iter().map(|text| job(By::Processor, text));
    let mut jobs: Vec<Job> = jobs.collect();
    // With a status, what it may be.
    jobs.extend(damage::by_hand().into_iter().map(|text| job(By::Run, text)));
    check_all(&jobs)?;
    run.count(jobs.len());
    some(run)?;
    in_pieces(run)?;
    without_an_end(run)?;
    no_more_is_read(run)
}

/// A node address, and both join floors.
const EXAMPLE: &[u8] = b"0 01 a20000000007\n7 02 003c\n10 03 0041\nrecords 3\n";

/// The program on a text.
fn job(by: By, text: Vec<u8>) -> Job {
    in_these(by, at_once(text))
}

fn in_these(by: By, pieces: Vec<Piece>) -> Job {
    let text: Vec<u8> = pieces
        .iter()
        .flat_map(|piece| piece.bytes.clone())
        .collect();
    Job {
        name: NAME,
        words: Vec::new(),
        folder: None,
        output: write_table_output(&text),
        said: String::new(),
        pieces,
        by,
    }
}

/// Texts of random tables: as they are listed, and with random damage.
fn some(run: &mut Run) -> Result<(), String> {
    let mut left = run.cases(USUAL);
    while left > 0 {
        let batch = left.min(100);
        let texts = (0..batch).map(|_| {
            let text = text(&mut run.generator);
            match run.generator.below(4) {
                0 => text,
                _ => damage::some(&mut run.generator, text),
            }
        });
        let jobs: Vec<Job> = texts.map(|text| job(By::Processor, text)).collect();
        check_all(&jobs)?;
        run.count(jobs.len());
        left -= batch;
    }
    Ok(())
}

/// The lines of a valid table.
fn text(generator: &mut Generator) -> Vec<u8> {
    let length = generator.below(200) as usize;
    lines(&table::records(generator, length))
}

/// What the lister would print of records, if no table were too long.
fn lines(records: &[u8]) -> Vec<u8> {
    let (mut text, mut place, mut count) = (String::new(), 0, 0);
    while place < records.len() {
        let kind = records[place];
        let (_, body) = table::KINDS[usize::from(kind) - 1];
        let end = place + 1 + body;
        let listed = list(&records[place..end]);
        let (_, record) = listed.split_once(' ').expect("a place");
        let (record, _) = record.split_once('\n').expect("a line");
        text += &format!("{place} {record}\n");
        (place, count) = (end, count + 1);
    }
    text += &format!("records {count}\n");
    text.into()
}

/// Tables of 4,095 to 4,097 bytes and far over that.
fn long_tables(generator: &mut Generator) -> Vec<Vec<u8>> {
    let mut texts = Vec::new();
    for length in [4_090, 4_095, 4_096, 4_097, 4_098, 4_130, 9_000] {
        for _ in 0..20 {
            texts.push(lines(&table::of_length(generator, length)));
        }
    }
    texts
}

/// Texts that are as long as one may be, and a little longer or shorter: by the digits of
/// a place, by a count behind such, and with something behind the count.
fn long_texts() -> Vec<Vec<u8>> {
    let mut texts = Vec::new();
    for length in TEXT_LIMIT - 12..TEXT_LIMIT + 24 {
        for rest in [
            " 02 003c\nrecords 1\n",
            " 02 003c\nrecords 1\nx",
            " 02 003c\n",
            "\n",
            "",
        ] {
            let mut text = vec![b'7'; length - rest.len()];
            text.extend(rest.bytes());
            texts.push(text);
        }
    }
    for length in [TEXT_LIMIT - 1, TEXT_LIMIT, TEXT_LIMIT + 1, 200_000] {
        for front in [&b"records 0\n"[..], EXAMPLE] {
            let mut text = front.to_vec();
            text.resize(length, b'\n');
            texts.push(text);
        }
    }
    texts
}

/// Texts in pieces of 1 to 5,000 bytes, with pauses.
fn in_pieces(run: &mut Run) -> Result<(), String> {
    let generator = &mut run.generator;
    let mut jobs = Vec::new();
    for most in [1, 2, 3, 7, 64, 1_000, 4_096, 5_000] {
        for length in [30, 300, 4_096] {
            let mut text = lines(&table::of_length(generator, length));
            if generator.below(2) == 0 {
                text = damage::some(generator, text);
            }
            // Single bytes of a long text would take too long.
            let most = most.max(text.len() / 2_000);
            jobs.push(in_these(By::Processor, pieces(generator, &text, most)));
        }
    }
    check_all(&jobs)?;
    run.count(jobs.len());
    Ok(())
}

/// A text cut into pieces of up to so many bytes.
fn pieces(generator: &mut Generator, text: &[u8], most: usize) -> Vec<Piece> {
    let mut pieces = Vec::new();
    let mut rest = text;
    while !rest.is_empty() {
        let size = 1 + generator.below(most as u64) as usize;
        let (bytes, behind) = rest.split_at(size.min(rest.len()));
        pieces.push(Piece {
            bytes: bytes.to_vec(),
            pause: generator.below(64) == 0,
        });
        rest = behind;
    }
    pieces
}

/// What goes on for ever, behind what stands in front of it.
const ENDLESS: [(&[u8], &[u8]); 8] = [
    (b"", b"0"),
    (b"", b"0 02 003c\n"),
    (b"", b"\n"),
    (b"", b"\0"),
    (b"0 02 ", b"0"),
    (b"records 0\n", b"\n"),
    (b"0 02 003c\n", b" "),
    (EXAMPLE, b"x"),
];

/// How much is written before a program is taken to read for ever.
const LONG: usize = 1 << 24;

/// An input without an end: the program ends all the same.
fn without_an_end(run: &mut Run) -> Result<(), String> {
    for (front, more) in ENDLESS {
        for by in [By::Processor, By::Run] {
            let mut text = front.to_vec();
            while text.len() < 2 * TEXT_LIMIT {
                text.extend(more);
            }
            let right = write_table_output(&text);
            let printed = endless(by.command(NAME), front, more)?;
            if printed != right {
                let [printed, right] = [&printed, &right].map(|text| text.escape_ascii());
                let (front, more) = (front.escape_ascii(), more.escape_ascii());
                return Err(format!(
                    "{front} and {more} for ever: {printed}, where {right} is right"
                ));
            }
            run.count(1);
        }
    }
    Ok(())
}

/// What a program prints that is fed until it ends.
fn endless(mut command: Command, front: &[u8], more: &[u8]) -> Result<Vec<u8>, String> {
    let told = |error: std::io::Error| error.to_string();
    let child = command.stdin(Stdio::piped()).stdout(Stdio::piped()).spawn();
    let mut child = child.map_err(told)?;
    let mut pipe = child.stdin.take().expect("a pipe for standard input");
    let more = more.repeat(4_096);
    let mut fed = 0;
    let mut piece = front;
    loop {
        match pipe.write_all(piece) {
            Ok(()) => fed += piece.len(),
            Err(error) if error.kind() == ErrorKind::BrokenPipe => break,
            Err(error) => return Err(error.to_string()),
        }
        if fed > LONG {
            child.kill().map_err(told)?;
            child.wait().map_err(told)?;
            return Err(format!("{fed} bytes, and it reads on"));
        }
        piece = &more;
    }
    let mut printed = Vec::new();
    let mut output = child.stdout.take().expect("a pipe for standard output");
    output.read_to_end(&mut printed).map_err(told)?;
    child.wait().map_err(told)?;
    Ok(printed)
}

/// Of a long file no more is read than one byte beyond the longest text.
fn no_more_is_read(run: &mut Run) -> Result<(), String> {
    for (front, more) in ENDLESS {
        let mut text = front.to_vec();
        while text.len() < 4 * TEXT_LIMIT {
            text.extend(more);
        }
        let folder = Folder::new("table_texts")?.with("text", &text)?;
        let read = how_much(&folder).map_err(|error| error.to_string())?;
        if read > TEXT_LIMIT as u64 + 1 {
            let (front, more) = (front.escape_ascii(), more.escape_ascii());
            return Err(format!("{front} and {more}: {read} bytes are read"));
        }
        run.count(1);
    }
    Ok(())
}

/// Where the program leaves off in a file.
fn how_much(folder: &Folder) -> std::io::Result<u64> {
    let mut file = File::open(folder.0.join("text"))?;
    By::Processor
        .command(NAME)
        .stdin(file.try_clone()?)
        .output()?;
    file.stream_position()
}

#[cfg(test)]
mod tests {
    use super::*;
    use plain::table::write_table;

    #[test]
    fn lines_are_those_of_the_lister() {
        let mut generator = Generator::new(1);
        for length in [0, 3, 100, 4_096] {
            let table = table::of_length(&mut generator, length);
            assert_eq!(lines(&table), list(&table).into_bytes());
            assert_eq!(write_table(&lines(&table)), Ok(table));
        }
        let long = table::of_length(&mut generator, 4_097);
        assert!(write_table(&lines(&long)).is_err());
    }

    /// Among the texts at the limit some are good and some are bad in each line.
    #[test]
    fn every_outcome_of_a_long_text_is_met() {
        let met = |right| long_texts().iter().any(|text| write_table(text) == right);
        assert!(met(Ok(vec![2, 0, 0x3c])));
        for line in 1..=3 {
            assert!(met(Err(line)), "{line}");
        }
    }

    #[test]
    fn the_pieces_are_the_text() {
        let mut generator = Generator::new(2);
        for most in [1, 3, 5_000] {
            let text = text(&mut generator);
            let pieces = pieces(&mut generator, &text, most);
            assert!(pieces.iter().all(|piece| piece.bytes.len() <= most));
            let joined: Vec<u8> = pieces.into_iter().flat_map(|piece| piece.bytes).collect();
            assert_eq!(joined, text);
        }
    }
}
