//! Command lines of the three programs over tables: what they print and what they
//! say on standard error, on good words and bad ones.

use super::echosum_words::named;
use super::program_tables::salted;
use crate::family::{Family, Run};
use crate::folder::Folder;
use crate::program::{at_once, check_all, check_each, By, Job};
use crate::table;
use plain::hex;
use plain::refusal::{CUT_SHORT, KIND, TABLE};
use plain::table::{body_length, fingerprint_output, list, read, write_table_output};
use std::path::Path;

pub const FAMILY: Family = Family {
    name: "command lines of the programs over tables",
    run,
};

const USUAL: usize = 100;

/// A program, its usage, and what `--help` prints behind that.
#[derive(Clone, Copy)]
struct Program {
    name: &'static str,
    usage: &'static str,
    help: &'static str,
}

const LIST: Program = Program {
    name: "list_table",
    usage: "usage: list_table [--explain] [FILE]",
    help: "\
Lists the records of the steering table in FILE: a line for each, with its place, its kind and its
body in hex, and then their count. Of a table that is refused only `refused N at P` is printed, with
the refusal's number and its place. No FILE, or -, is standard input.

  --explain   says a refusal in words too, in one line on standard error
  -h, --help  prints this
  --version   prints the version
  --          ends the options: a word behind it is FILE

Statuses:
  0  the table was listed
  1  it was refused, something could not be read or written, or a word was bad

Refusals; places count from 0, the table's first byte:
   8  the table is over 4096 bytes; the place is 0
   9  no record has this kind, whose byte is at the place
  10  the record is cut short, its kind byte at the place
",
};

const FINGERPRINT: Program = Program {
    name: "fingerprint_table",
    usage: "usage: fingerprint_table [--explain] [-s SALT] [FILE]",
    help: "\
Prints the fingerprint of a steering table, its ECHO digest of 256 bits under a salt, as 64 hex
digits. FILE holds sixteen salt bytes and then the table, or with -s the table alone. Of a table
that is refused only `refused N at P` is printed, with the refusal's number and its place. No FILE,
or -, is standard input.

  --explain   says a refusal in words too, in one line on standard error
  -s SALT     the salt, 32 hex digits of either case
  -h, --help  prints this
  --version   prints the version
  --          ends the options: a word behind it is FILE

Statuses:
  0  the fingerprint was printed
  1  the table was refused, something could not be read or written, or a word was bad

Refusals; places count from 0, the table's first byte, and not from the salt:
   2  the salt is not 16 bytes; the place is 0
   8  the table is over 4096 bytes; the place is 0
   9  no record has this kind, whose byte is at the place
  10  the record is cut short, its kind byte at the place
",
};

const WRITE: Program = Program {
    name: "write_table",
    usage: "usage: write_table [FILE]",
    help: "\
Makes the steering table of the lines in FILE, as list_table prints them, and writes its bytes to
standard output. No FILE, or -, is standard input. A line is `PLACE KIND BODY`, a record: its place,
any digits, which are not looked at; its kind, two hex digits; and its body in hex. The last line is
`records N` with their number. Hex digits are small, one space stands between two fields, and every
line has its end. Of a text with a bad line only `bad line N` is printed, for the first, from 1.

  -h, --help        prints this
  --version         prints the version
  --verdict-fd=N    writes the status to descriptor N, 3 to 9, as tools/run asks
  --                ends the options: a word behind it is FILE

Statuses:
  0  the table was written
  1  a line was bad, something could not be read or written, or a word was bad

A line is bad that says no record and no count; whose record no table of 4096 bytes would hold;
whose count is another; that stands behind the count; where the count is missing, the one behind
the last; and that has no end within the first 65536 bytes.
",
};

/// A valid table, which is also in a file whose name is a flag, and a salt.
const RECORDS: &[u8] = &[2, 0, 0x3c, 4, 1, 2, 3, 4];
const SALT: [u8; 16] = *b"\x00\x0a\xa0\xff456789abcdef";
const SALT_WORD: &str = "000aA0fF343536373839616263646566";

fn run(run: &mut Run) -> Result<(), String> {
    let folder = Folder::new("table_words")?
        .with("table", RECORDS)?
        .with("--explain", RECORDS)?
        .with("salted", &[&SALT, RECORDS].concat())?
        .with("lines", list(RECORDS).as_bytes())?
        .with("--help", list(RECORDS).as_bytes())?
        .with("bad", b"0 02 003c\nrecords 2\n")?;
    let jobs: Vec<Job> = [
        common(LIST, &folder.0, list(&[])),
        common(FINGERPRINT, &folder.0, "refused 2 at 0\n".into()),
        listings(&folder.0),
        fingerprints(&folder.0),
        common(WRITE, &folder.0, "bad line 1\n".into())
            .into_iter()
            .filter(|job| !job.words.contains(&"--explain".into()))
            .collect(),
        writings(&folder.0),
    ]
    .into_iter()
    .flatten()
    .collect();
    check_all(&jobs)?;
    run.count(jobs.len());
    let cases = run.cases(USUAL);
    let generator = &mut run.generator;
    let agreed = check_each(cases, || {
        let table = table::some(generator);
        let input = salted(generator, &table);
        let salt: [u8; 16] = generator.vector(16).try_into().expect("sixteen bytes");
        explanations(&table, &input, &salt)
    })?;
    run.count(agreed);
    Ok(())
}

/// A program with these words in a folder, on an input.
fn job(
    name: &'static str,
    words: &[&str],
    folder: Option<&Path>,
    input: &[u8],
    output: String,
    said: String,
) -> Job {
    Job {
        name,
        words: words.iter().map(|&word| word.into()).collect(),
        folder: folder.map(Path::to_path_buf),
        pieces: at_once(input.to_vec()),
        output: output.into(),
        said,
        by: By::Run,
    }
}

/// What each program takes, and what none does. `empty` is what comes of an
/// empty input.
fn common(program: Program, folder: &Path, empty: String) -> Vec<Job> {
    let Program { name, usage, help } = program;
    let good = |words: &[&str], output: &str| {
        job(name, words, Some(folder), &[], output.into(), String::new())
    };
    let bad = |words: &[&str], before: &str, word: &str, after: &str| {
        let said = named(&format!("{name}: {before}"), word, after);
        job(name, words, Some(folder), &[], String::new(), said)
    };
    let unknown =
        |words: &[&str], word: &str| bad(words, "bad word ", word, &format!(" ({usage})"));
    let second =
        |words: &[&str], word: &str| bad(words, "second file ", word, &format!(" ({usage})"));
    let missing = |words: &[&str], word: &str| bad(words, "", word, ": No such file or directory");
    let helped = format!("{usage}\n{help}");
    let version = format!("{name} (Bahmorist) 0.8.0\n");
    vec![
        good(&["--help"], &helped),
        good(&["-h", "--version"], &helped),
        good(&["missing", "--help"], &helped),
        good(&["--version", "-x"], &version),
        good(&["--explain", "--version"], &version),
        good(&["-"], &empty),
        good(&["--", "-"], &empty),
        unknown(&["-x"], "-x"),
        unknown(&["--explains"], "--explains"),
        unknown(&["--helper", "--help"], "--helper"),
        unknown(&["table", "-a\nb\\c\r"], "-a\nb\\c\r"),
        second(&["table", "salted"], "salted"),
        second(&["-", "-", "--help"], "-"),
        second(&["--", "table", "--help"], "--help"),
        second(&["table", "a\nb\\c\r"], "a\nb\\c\r"),
        missing(&["missing"], "missing"),
        missing(&[""], ""),
        missing(&["--", "-h"], "-h"),
        missing(&["a\nb\\c\r"], "a\nb\\c\r"),
        bad(&["table/file"], "", "table/file", ": Not a directory"),
        bad(&["."], "", ".", ": Is a directory"),
        bad(&["--explain", "."], "", ".", ": Is a directory"),
    ]
}

/// The lister on files.
fn listings(folder: &Path) -> Vec<Job> {
    let good = |words: &[&str]| {
        let output = list(RECORDS);
        job(
            "list_table",
            words,
            Some(folder),
            &[],
            output,
            String::new(),
        )
    };
    vec![
        good(&["table"]),
        good(&["--explain", "table"]),
        good(&["table", "--explain"]),
        good(&["table", "--"]),
        good(&["--", "--explain"]),
        good(&["./--explain"]),
    ]
}

/// The writer on files, and on lines that are bad.
fn writings(folder: &Path) -> Vec<Job> {
    let written = |words: &[&str], input: &[u8], output: &[u8]| Job {
        output: output.to_vec(),
        ..job(
            WRITE.name,
            words,
            Some(folder),
            input,
            String::new(),
            String::new(),
        )
    };
    let lines = list(RECORDS);
    let bad = &b"bad line 2\n"[..];
    vec![
        written(&["lines"], &[], RECORDS),
        written(&["lines", "--"], &[], RECORDS),
        written(&["--", "--help"], &[], RECORDS),
        written(&["./--help"], &[], RECORDS),
        written(&[], lines.as_bytes(), RECORDS),
        written(&["-"], lines.as_bytes(), RECORDS),
        written(&["bad"], lines.as_bytes(), bad),
        written(&["-"], b"0 02 003c\n\n", bad),
        written(&["table"], &[], &write_table_output(RECORDS)),
    ]
}

/// The other program on files, and on salts.
fn fingerprints(folder: &Path) -> Vec<Job> {
    let Program { name, usage, .. } = FINGERPRINT;
    let under = |salt: &[u8], words: &[&str]| {
        let output = fingerprint_output(&[salt, RECORDS].concat());
        job(name, words, Some(folder), RECORDS, output, String::new())
    };
    let bad = |words: &[&str], salt: &str| {
        let said = named(&format!("{name}: bad salt "), salt, &format!(" ({usage})"));
        job(name, words, Some(folder), &[], String::new(), said)
    };
    let none = |words: &[&str]| {
        let said = format!("{name}: no value behind -s ({usage})\n");
        job(name, words, Some(folder), &[], String::new(), said)
    };
    let joined = format!("-s{SALT_WORD}");
    let zeros = "0".repeat(32);
    let [short, long] = [&SALT_WORD[1..], &format!("{SALT_WORD}0")];
    let strange = format!("{}g", &SALT_WORD[1..]);
    vec![
        under(&SALT, &["salted"]),
        under(&SALT, &["-s", SALT_WORD]),
        under(&SALT, &["-s", SALT_WORD, "-"]),
        under(&SALT, &["-s", SALT_WORD, "table"]),
        under(&SALT, &[&joined, "--explain", "table"]),
        under(&SALT, &["table", &joined]),
        under(&SALT, &[&joined, "--", "--explain"]),
        under(&[0; 16], &["-s", &zeros, "table"]),
        under(&SALT, &["-s", &zeros, "-s", SALT_WORD, "table"]),
        bad(&["-s", short, "table"], short),
        bad(&["-s", long], long),
        bad(&["-s", &strange], &strange),
        bad(&["-s", "", "--help"], ""),
        bad(&["-s", "--help"], "--help"),
        bad(&["-s00", "table"], "00"),
        bad(&["-s", "-s"], "-s"),
        none(&["-s"]),
        none(&["table", "-s"]),
    ]
}

/// Refusals in words: of a table by both programs, and of an input that ought to
/// hold a salt and a table.
fn explanations(table: &[u8], input: &[u8], salt: &[u8; 16]) -> Vec<Job> {
    let places = "places count from 0, the table's first byte";
    let [listed, printed] = [places.into(), format!("{places}, and not from the salt")];
    let said = explained(FINGERPRINT.name, table, &printed);
    let word = hex::encode(salt);
    let salted_said = match input.len() {
        16.. => explained(FINGERPRINT.name, &input[16..], &printed),
        short => format!(
            "{}: the salt is {short} bytes and not 16\n",
            FINGERPRINT.name
        ),
    };
    vec![
        job(
            LIST.name,
            &["--explain"],
            None,
            table,
            list(table),
            explained(LIST.name, table, &listed),
        ),
        job(
            FINGERPRINT.name,
            &["--explain", "-s", &word, "-"],
            None,
            table,
            fingerprint_output(&[salt, table].concat()),
            said,
        ),
        job(
            FINGERPRINT.name,
            &["--explain"],
            None,
            input,
            fingerprint_output(input),
            salted_said,
        ),
    ]
}

/// What is said of a table; nothing where it is not refused.
fn explained(name: &str, table: &[u8], places: &str) -> String {
    let Err((number, place)) = read(table) else {
        return String::new();
    };
    if number == TABLE {
        return format!("{name}: the table is over 4096 bytes\n");
    }
    let rest = &table[place as usize..];
    let kind = rest[0];
    match number {
        KIND => format!(
            "{name}: the kind byte at place {place} is {kind:02x}, which no record has; {places}\n"
        ),
        CUT_SHORT => {
            let length = body_length(kind).expect("a kind of a record");
            let there = rest.len() - 1;
            format!("{name}: the record at place {place}, of kind {kind:02x}, is cut short: its body has {length} bytes, and the table ends after {there} of them; {places}\n")
        }
        other => unreachable!("refusal {other}"),
    }
}
