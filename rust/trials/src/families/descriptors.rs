//! Inputs that can't be read, or only in part, and outputs that can't be written:
//! nothing is printed as if all were well, and the failure is said once.

use crate::family::{Family, Run};
use crate::folder::Folder;
use crate::program::{PROGRAMS, RUN};
use std::io::Write;
use std::os::fd::OwnedFd;
use std::os::unix::net::UnixStream;
use std::process::{Command, Stdio};

pub const FAMILY: Family = Family {
    name: "descriptors that are closed, directories, full, or fail midway",
    run,
};

/// What a shell is told to do with a program, where the input breaks off behind
/// these bytes if there are any, and what has to be said.
struct Broken {
    command: &'static str,
    before: Option<&'static [u8]>,
    said: &'static str,
}

const fn case(command: &'static str, said: &'static str) -> Broken {
    Broken {
        command,
        before: None,
        said,
    }
}

const fn midway(command: &'static str, before: &'static [u8], said: &'static str) -> Broken {
    Broken {
        command,
        before: Some(before),
        said,
    }
}

/// A whole record, and a salt with one behind it.
const RECORD: &[u8] = &[2, 0, 0x3c];
const SALTED: &[u8] = b"0123456789abcdef\x02\x00\x3c";

/// The lines of the record.
const LINES: &[u8] = b"0 02 003c\nrecords 1\n";

/// A list whose line is properly formatted, and does not match.
const LIST: &[u8] = b"00000000000000000000000000000000  table\n";

const CASES: [Broken; 34] = [
    case(
        "list_table <.",
        "list_table: standard input: Is a directory\n",
    ),
    case(
        "list_table <&-",
        "list_table: standard input: Bad file descriptor\n",
    ),
    case(
        "list_table <table >/dev/full",
        "list_table: standard output: not written\n",
    ),
    case(
        "list_table <table >&-",
        "list_table: standard output: not written\n",
    ),
    case(
        "list_table --help >/dev/full",
        "list_table: standard output: not written\n",
    ),
    case(
        "fingerprint_table <.",
        "fingerprint_table: standard input: Is a directory\n",
    ),
    case(
        "fingerprint_table <&-",
        "fingerprint_table: standard input: Bad file descriptor\n",
    ),
    case(
        "fingerprint_table <salted >/dev/full",
        "fingerprint_table: standard output: not written\n",
    ),
    case(
        "fingerprint_table <salted >&-",
        "fingerprint_table: standard output: not written\n",
    ),
    case("echosum <.", "echosum: -: Is a directory\n"),
    case("echosum <&-", "echosum: -: Bad file descriptor\n"),
    case(
        "echosum table salted >/dev/full",
        "echosum: standard output: No space left on device\n",
    ),
    case(
        "echosum table salted >&-",
        "echosum: standard output: Bad file descriptor\n",
    ),
    case("echosum -1 <.", "echosum: -: Is a directory\n"),
    case(
        "echosum -1 table salted >/dev/full",
        "echosum: standard output: No space left on device\n",
    ),
    case(
        "echosum --help >/dev/full",
        "echosum: standard output: No space left on device\n",
    ),
    case(
        "echosum --version >&-",
        "echosum: standard output: Bad file descriptor\n",
    ),
    case("echosum -c <.", "echosum: standard input: Is a directory\n"),
    case(
        "echosum -c <&-",
        "echosum: standard input: Bad file descriptor\n",
    ),
    case(
        "echosum -c list list >/dev/full",
        "echosum: standard output: No space left on device\n",
    ),
    case("echosum missing 2>&-", ""),
    case("list_table <. 2>&-", ""),
    midway(
        "list_table",
        RECORD,
        "list_table: standard input: error 104\n",
    ),
    midway(
        "fingerprint_table",
        SALTED,
        "fingerprint_table: standard input: error 104\n",
    ),
    midway("echosum", RECORD, "echosum: -: error 104\n"),
    midway("echosum -1", RECORD, "echosum: -: error 104\n"),
    case(
        "write_table <.",
        "write_table: standard input: Is a directory\n",
    ),
    case(
        "write_table <&-",
        "write_table: standard input: Bad file descriptor\n",
    ),
    case(
        "write_table <lines >/dev/full",
        "write_table: standard output: No space left on device\n",
    ),
    case(
        "write_table <lines >&-",
        "write_table: standard output: Bad file descriptor\n",
    ),
    case(
        "write_table <list >/dev/full",
        "write_table: standard output: No space left on device\n",
    ),
    case(
        "write_table --help >/dev/full",
        "write_table: standard output: No space left on device\n",
    ),
    case("write_table <. 2>&-", ""),
    midway(
        "write_table",
        LINES,
        "write_table: standard input: error 104\n",
    ),
];

/// The same without `tools/run`, where the processor runs the programs itself:
/// then the reason of a failed write is the program's, and there is no status.
const DIRECT: [Broken; 7] = [
    case(
        "list_table <table >/dev/full",
        "list_table: standard output: No space left on device\n",
    ),
    case(
        "list_table <table >&-",
        "list_table: standard output: Bad file descriptor\n",
    ),
    case(
        "fingerprint_table <salted >/dev/full",
        "fingerprint_table: standard output: No space left on device\n",
    ),
    case(
        "fingerprint_table <salted >&-",
        "fingerprint_table: standard output: Bad file descriptor\n",
    ),
    case(
        "write_table <lines >/dev/full",
        "write_table: standard output: No space left on device\n",
    ),
    case(
        "write_table <lines >&-",
        "write_table: standard output: Bad file descriptor\n",
    ),
    case(
        "write_table <list >/dev/full",
        "write_table: standard output: No space left on device\n",
    ),
];

fn run(run: &mut Run) -> Result<(), String> {
    let folder = Folder::new("descriptors")?
        .with("table", RECORD)?
        .with("salted", SALTED)?
        .with("list", LIST)?
        .with("lines", LINES)?;
    for case in CASES {
        check(&case, &folder, [RUN, " "], 1)?;
        run.count(1);
    }
    for case in DIRECT.iter().filter(|_| cfg!(target_arch = "x86_64")) {
        check(case, &folder, [PROGRAMS, "/"], 0)?;
        run.count(1);
    }
    Ok(())
}

/// Each prints nothing, says why, and ends with this status. In front of the
/// program's name stand a path and what is between the two.
fn check(
    case: &Broken,
    folder: &Folder,
    [path, between]: [&str; 2],
    status: i32,
) -> Result<(), String> {
    let input = match case.before {
        Some(bytes) => Stdio::from(broken_off(bytes).map_err(|error| error.to_string())?),
        None => Stdio::null(),
    };
    let ran = Command::new("sh")
        .args(["-c", &format!("\"$0\"{between}{}", case.command), path])
        .current_dir(&folder.0)
        .stdin(input)
        .output()
        .map_err(|error| error.to_string())?;
    let [output, said] = [&ran.stdout, &ran.stderr].map(|text| String::from_utf8_lossy(text));
    if output.is_empty() && said == case.said && ran.status.code() == Some(status) {
        return Ok(());
    }
    let (command, ended) = (case.command, ran.status);
    Err(format!(
        "{command}: {ended}, printed {output:?}, said {said:?}"
    ))
}

/// An input that gives these bytes and then fails: the other end is closed with
/// something in it that was not read, which resets the connection (error 104).
fn broken_off(bytes: &[u8]) -> std::io::Result<OwnedFd> {
    let (mut input, mut other) = UnixStream::pair()?;
    input.write_all(b"never read")?;
    other.write_all(bytes)?;
    Ok(input.into())
}
