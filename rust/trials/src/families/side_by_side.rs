//! Many runs of `echosum` at once, whose lines all go to one file: each line has to
//! come out whole, with the digest of the name that stands in it. Every other run is
//! single-pipe.

use super::echosum_words::{line, named, NAME};
use crate::family::{Family, Run};
use crate::folder::Folder;
use crate::program::RUN;
use plain::mode::{Mode, MODES};
use std::fs::{self, File};
use std::process::{Child, Command, Stdio};

pub const FAMILY: Family = Family {
    name: "lines of runs side by side",
    run,
};

/// How many runs go on at a time, how often, and the files that each is given:
/// enough that the runs last longer than starting them takes.
const RUNS: usize = 8;
const ROUNDS: usize = 3;
const FILES: usize = 240;

fn run(run: &mut Run) -> Result<(), String> {
    let mut folder = Folder::new("side_by_side")?;
    for number in 0..FILES {
        folder = folder.with(&name(number), &content(number))?;
    }
    let expected = expected();
    for _ in 0..ROUNDS {
        let text = round(&folder).map_err(|error| error.to_string())?;
        run.count(same(&text, &expected)?);
    }
    Ok(())
}

/// What came of one round.
fn round(folder: &Folder) -> std::io::Result<String> {
    let together = folder.0.join("together");
    let to = File::options().create(true).append(true).open(&together)?;
    let children: Vec<Child> = (0..RUNS)
        .map(|number| start(folder, number, &to))
        .collect::<Result<_, _>>()?;
    for mut child in children {
        child.wait()?;
    }
    let text = fs::read_to_string(&together)?;
    fs::remove_file(&together)?;
    Ok(text)
}

/// A run over all files, from one of its own on, and over one that is missing.
fn start(folder: &Folder, number: usize, to: &File) -> std::io::Result<Child> {
    let first = number * FILES / RUNS;
    let flag = match mode(number) {
        Mode::DoublePipe => None,
        Mode::SinglePipe => Some("-1"),
    };
    Command::new(RUN)
        .arg(NAME)
        .args(flag)
        .arg(missing(number))
        .args((first..first + FILES).map(|file| name(file % FILES)))
        .current_dir(&folder.0)
        .stdin(Stdio::null())
        .stdout(to.try_clone()?)
        .stderr(to.try_clone()?)
        .spawn()
}

/// The mode of a run.
fn mode(number: usize) -> Mode {
    MODES[number % MODES.len()]
}

fn name(number: usize) -> String {
    match number % 3 {
        0 => format!("file {number}"),
        1 => format!("line\nend {number}"),
        _ => format!("{}{number}", "long ".repeat(40)),
    }
}

fn missing(number: usize) -> String {
    format!("missing\\{number}")
}

fn content(number: usize) -> Vec<u8> {
    number.to_le_bytes().repeat(500)
}

/// All lines of a round, in order.
fn expected() -> Vec<String> {
    let each = MODES.map(|mode| {
        let lines =
            (0..FILES).map(|number| line(mode, 256, &[0; 16], &content(number), &name(number)));
        lines.collect::<Vec<String>>()
    });
    let complaints =
        (0..RUNS).map(|number| named("echosum: ", &missing(number), ": No such file or directory"));
    let mut lines: Vec<String> = (0..RUNS)
        .flat_map(|number| each[usize::from(mode(number).number())].clone())
        .chain(complaints)
        .collect();
    lines.sort();
    lines
}

/// Whether a text is these lines in some order: how many, or one that is wrong.
fn same(text: &str, expected: &[String]) -> Result<usize, String> {
    let mut lines: Vec<&str> = text.split_inclusive('\n').collect();
    lines.sort();
    let wrong = |line: &&&str| {
        expected
            .binary_search_by(|right| right.as_str().cmp(line))
            .is_err()
    };
    match lines.iter().find(wrong) {
        Some(line) => Err(format!("a line that is wrong: {line:?}")),
        None if lines == expected => Ok(lines.len()),
        None => Err(format!(
            "{} lines, where {} are right",
            lines.len(),
            expected.len()
        )),
    }
}

#[cfg(test)]
mod tests {
    use super::*;

    #[test]
    fn a_line_in_pieces_is_seen() {
        let lines = ["a  x\n".to_string(), "b  y\n".to_string()];
        assert_eq!(same("b  y\na  x\n", &lines), Ok(2));
        assert!(same("b  x\na  y\n", &lines).is_err());
        assert!(same("a  x\n", &lines).is_err());
        assert!(same("a  x\nb  y\nb  y\n", &lines).is_err());
    }
}
