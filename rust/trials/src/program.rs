//! The programs, run as their users run them: `tools/run NAME` with a pipe for
//! standard input; and some without it, where a family has thousands of runs.

use crate::case::shown;
use plain::table;
use std::io::{ErrorKind, Write};
use std::path::PathBuf;
use std::process::{Child, Command, Output, Stdio};
use std::str;
use std::thread;
use std::time::Duration;

/// The script that runs a program.
pub const RUN: &str = concat!(env!("CARGO_MANIFEST_DIR"), "/../../tools/run");

/// The folder of the programs themselves.
pub const PROGRAMS: &str = concat!(env!("CARGO_MANIFEST_DIR"), "/../../target/bin");

/// How long a pause between two pieces is.
const PAUSE: Duration = Duration::from_millis(2);

/// A program over tables, which takes no words and says nothing on standard
/// error, and what it has to print.
#[derive(Clone, Copy)]
pub struct TableProgram {
    name: &'static str,
    /// The right output for an input.
    output: fn(&[u8]) -> String,
}

/// Lists the records of a table.
pub const LIST: TableProgram = TableProgram {
    name: "list_table",
    output: table::list,
};

/// Prints the fingerprint of the table behind sixteen salt bytes.
pub const FINGERPRINT: TableProgram = TableProgram {
    name: "fingerprint_table",
    output: table::fingerprint_output,
};

/// Bytes that are written at once, and whether a pause comes before them.
pub struct Piece {
    pub bytes: Vec<u8>,
    pub pause: bool,
}

/// The input in one piece.
pub fn at_once(input: Vec<u8>) -> Vec<Piece> {
    vec![Piece {
        bytes: input,
        pause: false,
    }]
}

/// A program's words and its input in pieces, and what is right.
pub struct Job {
    pub name: &'static str,
    pub words: Vec<String>,
    /// Where it is run, if that matters.
    pub folder: Option<PathBuf>,
    pub pieces: Vec<Piece>,
    /// What it has to print, and to say on standard error.
    pub output: Vec<u8>,
    pub said: String,
    pub by: By,
}

/// What a program is run by.
#[derive(Clone, Copy, PartialEq, Eq)]
pub enum By {
    /// `tools/run`, which gives a status.
    Run,
    /// The processor itself, in a tenth of the time and without a status; `tools/run`
    /// where the processor is another than the one that the programs are made for.
    Processor,
}

impl By {
    /// Whether there is a status to look at.
    fn has_status(self) -> bool {
        self == By::Run || cfg!(not(target_arch = "x86_64"))
    }

    /// The command of a program.
    pub fn command(self, name: &str) -> Command {
        if self.has_status() {
            let mut command = Command::new(RUN);
            command.arg(name);
            return command;
        }
        Command::new(format!("{PROGRAMS}/{name}"))
    }
}

impl Job {
    /// A program over tables on an input.
    pub fn of_table(program: TableProgram, pieces: Vec<Piece>) -> Job {
        Job {
            name: program.name,
            words: Vec::new(),
            folder: None,
            output: (program.output)(&joined(&pieces)).into(),
            said: String::new(),
            pieces,
            by: By::Run,
        }
    }

    /// Runs the program; says what is wrong with what it printed and said, and
    /// with its status.
    pub fn check(&self) -> Result<(), String> {
        let wrong = match self.ran().and_then(|ran| self.wrong(&ran)) {
            Ok(()) => return Ok(()),
            Err(wrong) => wrong,
        };
        let words: String = self.words.iter().map(|word| format!(" {word:?}")).collect();
        let (name, pieces) = (self.name, self.pieces.len());
        let input = shown(&joined(&self.pieces));
        Err(format!(
            "{name}{words}, {pieces} pieces, input {input}: {wrong}"
        ))
    }

    /// The right status: 1 where it has to say something on standard error, or
    /// to print a refusal or the number of a bad line.
    fn status(&self) -> i32 {
        let refused = [&b"refused "[..], b"bad line "];
        let refused = refused.iter().any(|front| self.output.starts_with(front));
        let failed = refused || !self.said.is_empty();
        i32::from(failed && self.by.has_status())
    }

    /// What is wrong with what came of a run.
    fn wrong(&self, ran: &Output) -> Result<(), String> {
        let said = String::from_utf8_lossy(&ran.stderr);
        if ran.stdout != self.output {
            return Err(difference_in_bytes(&ran.stdout, &self.output));
        }
        if said != self.said {
            return Err(format!(
                "on standard error {}",
                difference(&said, &self.said)
            ));
        }
        if ran.status.code() != Some(self.status()) {
            return Err(format!("{}, where {} is right", ran.status, self.status()));
        }
        Ok(())
    }

    fn ran(&self) -> Result<Output, String> {
        let mut child = self.start().map_err(|error| error.to_string())?;
        feed(&mut child, &self.pieces)?;
        child.wait_with_output().map_err(|error| error.to_string())
    }

    fn start(&self) -> std::io::Result<Child> {
        let mut command = self.by.command(self.name);
        if let Some(folder) = &self.folder {
            command.current_dir(folder);
        }
        command
            .args(&self.words)
            .stdin(Stdio::piped())
            .stdout(Stdio::piped())
            .stderr(Stdio::piped())
            .spawn()
    }
}

fn joined(pieces: &[Piece]) -> Vec<u8> {
    pieces
        .iter()
        .flat_map(|piece| piece.bytes.clone())
        .collect()
}

/// The first line that is wrong, and what is right there; of bytes that are no text, all
/// of them.
fn difference_in_bytes(printed: &[u8], right: &[u8]) -> String {
    match (str::from_utf8(printed), str::from_utf8(right)) {
        (Ok(printed), Ok(right)) => difference(printed, right),
        _ => format!("{}, where {} is right", shown(printed), shown(right)),
    }
}

/// The first line that is wrong, and what is right there. What stands behind the
/// last line end is a line too, so that two texts that differ have such a line.
fn difference(printed: &str, right: &str) -> String {
    let (mut printed, mut right) = (printed.split('\n'), right.split('\n'));
    let mut line = 0;
    loop {
        line += 1;
        match (printed.next(), right.next()) {
            (Some(printed), Some(right)) if printed == right => {}
            (printed, right) => {
                let [printed, right] = [printed, right].map(|text| match text {
                    Some(text) => format!("{text:?}"),
                    None => "nothing".into(),
                });
                return format!("line {line} is {printed}, where {right} is right");
            }
        }
    }
}

/// Writes the pieces and closes the pipe. A program may stop reading before that:
/// one over tables takes no more than one byte beyond the longest input. Each
/// prints only after it has read, and less than a pipe holds, so neither waits for
/// the other.
fn feed(child: &mut Child, pieces: &[Piece]) -> Result<(), String> {
    let mut pipe = child.stdin.take().expect("a pipe for standard input");
    for piece in pieces {
        if piece.pause {
            thread::sleep(PAUSE);
        }
        match pipe.write_all(&piece.bytes).and_then(|()| pipe.flush()) {
            Ok(()) => {}
            Err(error) if error.kind() == ErrorKind::BrokenPipe => return Ok(()),
            Err(error) => return Err(error.to_string()),
        }
    }
    Ok(())
}

/// How many cases' jobs are made before they are run, to keep memory small.
const BATCH: usize = 100;

/// Makes and runs the jobs of so many cases, and gives their count.
pub fn check_each(cases: usize, mut jobs: impl FnMut() -> Vec<Job>) -> Result<usize, String> {
    let (mut left, mut agreed) = (cases, 0);
    while left > 0 {
        let batch = left.min(BATCH);
        let jobs: Vec<Job> = (0..batch).flat_map(|_| jobs()).collect();
        check_all(&jobs)?;
        agreed += jobs.len();
        left -= batch;
    }
    Ok(agreed)
}

/// Runs all jobs, as many at a time as there are processors. Gives what is wrong
/// with the first that fails.
pub fn check_all(jobs: &[Job]) -> Result<(), String> {
    let workers = thread::available_parallelism().map_or(1, usize::from);
    let share = jobs.len().div_ceil(workers).max(1);
    thread::scope(|scope| {
        let workers: Vec<_> = jobs
            .chunks(share)
            .map(|jobs| scope.spawn(|| jobs.iter().try_for_each(Job::check)))
            .collect();
        workers
            .into_iter()
            .try_for_each(|worker| worker.join().expect("a worker that comes back"))
    })
}

#[cfg(test)]
mod tests {
    use super::*;
    use std::os::unix::process::ExitStatusExt;
    use std::process::ExitStatus;

    /// A job that no program does right.
    fn impossible() -> Job {
        let program = TableProgram {
            name: "no_such_program",
            output: |_| String::new(),
        };
        Job::of_table(program, at_once(vec![1, 2, 3]))
    }

    #[test]
    fn a_program_that_fails_is_seen() {
        let wrong = impossible().check().unwrap_err();
        let case = "no_such_program, 1 pieces, input 010203: on standard error line 1 is ";
        assert!(wrong.starts_with(case), "{wrong}");
        assert!(wrong.contains("run 'make' first"), "{wrong}");
    }

    #[test]
    fn a_status_that_is_wrong_is_seen() {
        let job = Job::of_table(LIST, at_once(vec![1, 2, 3]));
        let ran = |status| Output {
            status: ExitStatus::from_raw(status << 8),
            stdout: job.output.clone(),
            stderr: Vec::new(),
        };
        assert!(job.output.starts_with(b"refused "));
        assert_eq!(job.wrong(&ran(1)), Ok(()));
        assert!(job.wrong(&ran(0)).is_err());
    }

    #[test]
    fn the_first_wrong_line_is_told() {
        let wrong = "line 2 is \"b\", where \"c\" is right";
        assert_eq!(difference("a\nb\n", "a\nc\nd\n"), wrong);
        let missing = "line 2 is nothing, where \"b\" is right";
        assert_eq!(difference("a", "a\nb\n"), missing);
        let no_line_end = "line 2 is nothing, where \"\" is right";
        assert_eq!(difference("a", "a\n"), no_line_end);
        let spare = "line 3 is \"\", where nothing is right";
        assert_eq!(difference("a\n\n", "a\n"), spare);
    }

    #[test]
    fn one_job_that_fails_is_enough() {
        assert_eq!(check_all(&[]), Ok(()));
        let jobs: Vec<Job> = (0..5).map(|_| impossible()).collect();
        assert!(check_all(&jobs).is_err());
        assert!(check_each(1, || vec![impossible()]).is_err());
        assert_eq!(check_each(0, || vec![impossible()]), Ok(0));
    }
}
