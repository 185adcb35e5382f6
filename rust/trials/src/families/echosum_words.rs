//! Command lines of `echosum`: what it prints and what it says on standard error,
//! on good words and bad ones.

use crate::family::{Family, Run};
use crate::folder::Folder;
use crate::program::{at_once, check_all, By, Job};
use plain::mode::Mode::{self, DoublePipe, SinglePipe};
use plain::{digest, hex};
use std::path::Path;

pub const FAMILY: Family = Family {
    name: "command lines of echosum",
    run,
};

pub const NAME: &str = "echosum";

/// What is said behind a word that can't be taken.
const USAGE: &str = "usage: echosum [-1] [-b BITS] [-s SALT] [-c] [FILE...]; see echosum --help";

/// What `--help` prints.
const HELP: &str = "\
usage: echosum [-1] [-b BITS] [-s SALT] [--tag] [-z] [FILE...]
  or:  echosum -c [-1] [-b BITS] [-s SALT] [OPTION...] [FILE...]
Prints the ECHO digest of each FILE, or checks the files that are listed in each FILE.
No FILE, or -, is standard input.

  -1                    single-pipe; double-pipe where not given
  -b BITS               length of the digest, 128 to 512 by eights; 256 where not given
  -s SALT               32 hex digits; zeros where not given
      --tag             print lines that name bits, mode and salt
  -z, --zero            end each line with a zero byte, and escape no name
  -c, --check           read lines of digests from each FILE and check the files that they name
  -h, --help            print this
      --version         print the version
      --verdict-fd=N    write the status to descriptor N, 3 to 9, as tools/run asks
      --                each word behind this is a FILE

With -c only:
      --quiet           don't print OK for a file that matches
      --status          print no results and no warnings: the status tells
      --strict          fail where a line is improperly formatted
      --ignore-missing  pass over files that are missing

With -c, a line with a tag has bits, mode and salt of its own. One without has as many bits as its
digits say, those of -b where that is given, and the mode and the salt of -1 and -s.

Status: 0 where all is well. 1 where a word is bad, a file or list can't be read, or the output
can't be written; with -c, where a file does not match too, or where a list has none that does.
";

const VERSION: &str = "echosum (Bahmorist) 0.8.0\n";

const ZEROS: [u8; 16] = [0; 16];
const SALT: [u8; 16] = *b"\x00\x0a\xa0\xff456789abcdef";
const SALT_WORD: &str = "000aA0fF343536373839616263646566";

/// What comes on standard input.
const INPUT: &[u8] = b"standard input";

/// Names and lengths of the files that are there. One is larger than what the
/// program reads at a time, two have the names of flags, and some have bytes that
/// a line can't hold as they are.
const FILES: [(&str, usize); 9] = [
    ("empty", 0),
    ("short", 3),
    ("block", 192),
    ("large", 200_000),
    ("-b", 1),
    ("-1", 2),
    ("line\nend", 5),
    ("carriage\rreturn", 6),
    ("back\\slash\n", 7),
];

fn run(run: &mut Run) -> Result<(), String> {
    let folder = FILES
        .iter()
        .try_fold(Folder::new("echosum_words")?, |folder, (name, _)| {
            folder.with(name, &content(name))
        })?;
    let jobs = jobs(&folder.0);
    check_all(&jobs)?;
    run.count(jobs.len());
    Ok(())
}

/// The line of a digest.
pub fn line(mode: Mode, bits: u64, salt: &[u8], message: &[u8], name: &str) -> String {
    let salt = salt.try_into().expect("sixteen bytes");
    let digest = digest::digest(mode, bits, &salt, message);
    named(&format!("{}  ", hex::encode(&digest)), name, "")
}

/// The line of a digest that names bits, mode and salt.
fn tagged(mode: Mode, bits: u64, salt: &[u8], message: &[u8], name: &str) -> String {
    let salt = salt.try_into().expect("sixteen bytes");
    let word = match mode {
        DoublePipe => "double",
        SinglePipe => "single",
    };
    let digest = hex::encode(&digest::digest(mode, bits, &salt, message));
    let salt = hex::encode(&salt);
    let before = format!("ECHO-{bits:03}-{word}-{salt} (");
    named(&before, name, &format!(") = {digest}"))
}

/// What a line of a list is made by.
type Line = fn(Mode, u64, &[u8], &[u8], &str) -> String;

/// What is printed of a file in a list.
fn result(name: &str, what: &str) -> String {
    match name.contains('\n') {
        true => named("", name, &format!(": {what}")),
        false => format!("{name}: {what}\n"),
    }
}

/// Another digit.
fn other(digit: &str) -> &str {
    match digit {
        "0" => "1",
        _ => "0",
    }
}

/// A line with a name in it, escaped as `sha256sum` does.
pub fn named(before: &str, name: &str, after: &str) -> String {
    let mark = match name.contains(['\\', '\n', '\r']) {
        true => "\\",
        false => "",
    };
    let escaped = name
        .replace('\\', "\\\\")
        .replace('\n', "\\n")
        .replace('\r', "\\r");
    format!("{mark}{before}{escaped}{after}\n")
}

fn jobs(folder: &Path) -> Vec<Job> {
    let job = |words: &[&str], output: String, said: &str| Job {
        name: NAME,
        words: words.iter().map(|&word| word.into()).collect(),
        folder: Some(folder.into()),
        pieces: at_once(INPUT.into()),
        output: output.into(),
        said: said.into(),
        by: By::Run,
    };
    let good_in = |mode, words: &[&str], bits, salt: [u8; 16], names: &[&str]| {
        let lines = names
            .iter()
            .map(|name| line(mode, bits, &salt, &content(name), name));
        job(words, lines.collect(), "")
    };
    let good =
        |words: &[&str], bits, salt, names: &[&str]| good_in(DoublePipe, words, bits, salt, names);
    let single =
        |words: &[&str], bits, salt, names: &[&str]| good_in(SinglePipe, words, bits, salt, names);
    let bad_word = |words: &[&str], bad: &str| {
        let said = named("echosum: bad word ", bad, &format!(" ({USAGE})"));
        job(words, String::new(), &said)
    };
    let no_value = |words: &[&str], flag: &str| {
        let said = format!("echosum: no value behind {flag} ({USAGE})\n");
        job(words, String::new(), &said)
    };
    let help = |words: &[&str]| job(words, HELP.into(), "");
    let without = |words: &[&str], what: &str| {
        let said = format!("echosum: the {what} when verifying checksums\n");
        job(words, String::new(), &said)
    };
    let tags = |mode, words: &[&str], bits, salt: [u8; 16], names: &[&str]| {
        let lines = names
            .iter()
            .map(|name| tagged(mode, bits, &salt, &content(name), name));
        job(words, lines.collect(), "")
    };
    // Lists come on standard input.
    let checks = |words: &[&str], list: String, output: String, said: &str| Job {
        pieces: at_once(list.into()),
        ..job(words, output, said)
    };
    let right = |mode, words: &[&str], bits, salt: [u8; 16], of: Line| {
        let names = FILES.map(|(name, _)| name);
        let list = names.map(|name| of(mode, bits, &salt, &content(name), name));
        let output = names.map(|name| result(name, "OK"));
        checks(words, list.concat(), output.concat(), "")
    };
    let wrong = |list: String, name: &str| {
        let said = "echosum: WARNING: 1 computed checksum did NOT match\n";
        checks(&["-c"], list, result(name, "FAILED"), said)
    };
    let improper = |list: String| {
        let said = "echosum: standard input: no properly formatted checksum lines found\n";
        checks(&["-c"], list, String::new(), said)
    };
    let short = line(DoublePipe, 256, &ZEROS, &content("short"), "short");
    let short_tagged = tagged(SinglePipe, 512, &SALT, &content("short"), "short");
    let attached = |flag: &str, value: &str| format!("{flag}{value}");
    let salt_attached = attached("-s", SALT_WORD);
    let zero_lines = |lines: &[(&str, &str)]| -> String {
        let lines = lines
            .iter()
            .map(|(before, after)| format!("{before}{after}\0"));
        lines.collect()
    };
    let hex_of = |name: &str| hex::encode(&digest::digest(DoublePipe, 256, &ZEROS, &content(name)));
    let bad_bits = |bits: &str| {
        let said = format!("echosum: bad bits {bits}\n");
        job(&["-b", bits, "short"], String::new(), &said)
    };
    let long_salt = format!("{SALT_WORD}0");
    let odd_salt = SALT_WORD.replace('F', "g");
    // As long as a name can be, and every byte escaped: the longest line.
    let long_name = "\\".repeat(4_095);
    let missing = "echosum: missing: No such file or directory\n";
    vec![
        good(&[], 256, ZEROS, &["-"]),
        good(&["-"], 256, ZEROS, &["-"]),
        good(
            &["empty", "short", "block", "large"],
            256,
            ZEROS,
            &["empty", "short", "block", "large"],
        ),
        good(&["-b", "512", "short", "-"], 512, ZEROS, &["short", "-"]),
        good(&["-b", "0264", "short"], 264, ZEROS, &["short"]),
        good(&["-s", SALT_WORD, "block"], 256, SALT, &["block"]),
        good(&["-s", SALT_WORD, "-b", "128"], 128, SALT, &["-"]),
        good(
            &["short", "-b", "224", "empty"],
            224,
            ZEROS,
            &["short", "empty"],
        ),
        good(&["-b", "512", "-b", "384", "short"], 384, ZEROS, &["short"]),
        good(&["--", "-b", "short"], 256, ZEROS, &["-b", "short"]),
        good(&["-b", "512", "--", "-b"], 512, ZEROS, &["-b"]),
        single(&["-1"], 256, ZEROS, &["-"]),
        single(&["-1", "-"], 256, ZEROS, &["-"]),
        single(
            &["-1", "empty", "short", "block", "large"],
            256,
            ZEROS,
            &["empty", "short", "block", "large"],
        ),
        single(
            &["-1", "-b", "512", "-s", SALT_WORD, "large", "-"],
            512,
            SALT,
            &["large", "-"],
        ),
        // Before, between and behind the other words, and twice.
        single(&["-b", "264", "-1", "block"], 264, ZEROS, &["block"]),
        single(
            &["-s", SALT_WORD, "short", "-1", "block"],
            256,
            SALT,
            &["short", "block"],
        ),
        single(&["short", "-b", "128", "-1"], 128, ZEROS, &["short"]),
        single(&["-1", "-1", "short"], 256, ZEROS, &["short"]),
        single(&["-1", "short", "-1"], 256, ZEROS, &["short"]),
        single(&["-1", "--", "-b"], 256, ZEROS, &["-b"]),
        // Behind `--` it is a file.
        good(&["--", "-1", "short"], 256, ZEROS, &["-1", "short"]),
        single(&["-1", "--", "-1"], 256, ZEROS, &["-1"]),
        job(
            &["-1", "missing", "short"],
            line(SinglePipe, 256, &ZEROS, &content("short"), "short"),
            missing,
        ),
        job(
            &["empty", "missing", "short"],
            line(DoublePipe, 256, &ZEROS, b"", "empty")
                + &line(DoublePipe, 256, &ZEROS, &content("short"), "short"),
            missing,
        ),
        good(
            &["line\nend", "carriage\rreturn", "back\\slash\n"],
            256,
            ZEROS,
            &["line\nend", "carriage\rreturn", "back\\slash\n"],
        ),
        job(
            &["no\nfile\\"],
            String::new(),
            &named("echosum: ", "no\nfile\\", ": No such file or directory"),
        ),
        job(&["."], String::new(), "echosum: .: Is a directory\n"),
        job(
            &["short/x"],
            String::new(),
            "echosum: short/x: Not a directory\n",
        ),
        job(
            &[&long_name],
            String::new(),
            &named("echosum: ", &long_name, ": File name too long"),
        ),
        job(
            &[""],
            String::new(),
            "echosum: : No such file or directory\n",
        ),
        bad_bits("130"),
        bad_bits("0"),
        bad_bits("120"),
        bad_bits("520"),
        bad_bits("1000000"),
        no_value(&["-b"], "-b"),
        no_value(&["-s"], "-s"),
        no_value(&["short", "-b"], "-b"),
        no_value(&["-1", "-s"], "-s"),
        // What stands behind a flag that takes a value is its value.
        bad_word(&["-b", "-1", "short"], "-1"),
        bad_word(&["-s", "-1", "short"], "-1"),
        bad_word(&["-1256", "short"], "-1256"),
        bad_word(&["-1b", "256", "short"], "-1b"),
        bad_word(&["-1", "-2", "short"], "-2"),
        bad_word(&["--1", "short"], "--1"),
        bad_word(&["-b", "abc", "short"], "abc"),
        bad_word(&["-b", "25a", "short"], "25a"),
        bad_word(&["-b", "", "short"], ""),
        bad_word(&["-b", "-256", "short"], "-256"),
        // A value may stand behind its flag in the same word.
        good(&["-b256", "short"], 256, ZEROS, &["short"]),
        good(&["-b0512", "short", "-"], 512, ZEROS, &["short", "-"]),
        good(&[&salt_attached, "block"], 256, SALT, &["block"]),
        single(&[&salt_attached, "-1", "-b128"], 128, SALT, &["-"]),
        bad_word(&["-babc", "short"], "-babc"),
        bad_word(&["-b-256", "short"], "-b-256"),
        bad_word(&["-s00", "short"], "-s00"),
        bad_word(&["-c1", "short"], "-c1"),
        bad_word(&["-zc", "short"], "-zc"),
        bad_word(&["-s", "00", "short"], "00"),
        bad_word(&["-s", &long_salt, "short"], &long_salt),
        bad_word(&["-s", &odd_salt, "short"], &odd_salt),
        bad_word(&["-x", "short"], "-x"),
        bad_word(&["short", "-y", "-x"], "-y"),
        bad_word(&["-\n"], "-\n"),
        bad_word(&["--chek", "short"], "--chek"),
        bad_word(&["--tagged", "short"], "--tagged"),
        bad_word(&["--verdict-fd=2", "short"], "--verdict-fd=2"),
        bad_word(&["--verdict-fd=10", "short"], "--verdict-fd=10"),
        bad_word(&["--verdict-fd=", "short"], "--verdict-fd="),
        bad_word(&["--verdict-fd=x", "short"], "--verdict-fd=x"),
        bad_word(&["--verdict-fd", "3", "short"], "--verdict-fd"),
        // The first of these words counts, which is that of tools/run.
        good(&["--verdict-fd=3", "short"], 256, ZEROS, &["short"]),
        without(&["--quiet", "short"], "--quiet option is meaningful only"),
        without(&["--status", "short"], "--status option is meaningful only"),
        without(&["--strict", "short"], "--strict option is meaningful only"),
        without(
            &["--ignore-missing", "short"],
            "--ignore-missing option is meaningful only",
        ),
        without(&["-c", "--tag", "short"], "--tag option is meaningless"),
        without(
            &["-z", "short", "--check"],
            "--zero option is not supported",
        ),
        without(&["--zero", "-c", "--tag"], "--zero option is not supported"),
        tags(DoublePipe, &["--tag"], 256, ZEROS, &["-"]),
        tags(
            SinglePipe,
            &["--tag", "-1", "-b", "128", "short", &salt_attached, "large"],
            128,
            SALT,
            &["short", "large"],
        ),
        tags(
            DoublePipe,
            &[
                "line\nend",
                "--tag",
                "-b512",
                "carriage\rreturn",
                "back\\slash\n",
            ],
            512,
            ZEROS,
            &["line\nend", "carriage\rreturn", "back\\slash\n"],
        ),
        job(
            &["-z", "back\\slash\n", "short"],
            zero_lines(&[
                (&hex_of("back\\slash\n"), "  back\\slash\n"),
                (&hex_of("short"), "  short"),
            ]),
            "",
        ),
        job(
            &["--zero", "--tag", "line\nend"],
            zero_lines(&[(
                "ECHO-256-double-00000000000000000000000000000000 (line\nend) = ",
                &hex_of("line\nend"),
            )]),
            "",
        ),
        right(DoublePipe, &["-c"], 256, ZEROS, line),
        right(SinglePipe, &["-c", "-1", &salt_attached], 512, SALT, line),
        right(DoublePipe, &["--check", "-b128"], 128, ZEROS, line),
        right(DoublePipe, &["-c", "-1", "-b128"], 256, SALT, tagged),
        right(SinglePipe, &["-c"], 384, ZEROS, tagged),
        // The first digit and the last one are another.
        wrong(format!("{}{}", other(&short[..1]), &short[1..]), "short"),
        wrong(
            format!("{}{}{}", &short[..63], other(&short[63..64]), &short[64..]),
            "short",
        ),
        // Another mode, and other digits than the bits ask for.
        wrong(short_tagged.replace("single", "double"), "short"),
        improper(short_tagged[..short_tagged.len() - 65].to_string() + "\n"),
        improper(short_tagged.replace("512", "256")),
        improper(short[1..].into()),
        improper(format!("\\{}", short.replace('o', "\\o"))),
        job(&["--version"], VERSION.into(), ""),
        job(&["short", "--version", "-x"], VERSION.into(), ""),
        help(&["-h"]),
        help(&["-c", "-h", "-x"]),
        help(&["--help"]),
        help(&["short", "--help", "-x"]),
        help(&["-1", "--help"]),
    ]
}

/// The bytes of a file by its name, or of standard input.
fn content(name: &str) -> Vec<u8> {
    match FILES.iter().find(|file| file.0 == name) {
        Some(&(_, length)) => (0..length).map(|i| (i * 7 + i / 256) as u8).collect(),
        None => INPUT.into(),
    }
}

#[cfg(test)]
mod tests {
    use super::*;

    #[test]
    fn the_line_of_a_published_digest() {
        let published = "4496cd09d425999aefa75189ee7fd3c97362aa9e4ca898328002d20a4b519788";
        assert_eq!(
            line(DoublePipe, 256, &ZEROS, b"", "empty"),
            format!("{published}  empty\n")
        );
    }

    #[test]
    fn the_salt_word_is_the_salt() {
        assert_eq!(hex::decode(&SALT_WORD.to_lowercase()), SALT);
    }
}
