//! `tools/run` itself: how it is called, and that it holds nothing back.

use std::fs;
use std::io::{BufRead, BufReader, Write};
use std::os::unix::fs::symlink;
use std::process::{Command, Output, Stdio};
use trials::folder::Folder;
use trials::program::RUN;

fn ran(words: &[&str]) -> Output {
    let ran = Command::new(RUN).args(words).stdin(Stdio::null()).output();
    ran.expect("tools/run")
}

fn text(bytes: &[u8]) -> String {
    String::from_utf8_lossy(bytes).into()
}

#[test]
fn without_a_name_it_lists_the_programs() {
    let ran = ran(&[]);
    let output = text(&ran.stdout);
    assert!(ran.status.success());
    for name in ["echosum", "list_table", "fingerprint_table", "write_table"] {
        assert!(output.lines().any(|line| line == name), "{output}");
    }
}

#[test]
fn a_name_is_no_path() {
    for (name, said) in [
        ("../bin/echosum", "tools/run: bad name ../bin/echosum\n"),
        ("", "tools/run: bad name \n"),
        ("..", "tools/run: no program ..: run 'make' first\n"),
    ] {
        let ran = ran(&[name]);
        assert_eq!(ran.status.code(), Some(2));
        assert_eq!(text(&ran.stderr), said);
    }
}

#[test]
fn it_works_through_links_and_with_cdpath() {
    let folder = Folder::new("tools_run").unwrap();
    let run = fs::canonicalize(RUN).unwrap();
    fs::create_dir(folder.0.join("tools")).unwrap();
    symlink(&run, folder.0.join("first")).unwrap();
    symlink("../first", folder.0.join("tools/second")).unwrap();
    for link in ["./first", "tools/second"] {
        let ran = Command::new("sh")
            .args(["-c", "\"$0\" list_table </dev/null", link])
            .current_dir(&folder.0)
            .env("CDPATH", run.parent().unwrap())
            .output()
            .unwrap();
        assert_eq!(text(&ran.stdout), "records 0\n");
        assert!(ran.status.success());
    }
}

#[test]
fn a_line_comes_before_the_program_ends() {
    let folder = Folder::new("held_back").unwrap();
    let folder = folder.with("file", b"").unwrap();
    let mut child = Command::new(RUN)
        .args(["echosum", "file", "missing", "-"])
        .current_dir(&folder.0)
        .stdin(Stdio::piped())
        .stdout(Stdio::piped())
        .stderr(Stdio::piped())
        .spawn()
        .unwrap();
    let mut line = String::new();
    BufReader::new(child.stdout.take().unwrap())
        .read_line(&mut line)
        .unwrap();
    assert!(line.ends_with("  file\n"), "{line}");
    line.clear();
    BufReader::new(child.stderr.take().unwrap())
        .read_line(&mut line)
        .unwrap();
    assert!(line.starts_with("echosum: missing: "), "{line}");
    // Only now does the program get what it waits for.
    child.stdin.take().unwrap().write_all(b"abc").unwrap();
    child.wait().unwrap();
}
