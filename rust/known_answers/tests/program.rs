//! The program itself: its status, and that a closed pipe is no panic.

use std::process::{Command, Output, Stdio};

const PROGRAM: &str = env!("CARGO_BIN_EXE_known_answers");
const KEPT: &str = concat!(env!("CARGO_MANIFEST_DIR"), "/ECHO.txt");

fn ran(redirected: &str) -> Output {
    let mut command = Command::new("sh");
    let command = command.args(["-c", &format!("\"$0\" {redirected}"), PROGRAM, KEPT]);
    command.stdin(Stdio::null()).output().expect("a shell")
}

#[test]
fn files_that_agree_end_with_0() {
    let ran = ran("\"$1\" \"$1\"");
    assert!(ran.status.success());
    assert_eq!(String::from_utf8_lossy(&ran.stdout).lines().count(), 2);
}

#[test]
fn what_is_wrong_ends_with_another_status() {
    for (words, status) in [
        ("", 2),
        ("--help", 2),
        ("\"$1\" missing", 1),
        ("/dev/null", 1),
        ("\"$1\" >/dev/full", 1),
    ] {
        let ran = ran(words);
        let said = String::from_utf8_lossy(&ran.stderr);
        assert_eq!(ran.status.code(), Some(status), "{words}: {said}");
        assert!(!said.contains("panicked"), "{words}: {said}");
    }
}

#[test]
fn a_closed_pipe_is_no_panic() {
    let ran = ran("\"$1\" \"$1\" \"$1\" | true");
    let said = String::from_utf8_lossy(&ran.stderr);
    assert_eq!(said, "");
}
