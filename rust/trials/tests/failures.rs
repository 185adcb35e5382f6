//! What `tools/run` counts as a failure, by programs that are scripts. No processor
//! but the one that the programs are made for runs those as they are. This is a file
//! of its own, so that no other test starts a process while a script is written.

#![cfg(target_arch = "x86_64")]

use std::fs;
use std::os::unix::fs::PermissionsExt;
use std::process::Command;
use trials::folder::Folder;
use trials::program::RUN;

#[test]
fn what_counts_as_a_failure() {
    let folder = Folder::new("failures").unwrap();
    let run = folder.0.join("run");
    let program = folder.0.join("programs/program");
    fs::copy(RUN, &run).unwrap();
    fs::create_dir(folder.0.join("programs")).unwrap();
    for (does, status) in [
        ("echo fine", 0),
        ("echo fine; echo refused 9 at 0; echo bad line 2", 0),
        ("echo refusedly", 0),
        ("echo refused 9 at 0", 1),
        ("echo bad line 3", 1),
        ("printf 'bad line 3'", 1),
        ("echo fine; echo oh >&2", 1),
        ("printf x >&2", 1),
        ("exit 3", 3),
        ("echo oh >&2; kill -TERM $$", 128 + 15),
    ] {
        fs::write(&program, format!("#!/bin/sh\n{does}\n")).unwrap();
        fs::set_permissions(&program, fs::Permissions::from_mode(0o755)).unwrap();
        let ran = Command::new(&run).arg("program").output().unwrap();
        assert_eq!(ran.status.code(), Some(status), "{does}");
    }
}
