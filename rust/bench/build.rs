//! Links an earlier build of the library beside the present one, where the variable
//! BEFORE names its archive: a copy in which the functions that are timed begin with
//! `before_`, and which shows no other name, since those are taken.

use std::env;
use std::process::Command;

/// What is timed, as the archive calls it behind `bahmorist_`.
const TIMED: [&str; 2] = ["digest", "rounds_back"];

fn main() {
    println!("cargo::rustc-check-cfg=cfg(before)");
    println!("cargo::rerun-if-env-changed=BEFORE");
    let archive = env::var("BEFORE").unwrap_or_default();
    if archive.is_empty() {
        return;
    }
    println!("cargo::rerun-if-changed={archive}");
    let folder = env::var("OUT_DIR").expect("cargo sets OUT_DIR");
    let mut objcopy = Command::new("objcopy");
    for name in TIMED {
        objcopy.arg(format!("--redefine-sym=bahmorist_{name}=before_{name}"));
        // Some take the name before the change for what is kept, and some that
        // behind it.
        objcopy.arg(format!("--keep-global-symbol=bahmorist_{name}"));
        objcopy.arg(format!("--keep-global-symbol=before_{name}"));
    }
    objcopy.args([&archive, &format!("{folder}/libbefore.a")]);
    match objcopy.status() {
        Ok(status) if status.success() => {}
        Ok(status) => return println!("cargo::error=objcopy of {archive}: {status}"),
        Err(error) => return println!("cargo::error=objcopy: {error}"),
    }
    println!("cargo::rustc-link-search=native={folder}");
    println!("cargo::rustc-link-lib=static=before");
    println!("cargo::rustc-cfg=before");
}
