//! Links the proved library for the target that is built for: the archive in the
//! folder that `BAHMORIST_LIB_DIR` names, whatever the target is; or, without that, the
//! one that `tools/library` makes for x86-64 Linux, or for Linux on Arm.

use std::env;
use std::path::{Path, PathBuf};

/// The variable that names the archive's folder.
const NAMED: &str = "BAHMORIST_LIB_DIR";

fn main() {
    println!("cargo::rerun-if-env-changed={NAMED}");
    let package = variable("CARGO_MANIFEST_DIR");
    let folder = match env::var_os(NAMED).map(PathBuf::from) {
        // Cargo builds each package in a folder of its own, where another path would lead
        // elsewhere than its writer meant.
        Some(folder) if folder.is_relative() => {
            return println!(
                "cargo::error={NAMED} is no whole path: {}",
                folder.display()
            )
        }
        Some(folder) => folder,
        None => match folder() {
            Ok(folder) => Path::new(&package).join("../..").join(folder),
            Err(wrong) => return println!("cargo::error={wrong}; or name a folder by {NAMED}"),
        },
    };
    let archive = folder.join("libbahmorist.a");
    println!("cargo::rerun-if-changed={}", archive.display());
    if !archive.exists() {
        let archive = archive.display();
        return println!(
            "cargo::error={archive} is missing: run tools/library first, or name its folder by {NAMED}"
        );
    }
    println!("cargo::rustc-link-search=native={}", folder.display());
    println!("cargo::rustc-link-lib=static=bahmorist");
}

/// The folder of the archive for the target, or why there is none.
fn folder() -> Result<PathBuf, String> {
    let (system, processor) = (
        variable("CARGO_CFG_TARGET_OS"),
        variable("CARGO_CFG_TARGET_ARCH"),
    );
    if system != "linux" {
        return Err(format!("the library is for Linux, and not for {system}"));
    }
    match processor.as_str() {
        "x86_64" => Ok("target/native".into()),
        "aarch64" => Ok("target/aarch64".into()),
        other => Err(format!("no library is made for {other}")),
    }
}

fn variable(name: &str) -> String {
    env::var(name).unwrap_or_else(|_| panic!("cargo sets {name}"))
}
