//! The version that the archive tells of itself is that of the header.

use crate::family::{Family, Run};

pub const FAMILY: Family = Family {
    name: "the archive's version, against the header's",
    run,
};

const HEADER: &str = include_str!("../../../../include/bahmorist.h");

fn run(run: &mut Run) -> Result<(), String> {
    let told = bahmorist::version();
    run.count(1);
    match HEADER.contains(&format!("#define BAHMORIST_VERSION_NUMBER {told} ")) {
        true => Ok(()),
        false => Err(format!("version {told}, which is not the header's")),
    }
}
