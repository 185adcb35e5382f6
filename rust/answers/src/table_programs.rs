//! Files of the programs `list_table`, `fingerprint_table` and `write_table`: the
//! lister's example, its fingerprint, and its lines made the table again.

use crate::file::File;
use plain::table;

/// A node address, the join floor at 2.4 GHz and the one at 5 GHz.
const TABLE: [u8; 13] = [1, 0xa2, 0, 0, 0, 0, 7, 2, 0, 0x3c, 3, 0, 0x41];

/// The inputs of the programs and the outputs they have to give.
pub fn files() -> Vec<File> {
    let salted = salted();
    let listed = table::list(&TABLE);
    vec![
        File {
            path: "crates/list_table/stdin",
            bytes: TABLE.to_vec(),
        },
        File {
            path: "crates/list_table/stdout",
            bytes: listed.clone().into(),
        },
        File {
            path: "crates/fingerprint_table/stdout",
            bytes: table::fingerprint_output(&salted).into(),
        },
        File {
            path: "crates/fingerprint_table/stdin",
            bytes: salted,
        },
        File {
            path: "crates/write_table/stdout",
            bytes: table::write_table_output(listed.as_bytes()),
        },
        File {
            path: "crates/write_table/stdin",
            bytes: listed.into(),
        },
    ]
}

/// The salt's sixteen bytes, 0 to 15, and then the table.
fn salted() -> Vec<u8> {
    (0..16).chain(TABLE).collect()
}

#[cfg(test)]
mod tests {
    use super::*;
    use plain::mode::Mode::DoublePipe;
    use plain::{digest, hex};

    const LISTED: &str = "\
0 01 a20000000007
7 02 003c
10 03 0041
records 3
";

    fn bytes(path: &str) -> Vec<u8> {
        let file = files().into_iter().find(|file| file.path == path);
        file.expect("a file of this path").bytes
    }

    #[test]
    fn the_lister_example() {
        assert_eq!(table::list(&TABLE), LISTED);
        assert_eq!(
            bytes("crates/list_table/stdin"),
            hex::decode("01 a2 00 00 00 00 07 02 00 3c 03 00 41")
        );
        assert_eq!(bytes("crates/list_table/stdout"), LISTED.as_bytes());
    }

    #[test]
    fn its_fingerprint() {
        let salt = hex::decode("00 01 02 03 04 05 06 07 08 09 0a 0b 0c 0d 0e 0f");
        let stdin = bytes("crates/fingerprint_table/stdin");
        assert_eq!(stdin, [&salt[..], &TABLE].concat());
        let salt = stdin[..16].try_into().unwrap();
        let message = hex::decode("01 a20000000007 02 003c 03 0041");
        let line = hex::encode(&digest::digest(DoublePipe, 256, &salt, &message)) + "\n";
        assert_eq!(bytes("crates/fingerprint_table/stdout"), line.as_bytes());
    }

    #[test]
    fn its_lines_are_the_table_again() {
        assert_eq!(bytes("crates/write_table/stdin"), LISTED.as_bytes());
        assert_eq!(bytes("crates/write_table/stdout"), TABLE);
    }
}
