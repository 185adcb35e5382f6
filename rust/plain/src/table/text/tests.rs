use super::*;
use crate::table::{list, read};

/// The lister's example and its lines.
const TABLE: [u8; 13] = [1, 0xa2, 0, 0, 0, 0, 7, 2, 0, 0x3c, 3, 0, 0x41];
const LINES: &str = "0 01 a20000000007\n7 02 003c\n10 03 0041\nrecords 3\n";

fn written(text: &str) -> Result<Vec<u8>, usize> {
    write_table(text.as_bytes())
}

#[test]
fn the_example_byte_for_byte() {
    assert_eq!(list(&TABLE), LINES);
    assert_eq!(written(LINES), Ok(TABLE.to_vec()));
    assert_eq!(write_table_output(LINES.as_bytes()), TABLE);
    assert_eq!(written("records 0\n"), Ok(vec![]));
    assert_eq!(write_table_output(b""), b"bad line 1\n");
}

#[test]
fn each_kind() {
    let digits = "00112233445566778899aabbccddeeff0f1e2d3c4b5a69788796a5b4c3d2e1f0";
    for (kind, body) in [
        (1, &digits[..12]),
        (2, &digits[..4]),
        (3, &digits[..4]),
        (4, &digits[..8]),
        (5, digits),
    ] {
        let table = [&[kind], &hex::decode(body)[..]].concat();
        let text = format!("0 {kind:02x} {body}\nrecords 1\n");
        assert_eq!(written(&text), Ok(table));
        let bad = |body: &str| {
            let text = format!("0 {kind:02x} {body}\nrecords 1\n");
            assert_eq!(written(&text), Err(1), "{text}");
        };
        bad(&body[1..]);
        bad(&body[2..]);
        bad(&format!("{body}0"));
        bad(&format!("{body}00"));
        bad("");
        bad(&body.replace('1', "A").replace('0', "F"));
        bad(&body.replace('1', "g"));
    }
}

/// A place is any digits: what it says does not matter.
#[test]
fn places() {
    let nines = "9".repeat(60_000);
    for place in ["0", "7", "0000", "18446744073709551616", &nines] {
        let text = format!("{place} 02 003c\nrecords 1\n");
        assert_eq!(written(&text), Ok(vec![2, 0, 0x3c]));
    }
    for place in [
        "", " ", "-1", "+1", "1.", "0x1", "a", " 1", "1\t", "\u{661}",
    ] {
        let text = format!("{place} 02 003c\nrecords 1\n");
        assert_eq!(written(&text), Err(1), "{text}");
    }
}

#[test]
fn lines_that_are_bad() {
    for line in [
        "",
        " ",
        "0",
        "0 02",
        "0 02 ",
        "0  02 003c",
        "0 02  003c",
        "0 02 003c ",
        " 0 02 003c",
        "0 02 003c 0",
        "0 02 003c\r",
        "0\t02 003c",
        "0 2 003c",
        "0 002 003c",
        "0 02 003C",
        "0 02 00 3c",
        "0 02 0g3c",
        "0 0A 003c",
        "0 00 003c",
        "0 06 003c",
        "0 ff 003c",
        "0 02 \u{ff10}03",
        "record 1",
        "Records 1",
    ] {
        let behind = format!("0 03 0041\n{line}\nrecords 2\n");
        assert_eq!(written(&behind), Err(2), "{line:?}");
        let before = format!("{line}\n0 03 0041\nrecords 2\n");
        assert_eq!(written(&before), Err(1), "{line:?}");
    }
}

#[test]
fn the_count() {
    let record = "0 02 003c\n";
    for count in [
        "records 0",
        "records 2",
        "records 01",
        "records +1",
        "records  1",
        "records 1 ",
        "records 1\r",
        " records 1",
        "records",
        "records ",
        "records 18446744073709551617",
    ] {
        let text = format!("{record}{count}\n");
        assert_eq!(written(&text), Err(2), "{count:?}");
    }
    assert_eq!(written("records 00\n"), Err(1));
    assert_eq!(written("records 1\n"), Err(1));
    // None, and one without its line end.
    assert_eq!(written(record), Err(2));
    assert_eq!(written(&record.repeat(5)), Err(6));
    assert_eq!(written("0 02 003c\nrecords 1"), Err(2));
    assert_eq!(written("0 02 003c"), Err(1));
    assert_eq!(written("records 0"), Err(1));
    // Something behind it.
    for behind in [
        "\n",
        " ",
        "0",
        "records 1\n",
        "0 02 003c\n",
        "\0",
        "records 2\n",
    ] {
        let text = format!("{record}records 1\n{behind}");
        assert_eq!(written(&text), Err(3), "{text:?}");
    }
}

#[test]
fn the_first_bad_line_decides() {
    assert_eq!(written("x\ny\n"), Err(1));
    assert_eq!(written("0 02 003c\nx\nrecords 9\n"), Err(2));
    assert_eq!(written("0 02 003c\nrecords 7\nrecords 1\n"), Err(2));
}

#[test]
fn the_longest_table() {
    // 124 notes are 4,092 bytes.
    let note = format!("0 05 {}\n", "5a".repeat(32));
    let text = |behind: &str, records| format!("{}{behind}records {records}\n", note.repeat(124));
    assert_eq!(written(&text("", 124)).map(|table| table.len()), Ok(4092));
    assert_eq!(
        written(&text("0 02 0000\n", 125)).map(|table| table.len()),
        Ok(4095)
    );
    // With one of five bytes more it is 4,097.
    assert_eq!(written(&text("0 04 00000000\n", 125)), Err(125));
    assert_eq!(written(&text("0 02 0000\n0 02 0000\n", 126)), Err(126));
    // A bad line before that decides.
    let bad = format!("x\n{}", text("0 04 00000000\n", 125));
    assert_eq!(written(&bad), Err(1));
    // 4,096 bytes: 122 notes, 10 floors, and 8 holds.
    let (floor, hold) = ("1 03 0041\n".repeat(10), "2 04 00000102\n".repeat(8));
    let text = format!("{}{floor}{hold}records 140\n", note.repeat(122));
    assert_eq!(written(&text).map(|table| table.len()), Ok(4096));
}

#[test]
fn the_longest_text() {
    // The count's end is the last byte that may be one.
    let of_length = |length: usize| {
        let rest = " 02 003c\nrecords 1\n";
        format!("{}{rest}", "7".repeat(length - rest.len()))
    };
    assert_eq!(written(&of_length(65_536)), Ok(vec![2, 0, 0x3c]));
    assert_eq!(written(&of_length(65_537)), Err(2));
    assert_eq!(written(&of_length(65_536 + 10)), Err(2));
    assert_eq!(written(&of_length(65_536 + 11)), Err(1));
    assert_eq!(written(&of_length(200_000)), Err(1));
    assert_eq!(written(&format!("{}x", of_length(65_536))), Err(3));
    assert_eq!(
        written(&format!("records 0\n{}", "x".repeat(200_000))),
        Err(2)
    );
    assert_eq!(written(&"\n".repeat(200_000)), Err(1));
    // Endless good lines: 1,365 of three bytes are 4,095, and the next is too many.
    assert_eq!(written(&"0 02 003c\n".repeat(20_000)), Err(1366));
}

/// What the lister prints of a table gives the table.
#[test]
fn listed_and_written_again() {
    let record = |kind: u8, length: usize| [vec![kind], vec![0xa0 | kind; length]].concat();
    let kinds = [(5, 32), (4, 4), (3, 2), (2, 2), (1, 6)];
    let records: Vec<Vec<u8>> = kinds.map(|(kind, length)| record(kind, length)).into();
    for count in 0..=30 {
        let table: Vec<u8> = (0..count)
            .flat_map(|i| records[i * i % 5].clone())
            .collect();
        assert_eq!(read(&table).unwrap().len(), count);
        assert_eq!(written(&list(&table)), Ok(table));
    }
}
