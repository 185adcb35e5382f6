//! Texts that are nearly those of a table.

use seeded::Generator;

/// Bytes that stand in a text, and some that look like them.
const BYTES: &[u8] = b"0123456789abcdefgAFrecods \n\r\t\0-+.,:xX_/@`\x0b\x7f\x80\xb0\xff";

/// Each byte of a text replaced by each of these, removed and doubled, and the text cut
/// there.
pub fn each_byte(text: &[u8]) -> Vec<Vec<u8>> {
    let mut texts = Vec::new();
    for place in 0..text.len() {
        let (front, behind) = (&text[..place], &text[place + 1..]);
        for byte in BYTES {
            texts.push([front, &[*byte], behind].concat());
        }
        texts.push([front, behind].concat());
        texts.push([front, &text[place..=place], &text[place..]].concat());
        texts.push(front.to_vec());
    }
    texts
}

/// What a line may be in place of a record's, or a text in place of the count.
const LINES: [&str; 53] = [
    "",
    " ",
    "0",
    "0 ",
    "0 02",
    "0 02 ",
    " 02 003c",
    "02 003c",
    "0  02 003c",
    "0 02  003c",
    "0 02 003c ",
    " 0 02 003c",
    "0\t02\t003c",
    "0,02,003c",
    "0: 02 003c",
    "0 02 003c 0",
    "0 02 003c\r",
    "0 02 003c\0",
    "\0",
    "0 2 003c",
    "0 002 003c",
    "0 0x02 003c",
    "0 02 0x003c",
    "0 02 003C",
    "0 02 00 3c",
    "0 02 0 03c",
    "0 02 03c",
    "0 02 3c",
    "0 02 00003c",
    "0 02 003g",
    "0 02 003/",
    "0 02 003:",
    "0 02 003`",
    "0 02 003@",
    "0 0A 003c",
    "0 0a 003c",
    "0 00 003c",
    "0 00 ",
    "0 06 003c",
    "0 12 003c",
    "0 82 003c",
    "0 ff 003c",
    "0 01 003c",
    "0 03 a20000000007",
    "0 04 003c",
    "0 05 003c",
    "a 02 003c",
    "0x0 02 003c",
    "-1 02 003c",
    "+1 02 003c",
    "1.0 02 003c",
    "refused 9 at 0",
    "bad line 1",
];

/// Places of any digits, which are good.
const PLACES: [&str; 7] = [
    "0",
    "00000000000000000000000000000000",
    "1",
    "007",
    "4097",
    "18446744073709551615",
    "99999999999999999999999999999999999999999999999999",
];

/// What may stand in place of `records 1` and its line end.
const COUNTS: [&str; 30] = [
    "",
    "\n",
    "records 1",
    "records 0\n",
    "records 2\n",
    "records 10\n",
    "records 11\n",
    "records 01\n",
    "records 1 \n",
    "records  1\n",
    "records 1\r\n",
    "records 1.\n",
    "records 1,\n",
    "records +1\n",
    "records -1\n",
    "records 0x1\n",
    "records one\n",
    "records \n",
    "records\n",
    "record 1\n",
    "Records 1\n",
    "RECORDS 1\n",
    " records 1\n",
    "records 4294967297\n",
    "records 18446744073709551617\n",
    "records 1\n\n",
    "records 1\nrecords 1\n",
    "records 1\nrecords 2\n",
    "records 1\n3 02 003c\n",
    "records 1\n\0",
];

/// Texts by hand: each of the lines above in front of a good one and behind it, each
/// place, and each count behind a record.
pub fn by_hand() -> Vec<Vec<u8>> {
    let mut texts: Vec<String> = vec!["records 0\n".into(), "records 00\n".into()];
    texts.extend(["", "\n", "records 0", "0 02 003c\nrecords 1\n"].map(String::from));
    for line in LINES {
        texts.push(format!("{line}\n3 03 0041\nrecords 2\n"));
        texts.push(format!("3 03 0041\n{line}\nrecords 2\n"));
        texts.push(format!("3 03 0041\n{line}\nrecords 1\n"));
    }
    for place in PLACES {
        texts.push(format!("{place} 02 003c\nrecords 1\n"));
    }
    for count in COUNTS {
        texts.push(format!("0 02 003c\n{count}"));
    }
    texts.into_iter().map(String::into_bytes).collect()
}

/// A text with some damage: bytes replaced, removed or doubled, a line taken away,
/// doubled or moved, or the text cut.
pub fn some(generator: &mut Generator, mut text: Vec<u8>) -> Vec<u8> {
    let place = generator.below(text.len() as u64) as usize;
    match generator.below(6) {
        0 => text[place] = generator.pick(BYTES),
        1 => drop(text.remove(place)),
        2 => text.insert(place, generator.pick(BYTES)),
        3 => text.truncate(place),
        4 => text[place] ^= 1 << generator.below(8),
        _ => return moved_lines(generator, &text),
    }
    text
}

/// A text without one of its lines, with one twice, or with two in each other's place.
fn moved_lines(generator: &mut Generator, text: &[u8]) -> Vec<u8> {
    let mut lines: Vec<&[u8]> = text.split_inclusive(|byte| *byte == b'\n').collect();
    let mut place = || generator.below(lines.len() as u64) as usize;
    let (one, other) = (place(), place());
    match generator.below(3) {
        0 => drop(lines.remove(one)),
        1 => lines.insert(other, lines[one]),
        _ => lines.swap(one, other),
    }
    lines.concat()
}

#[cfg(test)]
mod tests {
    use super::*;
    use plain::table::write_table;

    /// Of the lines none is good, and of the places each is.
    #[test]
    fn what_is_good_by_hand() {
        let good = by_hand()
            .iter()
            .filter(|text| write_table(text).is_ok())
            .count();
        assert_eq!(good, 2 + PLACES.len());
    }

    /// With one byte changed the text is bad but for other digits, in a place or in hex.
    #[test]
    fn damage_is_met_in_every_line() {
        let text = b"0 02 003c\n3 03 0041\nrecords 2\n";
        let met = |right| {
            each_byte(text)
                .iter()
                .any(|text| write_table(text).err() == right)
        };
        assert!(met(None));
        for line in 1..=4 {
            assert!(met(Some(line)), "{line}");
        }
    }

    #[test]
    fn random_damage_is_bad_and_good() {
        let mut generator = Generator::new(1);
        let text = b"0 02 003c\n3 03 0041\nrecords 2\n";
        let results = [0; 500].map(|_| write_table(&some(&mut generator, text.to_vec())));
        assert!(results.iter().filter(|result| result.is_ok()).count() > 20);
        assert!(results.iter().filter(|result| result.is_err()).count() > 200);
    }
}
