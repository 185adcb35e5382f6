//! `include/bahmorist.h`, this package and the pages say the same, and it is what the
//! library does.

use bahmorist::{Mode, Radio, Record, Refusal, TableWriter};

const HEADER: &str = include_str!("../../../include/bahmorist.h");
const FACE: &str = include_str!("../src/face.rs");
const USING: &str = include_str!("../../../docs/USING.md");
const MANUALS: [&str; 2] = [
    include_str!("../../../man/list_table.1"),
    include_str!("../../../man/write_table.1"),
];

/// The numbers that the header gives to names with this beginning.
fn numbers(beginning: &str) -> Vec<(&'static str, u8)> {
    HEADER
        .lines()
        .filter_map(|line| line.trim().strip_prefix(beginning))
        .filter_map(|line| line.split_once(" = "))
        .map(|(name, rest)| {
            let digits = rest.split(|c: char| !c.is_ascii_digit()).next();
            (name, digits.unwrap_or("").parse().expect("a number"))
        })
        .collect()
}

/// The functions that a text declares behind these words and this prefix, each with the
/// names of its parameters, by their names.
fn functions(
    text: &'static str,
    before: &str,
    name: fn(&'static str) -> &'static str,
) -> Vec<(&'static str, Vec<&'static str>)> {
    let declared = text.split(before).skip(1).map(|behind| {
        let (_, behind) = behind.split_once("bahmorist_").expect("a prefix");
        let (function, behind) = behind.split_once('(').expect("parameters");
        let (parameters, _) = behind.split_once(')').expect("their end");
        let parameters = parameters.split(',').map(str::trim);
        let parameters = parameters.filter(|parameter| !["", "void"].contains(parameter));
        (function, parameters.map(name).collect())
    });
    let mut declared: Vec<_> = declared.collect();
    declared.sort();
    declared
}

/// Two numbers of one type that change places would be seen by no compiler.
#[test]
fn each_function_has_its_parameters_in_the_order_of_the_header() {
    let in_c = functions(HEADER, "BAHMORIST_LOOK_AT uint", |parameter| {
        let end = parameter.rsplit([' ', '*']).next();
        end.expect("a name behind the type")
    });
    let in_rust = functions(FACE, "pub fn ", |parameter| {
        let (name, _) = parameter.split_once(':').expect("a type behind the name");
        name
    });
    assert_eq!(in_c, in_rust);
    assert_eq!(in_c.len(), 19);
}

#[test]
fn each_refusal_has_its_number_in_the_header() {
    let named = numbers("BAHMORIST_REFUSED_");
    for (name, number) in &named {
        let refusal = Refusal::from_number(*number).expect("a refusal");
        let name = name.replace('_', "").to_lowercase();
        assert_eq!(format!("{refusal:?}").to_lowercase(), name);
    }
    // All but those that are for sessions and for an address as a number, 11, which is
    // unused, and 13 to 15 and 18, which are not in use.
    let left_out: Vec<u8> = (1..=19)
        .filter(|number| named.iter().all(|(_, named)| named != number))
        .collect();
    assert_eq!(
        left_out,
        [
            Refusal::Session.number(),
            11,
            Refusal::Address.number(),
            13,
            14,
            15,
            16,
            18
        ]
    );
}

/// The number and the text of each `case` of the header's texts.
fn texts() -> Vec<(u8, &'static str)> {
    let (_, body) = HEADER.split_once("bahmorist_refusal_text(").expect("texts");
    body.split("case ")
        .skip(1)
        .map(|case| {
            let (number, rest) = case.split_once(':').expect("a number");
            let text = rest.split('"').nth(1).expect("a text");
            (number.parse().expect("a number"), text)
        })
        .collect()
}

#[test]
fn each_refusal_has_the_same_text_in_the_header() {
    let texts = texts();
    for number in 1..=255 {
        let text = texts.iter().find(|(case, _)| *case == number);
        let said = Refusal::from_number(number).map(|refusal| refusal.to_string());
        // 16 is for sessions alone, of which C has the text for when it has them.
        if number != 16 {
            assert_eq!(said.as_deref(), text.map(|(_, text)| *text), "{number}");
        }
    }
}

#[test]
fn each_mode_has_its_number_in_the_header() {
    let named: Vec<(&str, u8)> = numbers("BAHMORIST_")
        .into_iter()
        .filter(|(name, _)| name.ends_with("_PIPE"))
        .collect();
    let [double, single] = [Mode::DoublePipe, Mode::SinglePipe].map(Mode::number);
    assert_eq!(named, [("DOUBLE_PIPE", double), ("SINGLE_PIPE", single)]);
}

/// The sizes beside each mode in the header are those that the library takes: the
/// shorter chaining value first.
#[test]
fn each_mode_has_the_sizes_that_the_library_takes() {
    for (mode, name) in [
        (Mode::DoublePipe, "DOUBLE_PIPE"),
        (Mode::SinglePipe, "SINGLE_PIPE"),
    ] {
        let line = HEADER.lines().find(|line| line.contains(name));
        let (_, comment) = line.and_then(|line| line.split_once("/*")).expect("sizes");
        let sizes: Vec<usize> = comment
            .split(|c: char| !c.is_ascii_digit())
            .filter_map(|digits| digits.parse().ok())
            .collect();
        assert_eq!(sizes.len(), 4);
        for sizes in sizes.chunks(2) {
            let (mut chaining, block) = (vec![0; sizes[0]], vec![0; sizes[1]]);
            let taken = bahmorist::compress_in(mode, &mut chaining, &block, 0, &[0; 16]);
            assert_eq!(taken, Ok(()), "{name}");
        }
    }
}

#[test]
fn the_header_has_this_version() {
    let version = env!("CARGO_PKG_VERSION");
    assert!(HEADER.contains(&format!("#define BAHMORIST_VERSION \"{version}\"\n")));
    let parts = version.split('.').map(|part| part.parse().unwrap());
    let number = parts.fold(0, |number: u32, part: u32| 100 * number + part);
    assert!(HEADER.contains(&format!("#define BAHMORIST_VERSION_NUMBER {number} ")));
    assert_eq!(bahmorist::version(), number);
    assert_eq!(bahmorist::VERSION, version);
}

/// The body's length of each kind, by its byte, where a record may have that kind: as the
/// library reads it, from the one length with which a lone record is a table.
fn read_kinds() -> Vec<(u8, usize)> {
    let lengths = |kind: u8| (0..=300).filter(move |length| accepted(kind, *length));
    (0..=255)
        .flat_map(|kind| lengths(kind).map(move |length| (kind, length)))
        .collect()
}

/// Whether a record of this kind byte, with a body of so many zeros, is a table.
fn accepted(kind: u8, length: usize) -> bool {
    let mut table = vec![kind];
    table.resize(1 + length, 0);
    bahmorist::fingerprint(&[0; 16], &table, &mut [0; 32]).is_ok()
}

/// Whatever reads or writes a record takes the same kinds and lengths.
#[test]
fn each_function_over_tables_has_the_same_kinds() {
    for kind in 0..=255 {
        for length in 0..=300 {
            let mut table = vec![kind];
            table.resize(1 + length, 0);
            let taken = accepted(kind, length);
            assert_eq!(bahmorist::count(&table) == Ok(1), taken);
            let whole = Some((kind, 1 + length as u64));
            assert_eq!(bahmorist::read_at(&table, 0) == Ok(whole), taken);
            let written = bahmorist::write_at(&mut vec![0; 1 + length], 0, kind, &table[1..]);
            assert_eq!(written.is_ok(), taken);
        }
    }
}

/// The records of this package, each by one: their kinds are the header's, and their
/// bodies as long as its sizes.
#[test]
fn each_record_has_its_kind_in_the_header() {
    let [low, high] = [Radio::Low, Radio::High].map(|radio| Record::Floor { radio, level: 0 });
    let [node, hold] = [Record::Node { address: [0; 6] }, Record::Hold { time: 0 }];
    let records = [node, low, high, hold, Record::Note([0; 4])];
    let kinds = records.map(|record| {
        let mut room = [0; 300];
        let mut writer = TableWriter::new(&mut room);
        writer.push(&record).expect("a room that is long enough");
        (record.kind(), writer.len() - 1)
    });
    assert_eq!(kinds.to_vec(), named_kinds());
}

#[test]
fn the_longest_table_is_that_of_the_header() {
    let most = sizes().into_iter().find(|(name, _)| *name == "MOST_TABLE");
    let (_, most) = most.expect("a size of its own");
    assert_eq!(bahmorist::MOST_TABLE_BYTES, most);
    let refusal = |length| bahmorist::read_at(&vec![0; length], 0).unwrap_err().refusal;
    assert_eq!(refusal(most), Refusal::Kind);
    assert_eq!(refusal(most + 1), Refusal::Table);
}

/// The header's names for sizes in bytes.
fn sizes() -> Vec<(&'static str, usize)> {
    HEADER
        .lines()
        .filter_map(|line| {
            line.strip_prefix("#define BAHMORIST_")?
                .split_once("_BYTES ")
        })
        .map(|(name, size)| (name, size.parse().expect("a size")))
        .collect()
}

/// The kinds by the header, with the lengths of their bodies: a kind's name begins with
/// that of its size.
fn named_kinds() -> Vec<(u8, usize)> {
    let sizes = sizes();
    let named = numbers("BAHMORIST_KIND_").into_iter().map(|(name, kind)| {
        let size = sizes.iter().find(|(size, _)| name.starts_with(size));
        (kind, size.expect("a size of its own").1)
    });
    named.collect()
}

#[test]
fn the_header_has_the_kinds_that_the_library_reads() {
    assert_eq!(named_kinds(), read_kinds());
}

/// The same by the page: rows of a kind in hex and the bytes of its body.
#[test]
fn the_page_has_the_kinds_that_the_library_reads() {
    let (_, behind) = USING.split_once("| Kind | Body |").expect("a table");
    let rows = behind
        .lines()
        .skip(2)
        .map_while(|row| row.strip_prefix("| "));
    let listed = rows.map(|row| {
        let mut cells = row.split(" | ");
        let kind = u8::from_str_radix(cells.next().unwrap_or(""), 16);
        let body = cells.next().unwrap_or("").split(' ').next().unwrap_or("");
        (kind.expect("a kind"), body.parse().expect("a length"))
    });
    assert_eq!(listed.collect::<Vec<(u8, usize)>>(), read_kinds());
}

/// The same by the manuals: an item for a kind in hex, whose text ends with the bytes of
/// its body.
#[test]
fn the_manuals_have_the_kinds_that_the_library_reads() {
    for manual in MANUALS {
        let lines: Vec<&str> = manual.lines().collect();
        let listed = lines.windows(2).filter_map(|pair| {
            let kind = pair[0]
                .strip_prefix(".It ")
                .filter(|item| item.len() == 2)?;
            let kind = u8::from_str_radix(kind, 16).ok()?;
            let (_, body) = pair[1].strip_suffix(" bytes")?.rsplit_once(' ')?;
            Some((kind, body.parse().ok()?))
        });
        assert_eq!(listed.collect::<Vec<(u8, usize)>>(), read_kinds());
    }
}
