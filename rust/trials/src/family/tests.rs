use crate::draw::EDGE;
use crate::families::{bit_edges, bit_lengths, whole_bytes};
use crate::families::{both_widths, compressions, every_length, random_messages};
use crate::families::{readings, writings, written_and_read};
use crate::families::{rounds_backward, rounds_forward, tables, there_and_back};
use crate::families::{wide_compressions, wide_rounds};
use crate::family::Family;
use crate::implementation::{Implementation, LIBRARY};

/// What a family says of an implementation.
fn tried(family: &Family, subject: Implementation) -> Result<usize, String> {
    family.tried(subject, 1, Some(200))
}

/// A padding block's counter carried on: wrong for messages whose last block
/// holds nothing of them, and for no other.
#[test]
fn a_digest_that_is_wrong_at_an_edge_is_seen() {
    let wrong = Implementation {
        digest: |bits, salt, message, out| {
            let number = (LIBRARY.digest)(bits, salt, message, out);
            out[0] ^= u8::from(message.len() == 174);
            number
        },
        ..LIBRARY
    };
    let said = tried(&every_length::FAMILY, wrong).unwrap_err();
    // Each of the 174 lengths before has six cases.
    assert!(said.starts_with("case 1045: digest, 256 bits, "), "{said}");
    assert!(said.contains("message of 174 bytes "), "{said}");
}

/// One byte more in the first block than fits it with its padding.
#[test]
fn a_digest_in_single_pipe_that_is_wrong_at_an_edge_is_seen() {
    let wrong = Implementation {
        digest_in: |mode, bits, salt, message, out| {
            let number = (LIBRARY.digest_in)(mode, bits, salt, message, out);
            let wrong = (mode, bits, message.len()) == (1, 256, 206);
            out[0] ^= u8::from(wrong);
            number
        },
        ..LIBRARY
    };
    let said = tried(&every_length::FAMILY, wrong).unwrap_err();
    let case = "case 1239: digest, mode 1, 256 bits, ";
    assert!(said.starts_with(case), "{said}");
    assert!(said.contains("message of 206 bytes "), "{said}");
}

#[test]
fn a_mode_that_is_left_out_is_seen() {
    let wrong = Implementation {
        digest_in: |_, bits, salt, message, out| (LIBRARY.digest)(bits, salt, message, out),
        ..LIBRARY
    };
    for family in [&every_length::FAMILY, &random_messages::FAMILY] {
        let said = tried(family, wrong).unwrap_err();
        assert!(said.contains("digest, mode 1, "), "{said}");
    }
    let wrong = Implementation {
        compress_in: |mode, chaining, block, counter, salt| match chaining.len() {
            64 => (LIBRARY.compress)(chaining, block, counter, salt),
            _ => (LIBRARY.compress_in)(mode, chaining, block, counter, salt),
        },
        ..LIBRARY
    };
    let said = tried(&compressions::FAMILY, wrong).unwrap_err();
    assert!(said.contains("compression, mode 1, "), "{said}");
}

/// A block that is taken to hold one bit more than it does with its padding.
#[test]
fn a_digest_of_bits_that_is_wrong_at_an_edge_is_seen() {
    let wrong = Implementation {
        digest_bits: |mode, bits, salt, message, message_bits, out| {
            let number = (LIBRARY.digest_bits)(mode, bits, salt, message, message_bits, out);
            out[0] ^= u8::from((mode, bits, message_bits) == (1, 256, 1648));
            number
        },
        ..LIBRARY
    };
    // Each of the 1648 lengths before has eight cases, and this one has two.
    let said = tried(&bit_lengths::FAMILY, wrong).unwrap_err();
    let case = "case 13187: digest of bits, mode 1, 256 bits of 1648, ";
    assert!(said.starts_with(case), "{said}");
    let said = tried(&bit_edges::FAMILY, wrong).unwrap_err();
    assert!(
        said.contains("digest of bits, mode 1, 256 bits of 1648, "),
        "{said}"
    );
    assert!(tried(&whole_bytes::FAMILY, wrong).is_err());
}

/// The length padded in whole bytes: the digest of the bytes that hold the bits.
#[test]
fn a_part_of_a_byte_that_counts_as_a_whole_is_seen() {
    let wrong = Implementation {
        digest_bits: |mode, bits, salt, message, _, out| {
            (LIBRARY.digest_in)(mode, bits, salt, message, out)
        },
        ..LIBRARY
    };
    assert!(tried(&whole_bytes::FAMILY, wrong).is_ok());
    let said = tried(&bit_lengths::FAMILY, wrong).unwrap_err();
    assert!(
        said.starts_with("case 9: digest of bits, mode 0, 256 bits of 1, "),
        "{said}"
    );
    assert!(tried(&bit_edges::FAMILY, wrong).is_err());
}

#[test]
fn a_byte_written_behind_the_digest_is_seen() {
    let wrong = Implementation {
        digest: |bits, salt, message, out| {
            let number = (LIBRARY.digest)(bits, salt, message, out);
            if let Some(byte) = out.get_mut(bits as usize / 8) {
                *byte = 0;
            }
            number
        },
        ..LIBRARY
    };
    assert!(tried(&random_messages::FAMILY, wrong).is_err());
}

#[test]
fn rounds_that_are_reversible_but_no_rounds_are_seen() {
    let wrong = Implementation {
        rounds: |_, _, _, _| 0,
        rounds_back: |_, _, _, _| 0,
        ..LIBRARY
    };
    assert!(tried(&there_and_back::FAMILY, wrong).is_ok());
    assert!(tried(&rounds_forward::FAMILY, wrong).is_err());
    assert!(tried(&rounds_backward::FAMILY, wrong).is_err());
}

#[test]
fn a_way_back_with_another_counter_is_seen() {
    let wrong = Implementation {
        rounds_back: |square, count, counter, salt| {
            (LIBRARY.rounds_back)(square, count, counter ^ 1, salt)
        },
        ..LIBRARY
    };
    assert!(tried(&there_and_back::FAMILY, wrong).is_err());
    let wrong = Implementation {
        rounds_back_wide: |square, count, counter, salt| {
            (LIBRARY.rounds_back_wide)(square, count, counter ^ EDGE, salt)
        },
        ..LIBRARY
    };
    let said = tried(&there_and_back::FAMILY, wrong).unwrap_err();
    assert!(said.starts_with("wide rounds, 8 of them, "), "{said}");
}

/// A carry that is lost at one word alone, into the upper half and to 0.
#[test]
fn a_wide_start_that_is_wrong_is_seen() {
    let wrong = Implementation {
        rounds_wide: |square, count, counter, salt| {
            square[0] ^= u8::from(count == 10 && counter == EDGE - 159);
            (LIBRARY.rounds_wide)(square, count, counter, salt)
        },
        ..LIBRARY
    };
    let said = tried(&wide_rounds::FAMILY, wrong).unwrap_err();
    assert!(
        said.contains("10 of them, counter 0xffffffffffffff61, "),
        "{said}"
    );
    let wrong = Implementation {
        compress_wide: |mode, chaining, block, counter, salt| {
            chaining[0] ^= u8::from((mode, chaining.len(), counter) == (1, 32, u128::MAX));
            (LIBRARY.compress_wide)(mode, chaining, block, counter, salt)
        },
        ..LIBRARY
    };
    let said = tried(&wide_compressions::FAMILY, wrong).unwrap_err();
    let counter = format!("wide compression, mode 1, counter 0x{}, ", "f".repeat(32));
    assert!(said.contains(&counter), "{said}");
}

#[test]
fn halves_that_change_places_are_seen() {
    let wrong = Implementation {
        rounds_wide: |square, count, counter, salt| {
            (LIBRARY.rounds_wide)(square, count, counter.rotate_left(64), salt)
        },
        rounds_back_wide: |square, count, counter, salt| {
            (LIBRARY.rounds_back_wide)(square, count, counter.rotate_left(64), salt)
        },
        compress_wide: |mode, chaining, block, counter, salt| {
            (LIBRARY.compress_wide)(mode, chaining, block, counter.rotate_left(64), salt)
        },
        ..LIBRARY
    };
    assert!(tried(&there_and_back::FAMILY, wrong).is_ok());
    let families = [
        wide_rounds::FAMILY,
        wide_compressions::FAMILY,
        both_widths::FAMILY,
    ];
    for family in families {
        assert!(tried(&family, wrong).is_err(), "{}", family.name);
    }
}

#[test]
fn an_upper_half_that_is_left_out_is_seen() {
    let wrong = Implementation {
        compress_wide: |mode, chaining, block, counter, salt| {
            (LIBRARY.compress_wide)(mode, chaining, block, counter % EDGE, salt)
        },
        ..LIBRARY
    };
    assert!(tried(&both_widths::FAMILY, wrong).is_ok());
    assert!(tried(&wide_compressions::FAMILY, wrong).is_err());
}

#[test]
fn a_limit_that_only_one_width_has_is_seen() {
    let wrong = Implementation {
        compress_wide: |mode, chaining, block, counter, salt| {
            (LIBRARY.compress_in)(mode, chaining, block, counter as u64, salt)
        },
        ..LIBRARY
    };
    let said = tried(&both_widths::FAMILY, wrong).unwrap_err();
    assert!(
        said.ends_with("7, and wide 7, where 7 and 0 are right"),
        "{said}"
    );
}

#[test]
fn a_counter_cut_to_32_bits_is_seen() {
    let wrong = Implementation {
        compress: |chaining, block, counter, salt| {
            (LIBRARY.compress)(chaining, block, u64::from(counter as u32), salt)
        },
        ..LIBRARY
    };
    assert!(tried(&compressions::FAMILY, wrong).is_err());
}

#[test]
fn a_table_that_is_one_byte_too_long_to_be_refused_is_seen() {
    let wrong = Implementation {
        fingerprint: |salt, table, out| {
            let table = &table[..table.len().min(4096)];
            (LIBRARY.fingerprint)(salt, table, out)
        },
        ..LIBRARY
    };
    assert!(tried(&tables::FAMILY, wrong).is_err());
}

/// A place in the low half alone, a record that is read where the table ends within it,
/// and one that is not counted.
#[test]
fn readings_that_are_wrong_are_seen() {
    let wrong = Implementation {
        read_at: |table, place| (LIBRARY.read_at)(table, place % (1 << 32)),
        ..LIBRARY
    };
    let said = tried(&readings::FAMILY, wrong).unwrap_err();
    assert!(said.contains("reading, place 4294967296, "), "{said}");
    let wrong = Implementation {
        read_at: |table, place| match (LIBRARY.read_at)(table, place) {
            (10, _, place) if table[place as usize] == 5 => (0, 5, place + 33),
            told => told,
        },
        ..LIBRARY
    };
    assert!(tried(&readings::FAMILY, wrong).is_err());
    let wrong = Implementation {
        count: |table| match (LIBRARY.count)(table) {
            (0, count, place) if table.len() > 150 => (0, count - 1, place),
            told => told,
        },
        ..LIBRARY
    };
    assert!(tried(&readings::FAMILY, wrong).is_err());
    assert!(tried(&written_and_read::FAMILY, wrong).is_err());
}

/// A kind in its low bits, a byte behind the record, and a body from its end.
#[test]
fn writings_that_are_wrong_are_seen() {
    let wrong = Implementation {
        write_at: |room, place, kind, body| match kind {
            0x85 => (LIBRARY.write_at)(room, place, 5, body),
            _ => (LIBRARY.write_at)(room, place, kind, body),
        },
        ..LIBRARY
    };
    let said = tried(&writings::FAMILY, wrong).unwrap_err();
    assert!(said.contains(", kind 85, "), "{said}");
    let wrong = Implementation {
        write_at: |room, place, kind, body| {
            let (number, next) = (LIBRARY.write_at)(room, place, kind, body);
            if let (0, Some(byte)) = (number, room.get_mut(next as usize)) {
                *byte = 0;
            }
            (number, next)
        },
        ..LIBRARY
    };
    assert!(tried(&writings::FAMILY, wrong).is_err());
    let wrong = Implementation {
        write_at: |room, place, kind, body| {
            let body: Vec<u8> = body.iter().rev().copied().collect();
            (LIBRARY.write_at)(room, place, kind, &body)
        },
        ..LIBRARY
    };
    assert!(tried(&writings::FAMILY, wrong).is_err());
    assert!(tried(&written_and_read::FAMILY, wrong).is_err());
}

#[test]
fn the_library_passes_and_is_counted() {
    assert_eq!(tried(&tables::FAMILY, LIBRARY), Ok(200));
    assert!(tried(&readings::FAMILY, LIBRARY).is_ok());
    // Each kind byte with 35 bodies; each record at the places of 41 rooms.
    let places: usize = (0..=40).map(|room| room + 2 + 6).sum();
    let writings = tried(&writings::FAMILY, LIBRARY);
    assert_eq!(writings, Ok(2 * (256 * 35 + 5 * places + 200)));
    assert_eq!(tried(&written_and_read::FAMILY, LIBRARY), Ok(3 * 200));
    assert_eq!(tried(&compressions::FAMILY, LIBRARY), Ok(200 + 6 * 18));
    let bits = tried(&bit_lengths::FAMILY, LIBRARY);
    assert_eq!(bits, Ok(2 * (2 * 2 * 4701 + 200)));
    let bits = tried(&bit_edges::FAMILY, LIBRARY);
    assert_eq!(bits, Ok(2 * 2 * 49 * (6 * 17 + 8)));
    let bytes = tried(&whole_bytes::FAMILY, LIBRARY);
    assert_eq!(bytes, Ok(2 * 2 * 601 + 200));
    // 481 starts, each case by both.
    let wide = tried(&wide_rounds::FAMILY, LIBRARY);
    assert_eq!(wide, Ok(2 * 2 * (2 * 481 + 200)));
    let wide = tried(&wide_compressions::FAMILY, LIBRARY);
    assert_eq!(wide, Ok(2 * (4 * 481 + 200)));
    let wide = tried(&both_widths::FAMILY, LIBRARY);
    assert_eq!(wide, Ok((4 + 6) * (18 + 160 + 200)));
}

#[test]
fn one_seed_gives_one_run() {
    let first = |family: &Family, seed| family.generator(seed).number();
    let (one, other) = (tables::FAMILY, compressions::FAMILY);
    assert_eq!(first(&one, 1), first(&one, 1));
    assert_ne!(first(&one, 1), first(&one, 2));
    assert_ne!(first(&one, 1), first(&other, 1));
}
