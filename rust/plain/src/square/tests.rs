use super::*;

/// Where a counter leaves its lower half.
const HALF: u128 = 1 << 64;

/// A square whose bytes differ.
fn start() -> Square {
    std::array::from_fn(|i| (i * i + 3) as u8)
}

/// BIG.ROUND with the counters of the basic version, 64 bits and eight zeros behind
/// them.
fn rounds_of_64_bits(square: &mut Square, count: u64, mut counter: u64, salt: &Word) {
    for _ in 0..count {
        for word in words(square) {
            let mut key = [0; 16];
            key[..8].copy_from_slice(&counter.to_le_bytes());
            *word = aes::round(aes::round(*word, key), *salt);
            counter = counter.wrapping_add(1);
        }
        shift_rows(square);
        mix_columns(square);
    }
}

#[test]
fn row_shift_as_in_the_marked_examples() {
    assert_eq!(shifted_from(5), 9);
    assert_eq!(shifted_from(13), 1);
    assert_eq!(shifted_from(3), 15);
    let mut square: Square = std::array::from_fn(|i| i as u8);
    shift_rows(&mut square);
    assert_eq!(square[16 * 5], 16 * 9);
    assert_eq!(square[16 * 13 + 15], 16 + 15);
    assert_eq!(square[16 * 3 + 7], 240 + 7);
}

#[test]
fn word_columns_mix_as_bytes_do() {
    let mut square = [0; 256];
    for (row, byte) in [0xdb, 0x13, 0x53, 0x45].into_iter().enumerate() {
        square[64 + 16 * row + 5] = byte;
    }
    mix_columns(&mut square);
    for (row, byte) in [0x8e, 0x4d, 0xa1, 0xbc].into_iter().enumerate() {
        assert_eq!(square[64 + 16 * row + 5], byte);
        square[64 + 16 * row + 5] = 0;
    }
    assert_eq!(square, [0; 256]);
}

#[test]
fn the_counter_goes_on_through_words_and_rounds() {
    let salt = [7; 16];
    for counter in [1000, HALF - 80, 0u128.wrapping_sub(80)] {
        let mut at_once = start();
        rounds(&mut at_once, 10, counter, &salt);
        let mut one_by_one = start();
        for round in 0..10 {
            rounds(&mut one_by_one, 1, counter.wrapping_add(16 * round), &salt);
        }
        assert_eq!(at_once, one_by_one);
    }
}

/// The paper's section 3.1: of 64 bits k1 is the counter and eight zeros, and of 128
/// the counter.
#[test]
fn the_key_is_all_of_the_counter_from_its_least_significant_byte_on() {
    let counter = 0x0f0e0d0c0b0a09080706050403020100;
    assert_eq!(
        counter_key(counter),
        [0, 1, 2, 3, 4, 5, 6, 7, 8, 9, 10, 11, 12, 13, 14, 15]
    );
    let low = counter_key(0x0706050403020100);
    assert_eq!(low[..8], [0, 1, 2, 3, 4, 5, 6, 7]);
    assert_eq!(low[8..], [0; 8]);
}

/// Keys written out, where the lower half goes over into the upper and where the
/// upper one begins anew.
#[test]
fn keys_of_a_round_over_both_edges() {
    let (zeros, ones) = ([0; 8], [0xff; 8]);
    let next = |half: [u8; 8]| [half[0] + 1, 0, 0, 0, 0, 0, 0, 0];
    for (counter, before, behind) in [
        (HALF - 5, zeros, next(zeros)),
        (2 * HALF - 5, next(zeros), next(next(zeros))),
        (0u128.wrapping_sub(5), ones, zeros),
    ] {
        let mut expected = start();
        for (place, word) in words(&mut expected).enumerate() {
            let (low, high) = match place {
                0..=4 => (
                    [0xfb + place as u8, 255, 255, 255, 255, 255, 255, 255],
                    before,
                ),
                _ => ([place as u8 - 5, 0, 0, 0, 0, 0, 0, 0], behind),
            };
            let key = [low, high].concat().try_into().expect("16 bytes");
            *word = aes::round(aes::round(*word, key), [7; 16]);
        }
        shift_rows(&mut expected);
        mix_columns(&mut expected);
        let mut given = start();
        rounds(&mut given, 1, counter, &[7; 16]);
        assert_eq!(given, expected);
    }
}

/// As long as no word of the run needs more than 64 bits, which the last of ten
/// rounds does first from 2^64 - 159 on.
#[test]
fn below_the_edge_the_counter_is_that_of_64_bits() {
    let both = |count, counter: u64| {
        let (mut given, mut expected) = (start(), start());
        rounds(&mut given, count, counter.into(), &[7; 16]);
        rounds_of_64_bits(&mut expected, count, counter, &[7; 16]);
        (given, expected)
    };
    for (count, last) in [(8, u64::MAX - 127), (10, u64::MAX - 159)] {
        for counter in [0, 1, 0xff, 1 << 32, 1 << 63, last - 2, last - 1, last] {
            let (given, expected) = both(count, counter);
            assert_eq!(given, expected);
        }
        for counter in last + 1..=u64::MAX {
            let (given, expected) = both(count, counter);
            assert_ne!(given, expected);
        }
    }
}

/// Starts that differ in one half alone, or have the halves the other way round.
#[test]
fn both_halves_count() {
    let salt = [7; 16];
    let given = [5, 3 * HALF + 5, 5 * HALF + 3, 3 * HALF, 5 * HALF].map(|counter| {
        let mut square = start();
        rounds(&mut square, 8, counter, &salt);
        square
    });
    for (place, one) in given.iter().enumerate() {
        assert!(!given[..place].contains(one));
    }
}

#[test]
fn backward_undoes_forward() {
    let salt: Word = std::array::from_fn(|i| (i * 17) as u8);
    let start: Square = std::array::from_fn(|i| (i * 31 + 5) as u8);
    for (count, counter) in [
        (0, 0),
        (1, 5),
        (8, 1536),
        (10, HALF - 161),
        (10, HALF - 80),
        (8, 0u128.wrapping_sub(80)),
    ] {
        let mut square = start;
        rounds(&mut square, count, counter, &salt);
        assert_eq!(square == start, count == 0);
        rounds_back(&mut square, count, counter, &salt);
        assert_eq!(square, start);
    }
}
