//! The tables, worked out by the compiler from the field's rule.

/// For the byte in row r of a column, table r has the column that SubBytes and
/// MixColumns make of it, its first byte being the least significant. A column's
/// four entries xored are the column. FIPS 197, sections 5.1.1 and 5.1.3.
///
/// Static, and all four in one, so that a look-up needs one base address only.
pub static TABLES: [[u32; 256]; 4] = tables();

const fn tables() -> [[u32; 256]; 4] {
    let mut tables = [[0; 256]; 4];
    let mut byte = 0;
    while byte < 256 {
        let image = substitute(byte as u8);
        let twice = multiply(image, 2);
        let first = u32::from_le_bytes([twice, image, image, twice ^ image]);
        let mut row = 0;
        while row < 4 {
            tables[row][byte] = first.rotate_left(8 * row as u32);
            row += 1;
        }
        byte += 1;
    }
    tables
}

/// SubBytes: the field inverse, then bit i xored with bits i + 4 to i + 7 (mod 8)
/// of the inverse and with bit i of 63.
const fn substitute(byte: u8) -> u8 {
    let x = inverse(byte);
    let turned = x.rotate_left(1) ^ x.rotate_left(2) ^ x.rotate_left(3) ^ x.rotate_left(4);
    x ^ turned ^ 0x63
}

/// The power 254, which is 2 + 4 + ... + 128: the inverse of each byte but 0, and
/// 0 for 0.
const fn inverse(byte: u8) -> u8 {
    let mut power = byte;
    let mut product = 1;
    let mut step = 0;
    while step < 7 {
        power = multiply(power, power);
        product = multiply(product, power);
        step += 1;
    }
    product
}

/// The product in the field of x^8 + x^4 + x^3 + x + 1. FIPS 197, section 4.2.
const fn multiply(left: u8, right: u8) -> u8 {
    let (mut left, mut right, mut product) = (left, right, 0);
    while right != 0 {
        product ^= left * (right & 1);
        left = (left << 1) ^ (0x1b * (left >> 7));
        right >>= 1;
    }
    product
}

#[cfg(test)]
mod tests {
    use super::*;

    #[test]
    fn every_byte_is_substituted_as_by_plain() {
        for byte in 0..=255 {
            assert_eq!(substitute(byte), plain::substitution::by_rule(byte));
        }
    }

    #[test]
    fn every_entry_is_the_mix_of_a_single_byte() {
        for row in 0..4 {
            for byte in 0..=255 {
                let mut column = [0; 4];
                column[row] = plain::substitution::by_rule(byte);
                let entry = TABLES[row][usize::from(byte)];
                assert_eq!(entry.to_le_bytes(), plain::field::mix(column));
            }
        }
    }
}
