//! The field of bytes: FIPS 197, section 4, with the Rijndael polynomial
//! x^8 + x^4 + x^3 + x + 1 that the paper's section 3.3 names.

/// A byte times x: a shift by one place, with 1b xored in where the top bit
/// was set. FIPS 197, section 4.2.1.
#[inline]
pub fn double(byte: u8) -> u8 {
    (byte << 1) ^ (if byte & 0x80 != 0 { 0x1b } else { 0 })
}

/// The product of two bytes in the field. FIPS 197, section 4.2.
pub fn multiply(left: u8, right: u8) -> u8 {
    let mut product = 0;
    let mut power = left;
    for bit in 0..8 {
        if (right >> bit) & 1 == 1 {
            product ^= power;
        }
        power = double(power);
    }
    product
}

/// The byte whose product with `byte` is 1, found by trying all; 0 for 0.
pub fn inverse(byte: u8) -> u8 {
    (0..=255)
        .find(|&other| multiply(byte, other) == 1)
        .unwrap_or(0)
}

/// A column times the matrix with rows 02 03 01 01, 01 02 03 01, 01 01 02 03,
/// 03 01 01 02. FIPS 197, section 5.1.3; the paper's section 3.3.
///
/// 02 a + 03 b + c + d is a + (a + b + c + d) + 02 (a + b), and so on around.
#[inline]
pub fn mix([a, b, c, d]: [u8; 4]) -> [u8; 4] {
    let all = a ^ b ^ c ^ d;
    [
        a ^ all ^ double(a ^ b),
        b ^ all ^ double(b ^ c),
        c ^ all ^ double(c ^ d),
        d ^ all ^ double(d ^ a),
    ]
}

/// The way back of [`mix`]: the matrix with first row 0e 0b 0d 09, each
/// further row the one above turned right by one place. FIPS 197, section 5.3.3.
///
/// That matrix is the one of [`mix`] times the one with first row 05 00 04 00.
#[inline]
pub fn mix_back([a, b, c, d]: [u8; 4]) -> [u8; 4] {
    let even = double(double(a ^ c));
    let odd = double(double(b ^ d));
    mix([a ^ even, b ^ odd, c ^ even, d ^ odd])
}

#[cfg(test)]
mod tests {
    use super::*;

    /// A column times a matrix whose first row is given and whose further rows
    /// are that row turned right, with the general product and no shortcut.
    fn by_matrix(first_row: [u8; 4], column: [u8; 4]) -> [u8; 4] {
        std::array::from_fn(|row| {
            (0..4).fold(0, |sum, place| {
                sum ^ multiply(first_row[(place + 4 - row) % 4], column[place])
            })
        })
    }

    #[test]
    fn doubling_as_in_the_marked_examples() {
        assert_eq!(double(0x80), 0x1b);
        assert_eq!(double(0x57), 0xae);
    }

    #[test]
    fn product_of_fips_197_section_4_2() {
        assert_eq!(multiply(0x57, 0x83), 0xc1);
        assert_eq!(multiply(0x57, 0x13), 0xfe);
    }

    #[test]
    fn every_byte_but_0_has_an_inverse() {
        assert_eq!(inverse(0), 0);
        assert!((1..=255).all(|byte| multiply(byte, inverse(byte)) == 1));
    }

    #[test]
    fn mix_as_in_the_marked_example() {
        assert_eq!(mix([0xdb, 0x13, 0x53, 0x45]), [0x8e, 0x4d, 0xa1, 0xbc]);
        assert_eq!(mix_back([0x8e, 0x4d, 0xa1, 0xbc]), [0xdb, 0x13, 0x53, 0x45]);
    }

    #[test]
    fn both_mixes_are_their_matrices() {
        // The mixes are linear, so columns with one byte set decide them.
        for place in 0..4 {
            for byte in 0..=255 {
                let mut column = [0; 4];
                column[place] = byte;
                assert_eq!(mix(column), by_matrix([2, 3, 1, 1], column));
                assert_eq!(mix_back(column), by_matrix([14, 11, 13, 9], column));
                assert_eq!(mix_back(mix(column)), column);
            }
        }
    }
}
