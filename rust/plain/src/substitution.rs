//! The substitution of bytes: FIPS 197, section 5.1.1, and its way back,
//! section 5.3.2. The table is worked out from the rule, once, on first use.

use crate::field;
use std::sync::OnceLock;

/// The substitution and its way back, an entry for each byte.
pub struct Tables {
    /// The substitution.
    pub forward: [u8; 256],
    /// Its way back.
    pub backward: [u8; 256],
}

/// The tables, worked out when first asked for.
pub fn tables() -> &'static Tables {
    static TABLES: OnceLock<Tables> = OnceLock::new();
    TABLES.get_or_init(|| {
        let mut tables = Tables {
            forward: [0; 256],
            backward: [0; 256],
        };
        for byte in 0..=255 {
            let image = by_rule(byte);
            tables.forward[byte as usize] = image;
            tables.backward[image as usize] = byte;
        }
        tables
    })
}

/// The rule: the field inverse, then bit i xored with bits i + 4, i + 5, i + 6
/// and i + 7 (mod 8) of the inverse and with bit i of 63.
pub fn by_rule(byte: u8) -> u8 {
    let inverse = field::inverse(byte);
    (0..8).fold(0, |image, i| {
        let bit = [0, 4, 5, 6, 7]
            .iter()
            .fold(0x63 >> i, |sum, step| sum ^ (inverse >> ((i + step) % 8)));
        image | (bit & 1) << i
    })
}

#[cfg(test)]
mod tests {
    use super::*;

    #[test]
    fn as_in_the_marked_examples() {
        assert_eq!(tables().forward[0x00], 0x63);
        assert_eq!(tables().forward[0x53], 0xed);
    }

    #[test]
    fn corners_of_figure_7_of_fips_197() {
        let forward = &tables().forward;
        assert_eq!(forward[..4], [0x63, 0x7c, 0x77, 0x7b]);
        assert_eq!(forward[0x0f], 0x76);
        assert_eq!(forward[0xf0], 0x8c);
        assert_eq!(forward[252..], [0xb0, 0x54, 0xbb, 0x16]);
    }

    #[test]
    fn backward_undoes_forward() {
        let tables = tables();
        for byte in 0..=255u8 {
            let image = tables.forward[byte as usize];
            assert_eq!(tables.backward[image as usize], byte);
        }
    }
}
