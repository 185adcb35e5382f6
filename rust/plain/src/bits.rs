//! Bytes as bits. The most significant bit of a byte comes first.

/// The bit at a place.
pub fn at(bytes: &[u8], place: u64) -> bool {
    let byte = bytes[(place / 8) as usize];
    byte >> (7 - place % 8) & 1 == 1
}

/// The first `count` bits of bytes.
pub fn of_bytes(bytes: &[u8], count: u64) -> Vec<bool> {
    (0..count).map(|place| at(bytes, place)).collect()
}

/// The bytes of bits that are whole ones.
pub fn to_bytes(bits: &[bool]) -> Vec<u8> {
    assert!(bits.len().is_multiple_of(8), "bits that fill no byte");
    let byte = |bits: &[bool]| bits.iter().fold(0, |byte, bit| byte << 1 | u8::from(*bit));
    bits.chunks(8).map(byte).collect()
}

/// Whether no bit is set behind the first `count`.
pub fn zero_behind(bytes: &[u8], count: u64) -> bool {
    (count..8 * bytes.len() as u64).all(|place| !at(bytes, place))
}

#[cfg(test)]
mod tests {
    use super::*;

    #[test]
    fn the_most_significant_bit_comes_first() {
        let bits = of_bytes(&[0x80, 0x53], 16);
        let set: Vec<usize> = (0..16).filter(|place| bits[*place]).collect();
        assert_eq!(set, [0, 9, 11, 14, 15]);
    }

    #[test]
    fn there_and_back() {
        let bytes: Vec<u8> = (0..=255).collect();
        assert_eq!(to_bytes(&of_bytes(&bytes, 2048)), bytes);
        assert_eq!(of_bytes(&[0xff, 0xfe], 15), [true; 15]);
        assert_eq!(of_bytes(&[0xff], 0), [false; 0]);
        assert_eq!(to_bytes(&[]), []);
    }

    #[test]
    #[should_panic(expected = "bits that fill no byte")]
    fn a_part_of_a_byte_is_none() {
        to_bytes(&[true; 9]);
    }

    #[test]
    fn a_set_bit_is_seen_behind_the_first_ones_alone() {
        for place in 0..24 {
            let mut bytes = [0; 3];
            bytes[place / 8] = 0x80 >> (place % 8);
            for count in 0..=24 {
                assert_eq!(zero_behind(&bytes, count), (place as u64) < count);
            }
        }
        assert!(zero_behind(&[], 0));
    }
}
