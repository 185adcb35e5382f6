//! Numbers and bytes that look random and are the same on every run and every
//! machine: splitmix64.

#![forbid(unsafe_code)]

/// A generator at some point of its sequence.
pub struct Generator(u64);

impl Generator {
    /// The generator of a seed. Cases of one purpose take a seed of their own, so
    /// that a case added there leaves all others as they are.
    pub fn new(seed: u64) -> Generator {
        Generator(seed)
    }

    /// The next number.
    pub fn number(&mut self) -> u64 {
        self.0 = self.0.wrapping_add(0x9e37_79b9_7f4a_7c15);
        let mut z = self.0;
        z = (z ^ (z >> 30)).wrapping_mul(0xbf58_476d_1ce4_e5b9);
        z = (z ^ (z >> 27)).wrapping_mul(0x94d0_49bb_1331_11eb);
        z ^ (z >> 31)
    }

    /// The next number below a bound.
    pub fn below(&mut self, bound: u64) -> u64 {
        self.number() % bound
    }

    /// The next bytes.
    pub fn bytes<const N: usize>(&mut self) -> [u8; N] {
        let mut bytes = [0; N];
        self.fill(&mut bytes);
        bytes
    }

    /// The next bytes, as many as asked for.
    pub fn vector(&mut self, length: usize) -> Vec<u8> {
        let mut bytes = vec![0; length];
        self.fill(&mut bytes);
        bytes
    }

    /// One of some things.
    pub fn pick<T: Copy>(&mut self, from: &[T]) -> T {
        from[self.below(from.len() as u64) as usize]
    }

    /// Each number gives eight bytes, the last one as many as are wanted.
    fn fill(&mut self, bytes: &mut [u8]) {
        for piece in bytes.chunks_mut(8) {
            piece.copy_from_slice(&self.number().to_le_bytes()[..piece.len()]);
        }
    }
}

#[cfg(test)]
mod tests {
    use super::*;

    #[test]
    fn first_numbers_of_splitmix64() {
        let mut generator = Generator::new(1234567);
        assert_eq!(generator.number(), 6457827717110365317);
        assert_eq!(generator.number(), 3203168211198807973);
        assert_eq!(generator.number(), 9817491932198370423);
    }

    #[test]
    fn bytes_are_the_numbers_in_order() {
        let bytes: [u8; 11] = Generator::new(5).bytes();
        let mut again = Generator::new(5);
        assert_eq!(bytes[..8], again.number().to_le_bytes());
        assert_eq!(bytes[8..], again.number().to_le_bytes()[..3]);
        assert_eq!(Generator::new(5).vector(11), bytes);
    }

    #[test]
    fn everything_is_picked_sooner_or_later() {
        let mut generator = Generator::new(6);
        let picked: Vec<u8> = (0..100).map(|_| generator.pick(&[3, 5, 8])).collect();
        assert!([3, 5, 8].iter().all(|thing| picked.contains(thing)));
    }
}
