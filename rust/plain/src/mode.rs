//! The two modes: ECHO itself, and the single-pipe one of the paper's section 5.

/// How much longer than the digest the chaining value is.
#[derive(Debug, Clone, Copy, PartialEq, Eq, Hash)]
pub enum Mode {
    /// At least twice as long: the paper's sections 2 to 4.
    DoublePipe = 0,
    /// At least as long, which leaves more of the square to the block: section 5,
    /// where it is called ECHO-SP.
    SinglePipe = 1,
}

/// Both, in the order of their numbers.
pub const MODES: [Mode; 2] = [Mode::DoublePipe, Mode::SinglePipe];

impl Mode {
    pub fn number(self) -> u8 {
        self as u8
    }

    /// The mode of a number, if there is one.
    pub fn of_number(number: u8) -> Option<Mode> {
        MODES.into_iter().find(|mode| mode.number() == number)
    }
}

#[cfg(test)]
mod tests {
    use super::*;

    #[test]
    fn two_numbers_have_a_mode() {
        assert_eq!(Mode::of_number(0), Some(Mode::DoublePipe));
        assert_eq!(Mode::of_number(1), Some(Mode::SinglePipe));
        for number in 2..=255 {
            assert_eq!(Mode::of_number(number), None);
        }
    }
}
