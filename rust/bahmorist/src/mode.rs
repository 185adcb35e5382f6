//! The two modes of a digest.

/// How long chaining value and block are. The functions that take no mode are
/// double-pipe.
///
/// ```
/// use bahmorist::Mode;
///
/// assert_eq!(Mode::DoublePipe.number(), 0);
/// assert_eq!(Mode::SinglePipe.number(), 1);
/// assert_eq!(Mode::default(), Mode::DoublePipe);
/// ```
#[derive(Debug, Clone, Copy, PartialEq, Eq, Hash, Default)]
#[repr(u8)]
pub enum Mode {
    /// ECHO itself: 64 bytes of chaining value and blocks of 192 up to 256 bits,
    /// and 128 and 128 above.
    #[default]
    DoublePipe = 0,
    /// Section 5 of the paper, with half of the chaining value and longer blocks,
    /// for less state and less time: 32 bytes and 224 up to 256 bits, and 64 and
    /// 192 above.
    SinglePipe = 1,
}

impl Mode {
    /// The number that the C functions take.
    pub fn number(self) -> u8 {
        self as u8
    }
}
