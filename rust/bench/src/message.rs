//! What is digested: random bytes, and images such as a machine holds, since an
//! implementation's time may depend on the bytes.

use seeded::Generator;
use std::{env, fmt, fs};

#[derive(Clone, Copy)]
pub enum Kind {
    Random,
    Zeros,
    /// Code and text: those of this program itself.
    Firmware,
}

impl fmt::Display for Kind {
    fn fmt(&self, formatter: &mut fmt::Formatter) -> fmt::Result {
        formatter.pad(match self {
            Kind::Random => "random",
            Kind::Zeros => "zeros",
            Kind::Firmware => "firmware",
        })
    }
}

/// Sizes and kinds of the messages.
pub const MESSAGES: [(usize, Kind); 8] = [
    (64, Kind::Random),
    (4096, Kind::Random),
    (64 << 10, Kind::Random),
    (64 << 10, Kind::Zeros),
    (64 << 10, Kind::Firmware),
    (1 << 20, Kind::Random),
    (1 << 20, Kind::Zeros),
    (1 << 20, Kind::Firmware),
];

/// The bytes of a message. A program that is too short is repeated.
pub fn bytes(size: usize, kind: Kind) -> Vec<u8> {
    match kind {
        Kind::Random => Generator::new(size as u64).vector(size),
        Kind::Zeros => vec![0; size],
        Kind::Firmware => program().into_iter().cycle().take(size).collect(),
    }
}

fn program() -> Vec<u8> {
    env::current_exe()
        .and_then(fs::read)
        .expect("a program that can read itself")
}
