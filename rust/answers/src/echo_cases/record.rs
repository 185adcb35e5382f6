//! One case of `echo_cases`: its record, of 545 bytes or of 553, and the line it has
//! to give.

use plain::mode::{Mode, MODES};
use plain::{checked, hex};
use seeded::Generator;

/// Bytes of a record, and of the upper half of a counter that follows where the kind
/// is wide.
pub const RECORD: usize = 545;
pub const UPPER_HALF: usize = 8;

/// Bytes of the room of a block, and those of them that the cases' own generator
/// fills.
pub const BLOCK_ROOM: usize = 240;
const DRAWN: usize = 208;

/// What a case asks for; the numbers stand in the record.
#[derive(Debug, Clone, Copy, PartialEq, Eq)]
pub enum Kind {
    /// Rounds forward over a square.
    Rounds = 1,
    /// Rounds backward over a square.
    RoundsBack = 2,
    /// A block taken into a chaining value, in double-pipe.
    Compress = 3,
    /// Rounds forward over a square, by the library's path byte by byte.
    RoundsByBytes = 4,
    /// A block taken into a chaining value, in single-pipe.
    CompressSingle = 5,
    /// Rounds forward over a square, from a counter of 128 bits.
    RoundsWide = 6,
    /// Rounds backward over a square, likewise.
    RoundsBackWide = 7,
    /// A block taken into a chaining value in double-pipe, likewise.
    CompressWide = 8,
    /// The same in single-pipe.
    CompressSingleWide = 9,
}

impl Kind {
    /// Whether the counter has 128 bits.
    pub fn is_wide(self) -> bool {
        self as u8 >= Kind::RoundsWide as u8
    }

    /// The kind that does the same from a counter of 128 bits, if there is one.
    pub fn widened(self) -> Option<Kind> {
        match self {
            Kind::Rounds => Some(Kind::RoundsWide),
            Kind::RoundsBack => Some(Kind::RoundsBackWide),
            Kind::Compress => Some(Kind::CompressWide),
            Kind::CompressSingle => Some(Kind::CompressSingleWide),
            _ => None,
        }
    }
}

/// A case: buffers with room to spare, and how much of each is handed over.
#[derive(Clone)]
pub struct Case {
    pub kind: Kind,
    /// Bytes of the salt that are handed over.
    pub salt_length: u8,
    /// The round count; of no use to a compression.
    pub count: u8,
    /// Bytes of `a` that are handed over.
    pub a_length: u16,
    /// Bytes of `b` that are handed over; of no use to rounds.
    pub b_length: u16,
    /// The starting counter, or the lower half of a wide one.
    pub counter: u64,
    /// The upper half of a wide counter; in no record of another kind.
    pub upper: u64,
    pub salt: [u8; 18],
    /// The square or the chaining value.
    pub a: [u8; 272],
    /// The block.
    pub b: [u8; BLOCK_ROOM],
}

impl Case {
    /// Rounds over a square, with everything else from the generator.
    pub fn on_square(generator: &mut Generator, kind: Kind, count: u8, counter: u64) -> Case {
        let b_length = generator.below(209) as u16;
        Case::filled(generator, kind, count, 256, b_length, counter)
    }

    /// A compression, with everything else from the generator.
    pub fn compress(
        generator: &mut Generator,
        kind: Kind,
        chaining: u16,
        block: u16,
        counter: u64,
    ) -> Case {
        let count = generator.below(256) as u8;
        Case::filled(generator, kind, count, chaining, block, counter)
    }

    fn filled(
        generator: &mut Generator,
        kind: Kind,
        count: u8,
        a_length: u16,
        b_length: u16,
        counter: u64,
    ) -> Case {
        Case {
            kind,
            salt_length: 16,
            count,
            a_length,
            b_length,
            counter,
            upper: 0,
            salt: generator.bytes(),
            a: generator.bytes(),
            b: block_room(generator),
        }
    }

    /// The record. Numbers have their least significant byte first.
    pub fn record(&self) -> Vec<u8> {
        let mut record = Vec::with_capacity(RECORD + UPPER_HALF);
        record.extend([self.kind as u8, self.salt_length, self.count]);
        record.extend(self.a_length.to_le_bytes());
        record.extend(self.b_length.to_le_bytes());
        record.extend(self.counter.to_le_bytes());
        record.extend(self.salt);
        record.extend(self.a);
        record.extend(self.b);
        if self.kind.is_wide() {
            record.extend(self.upper.to_le_bytes());
        }
        record
    }

    /// Both halves of the counter.
    pub fn wide_counter(&self) -> u128 {
        u128::from(self.upper) << 64 | u128::from(self.counter)
    }

    /// The refusal number, or 0, and all of `a` afterwards.
    pub fn answer(&self) -> (u8, [u8; 272]) {
        let mut a = self.a;
        let lent = &mut a[..self.a_length as usize];
        let block = &self.b[..self.b_length as usize];
        let salt = &self.salt[..self.salt_length as usize];
        let (count, wide) = (u64::from(self.count), self.wide_counter());
        let [double, single] = MODES.map(Mode::number);
        let number = match self.kind {
            Kind::Rounds | Kind::RoundsByBytes => checked::rounds(lent, count, self.counter, salt),
            Kind::RoundsBack => checked::rounds_back(lent, count, self.counter, salt),
            Kind::Compress => checked::compress(lent, block, self.counter, salt),
            Kind::CompressSingle => checked::compress_in(single, lent, block, self.counter, salt),
            Kind::RoundsWide => checked::rounds_wide(lent, count, wide, salt),
            Kind::RoundsBackWide => checked::rounds_back_wide(lent, count, wide, salt),
            Kind::CompressWide => checked::compress_wide(double, lent, block, wide, salt),
            Kind::CompressSingleWide => checked::compress_wide(single, lent, block, wide, salt),
        };
        (number, a)
    }

    /// The line that the program has to print for the record.
    pub fn line(&self) -> String {
        let (number, a) = self.answer();
        format!("{number} {}\n", hex::encode(&a))
    }
}

/// The room of a block. Its end comes from a generator that its front decides, so
/// that a longer room leaves all that is drawn behind it as it is.
fn block_room(generator: &mut Generator) -> [u8; BLOCK_ROOM] {
    let drawn: [u8; DRAWN] = generator.bytes();
    let seed = drawn[..8].try_into().expect("8 bytes");
    let end: [u8; BLOCK_ROOM - DRAWN] = Generator::new(u64::from_le_bytes(seed)).bytes();
    let mut room = [0; BLOCK_ROOM];
    room[..DRAWN].copy_from_slice(&drawn);
    room[DRAWN..].copy_from_slice(&end);
    room
}
