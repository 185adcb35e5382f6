//! Refusal numbers and the limits they guard. Where several apply, the lowest
//! is given; 9 and 10 are decided by the record nearer the front.

/// No refusal: the call did its work.
pub const NONE: u8 = 0;
/// The digest length is not admitted.
pub const DIGEST_LENGTH: u8 = 1;
/// The salt is not 16 bytes.
pub const SALT: u8 = 2;
/// The record handed over is no session, or no tag session.
pub const SESSION: u8 = 3;
/// The message is over [`BIT_LIMIT`], which is [`MESSAGE_LIMIT`] for whole bytes, or
/// a key is, or a key's block and the message together.
pub const MESSAGE: u8 = 4;
/// The room for the output is too small, or that from the place on for a record.
pub const ROOM: u8 = 5;
/// A number of no mode, sizes of no family of the mode, no square, a round count
/// of no family, a reading place past the table's end, or other bytes than those
/// that hold so many bits.
pub const SHAPE: u8 = 6;
/// The starting counter is over [`COUNTER_LIMIT`], where it is taken in 64 bits.
pub const COUNTER: u8 = 7;
/// The table is over [`TABLE_LIMIT`].
pub const TABLE: u8 = 8;
/// A kind byte that no record has.
pub const KIND: u8 = 9;
/// A record cut short by the table's end, or a body that is not as long as its kind's.
pub const CUT_SHORT: u8 = 10;
/// A node's address that six bytes don't hold.
pub const ADDRESS: u8 = 12;
/// A piece that is not empty, behind a part of a byte.
pub const PART_BYTE: u8 = 16;
/// A bit is set behind the last one that is used.
pub const SET_BITS: u8 = 17;
/// The tag is not the message's.
pub const TAG: u8 = 19;

/// The most bits of a message. From 2^64 - 160 on, the paper's section 3.1 asks for the
/// longer counter.
pub const BIT_LIMIT: u64 = u64::MAX - 160;
/// The most bytes of a message of whole bytes.
pub const MESSAGE_LIMIT: u64 = (1 << 61) - 21;
/// The highest starting counter that is taken in 64 bits: the last of ten rounds'
/// 160 words then uses 2^64 - 2, and the counter never leaves them.
pub const COUNTER_LIMIT: u64 = u64::MAX - 160;
/// The most bytes of a table.
pub const TABLE_LIMIT: usize = 4096;

#[cfg(test)]
mod tests {
    use super::*;

    #[test]
    fn limits_in_powers_of_two() {
        let whole = 1u128 << 64;
        assert_eq!(u128::from(COUNTER_LIMIT), whole - 161);
        assert_eq!(u128::from(BIT_LIMIT), whole - 161);
        assert_eq!(MESSAGE_LIMIT, BIT_LIMIT / 8);
        assert_eq!(8 * (u128::from(MESSAGE_LIMIT) + 1), whole - 160);
    }
}
