//! Why a call was refused.

use core::error::Error;
use core::fmt::{self, Display, Formatter};

/// Why a call was refused. Where several apply, the lowest number is given, but
/// between 9 and 10 that of the record nearer the table's front.
///
/// ```
/// use bahmorist::Refusal;
///
/// assert_eq!(Refusal::Salt.number(), 2);
/// assert_eq!(Refusal::from_number(2), Some(Refusal::Salt));
/// assert_eq!(Refusal::try_from(2), Ok(Refusal::Salt));
/// assert_eq!(u8::from(Refusal::Salt), 2);
/// assert_eq!(Refusal::Salt.to_string(), "the salt is not 16 bytes");
/// ```
///
/// More may come with a later version, so a `match` has an arm for the others:
///
/// ```compile_fail
/// fn is_salt(refusal: bahmorist::Refusal) -> bool {
///     use bahmorist::Refusal::*;
///     match refusal {
///         Salt => true,
///         DigestLength | Session | Message | Room | Shape | Counter => false,
///         Table | Kind | CutShort | Address | SetBits | Tag => false,
///     }
/// }
/// ```
#[derive(Debug, Clone, Copy, PartialEq, Eq, Hash)]
#[non_exhaustive]
#[repr(u8)]
pub enum Refusal {
    /// The digest length is not a multiple of 8 from 128 to 512.
    DigestLength = 1,
    /// The salt is not 16 bytes.
    Salt = 2,
    /// The record is no session. Nothing here takes a session, so this is never
    /// given here.
    Session = 3,
    /// The message is over 2^64 - 161 bits, which is over 2^61 - 21 whole bytes, or a
    /// key is, or the key's block, of 192 or 128 bytes, and the message together.
    Message = 4,
    /// The output room is smaller than what goes there, or the room from the place on
    /// than the record.
    Room = 5,
    /// Chaining and block sizes are not those of the mode, which are 64 and 192 or
    /// 128 and 128 in double-pipe, and 32 and 224 or 64 and 192 in single-pipe; the
    /// square is not 256 bytes; the round count is not 8 or 10; the message is not as
    /// many bytes as its bits over 8, rounded up; or the reading place is past the
    /// table's end. The C functions give it for a mode other than 0 and 1 too.
    Shape = 6,
    /// The starting counter is above 2^64 - 161. The functions that take it in 128
    /// bits never give this.
    Counter = 7,
    /// The table is over 4,096 bytes.
    Table = 8,
    /// A kind byte that no record has.
    Kind = 9,
    /// A record cut short by the table's end, or a body that is not as long as its
    /// kind's.
    CutShort = 10,
    /// The address is 2^48 or more. Nothing here takes an address as a number, so this
    /// is never given here.
    Address = 12,
    /// A bit of the message's last byte is set behind the last one that is used.
    SetBits = 17,
    /// The tag is not the message's under this key, or not all of it.
    Tag = 19,
}

/// All of them, in the order of their numbers.
const ALL: [Refusal; 13] = [
    Refusal::DigestLength,
    Refusal::Salt,
    Refusal::Session,
    Refusal::Message,
    Refusal::Room,
    Refusal::Shape,
    Refusal::Counter,
    Refusal::Table,
    Refusal::Kind,
    Refusal::CutShort,
    Refusal::Address,
    Refusal::SetBits,
    Refusal::Tag,
];

impl Refusal {
    /// The number: 1 to 10, 12, 17 or 19.
    pub fn number(self) -> u8 {
        self as u8
    }

    /// The refusal of a number; none for 0, which is no refusal, for 11, which is
    /// unused and stays so, for 13 to 15 and 18, which are not in use, for 16, which is
    /// for sessions alone, and above 19.
    pub fn from_number(number: u8) -> Option<Refusal> {
        ALL.into_iter().find(|refusal| refusal.number() == number)
    }
}

impl Display for Refusal {
    fn fmt(&self, to: &mut Formatter) -> fmt::Result {
        to.write_str(match self {
            Refusal::DigestLength => "the digest length is not a multiple of 8 from 128 to 512",
            Refusal::Salt => "the salt is not 16 bytes",
            Refusal::Session => "the record is no session",
            Refusal::Message => {
                "the message, or a key, or key block and message together, is over 2^64 - 161 bits"
            }
            Refusal::Room => "the output room is too small",
            Refusal::Shape => {
                "no mode, sizes that are not the mode's, no square, a round count other than 8 and 10, or bytes that are not those of the bits"
            }
            Refusal::Counter => "the starting counter is above 2^64 - 161",
            Refusal::Table => "the table is over 4096 bytes",
            Refusal::Kind => "unknown kind byte",
            Refusal::CutShort => "record cut short",
            Refusal::Address => "the address is 2^48 or more",
            Refusal::SetBits => "a bit is set behind the last one of the message",
            Refusal::Tag => "the tag is not the message's",
        })
    }
}

impl Error for Refusal {}

impl From<Refusal> for u8 {
    fn from(refusal: Refusal) -> u8 {
        refusal.number()
    }
}

/// A number that is no refusal's.
///
/// ```
/// use bahmorist::{NoRefusal, Refusal};
///
/// assert_eq!(Refusal::try_from(11), Err(NoRefusal(11)));
/// assert_eq!(NoRefusal(11).to_string(), "11 is the number of no refusal");
/// ```
#[derive(Debug, Clone, Copy, PartialEq, Eq, Hash)]
pub struct NoRefusal(pub u8);

impl TryFrom<u8> for Refusal {
    type Error = NoRefusal;

    fn try_from(number: u8) -> Result<Refusal, NoRefusal> {
        Refusal::from_number(number).ok_or(NoRefusal(number))
    }
}

impl Display for NoRefusal {
    fn fmt(&self, to: &mut Formatter) -> fmt::Result {
        write!(to, "{} is the number of no refusal", self.0)
    }
}

impl Error for NoRefusal {}

/// Why a table was refused, and where.
///
/// ```
/// use bahmorist::{Refusal, RefusedTable};
///
/// let refused = RefusedTable { refusal: Refusal::CutShort, place: 7 };
/// assert_eq!(refused.to_string(), "record cut short, at place 7");
/// ```
#[derive(Debug, Clone, Copy, PartialEq, Eq, Hash)]
pub struct RefusedTable {
    /// Why.
    pub refusal: Refusal,
    /// The place of the record's kind byte, counted from the table's first byte,
    /// with [`Refusal::Kind`] and [`Refusal::CutShort`]; else 0.
    pub place: u64,
}

impl Display for RefusedTable {
    fn fmt(&self, to: &mut Formatter) -> fmt::Result {
        match self.refusal {
            Refusal::Kind | Refusal::CutShort => {
                write!(to, "{}, at place {}", self.refusal, self.place)
            }
            refusal => refusal.fmt(to),
        }
    }
}

/// It has no source: its text says already why, and a chain of errors would say it twice.
impl Error for RefusedTable {}

/// A refusal that has no place, so that one function may call [`digest`] and
/// [`fingerprint`] with `?`.
///
/// [`digest`]: crate::digest
/// [`fingerprint`]: crate::fingerprint
///
/// ```
/// use bahmorist::{digest, fingerprint, RefusedTable};
///
/// fn both(salt: &[u8], table: &[u8], out: &mut [u8]) -> Result<(), RefusedTable> {
///     fingerprint(salt, table, out)?;
///     digest(256, salt, table, out)?;
///     Ok(())
/// }
///
/// assert!(both(&[0; 16], b"", &mut [0; 32]).is_ok());
/// ```
impl From<Refusal> for RefusedTable {
    fn from(refusal: Refusal) -> RefusedTable {
        RefusedTable { refusal, place: 0 }
    }
}

#[cfg(test)]
mod tests {
    use super::*;
    use std::collections::HashSet;
    use std::string::{String, ToString};

    #[test]
    fn numbers_go_there_and_back() {
        for number in (1..=10).chain([12, 17, 19]) {
            let refusal = Refusal::from_number(number).unwrap();
            assert_eq!(refusal.number(), number);
            assert_eq!(Refusal::try_from(number), Ok(refusal));
            assert_eq!(u8::from(refusal), number);
        }
        for number in (13..=16).chain([0, 11, 18]).chain(20..=255) {
            assert_eq!(Refusal::from_number(number), None);
            assert_eq!(Refusal::try_from(number), Err(NoRefusal(number)));
        }
    }

    #[test]
    fn each_refusal_says_something_else() {
        let texts: HashSet<String> = ALL.iter().map(Refusal::to_string).collect();
        assert_eq!(texts.len(), ALL.len());
    }

    #[test]
    fn a_place_is_told_only_where_there_is_one() {
        for refusal in ALL {
            let text = RefusedTable { refusal, place: 0 }.to_string();
            let placed = matches!(refusal, Refusal::Kind | Refusal::CutShort);
            assert_eq!(text.ends_with(", at place 0"), placed);
        }
    }

    /// As those print an error who print all that stand behind it.
    #[test]
    fn a_chain_of_errors_says_a_refused_table_once() {
        for refusal in ALL {
            let refused = RefusedTable::from(refusal);
            assert_eq!(refused, RefusedTable { refusal, place: 0 });
            let mut chain = refused.to_string();
            let mut behind = refused.source();
            while let Some(error) = behind {
                chain += &error.to_string();
                behind = error.source();
            }
            assert_eq!(chain.matches(&refusal.to_string()).count(), 1);
        }
    }
}
