//! One case of `tag_cases`: its record, a header of 40 bytes and for some tasks a
//! tag session and a room behind it, and the line it has to give.

use super::units::{in_bits, in_bytes};
use crate::patterned::patterned;
use crate::session_cases::record::{bytes, fields};
use plain::tag_session::{TagSession, BLANK};
use plain::{checked, hex, refusal};
use seeded::Generator;

/// Bytes of a record's header.
pub const HEADER: usize = 40;

/// Bytes of the room for a piece, the output or a tag.
pub const ROOM: usize = 255;

/// The most bytes of a key, and of a message.
pub const MOST: u16 = 1024;

/// What is asked for.
#[derive(Debug, Clone, Copy, PartialEq, Eq)]
pub enum Task {
    /// The tag of a whole message, and two checks of it.
    Whole,
    /// Opens a tag session.
    Open,
    /// Adds a piece.
    Add,
    /// Reads the tag.
    Read,
    IsSession,
    /// Checks a tag.
    Check,
}

/// A case: all that a task may be handed over. What it has no use for is filled
/// too, within the bounds of the field.
#[derive(Clone)]
pub struct Case {
    pub task: Task,
    /// Whether the line tells the mode and all of the waiting room of each session
    /// that was handed over.
    pub with_mode: bool,
    /// Whether the two sessions that are handed over count bits, and else bytes.
    pub in_bits: bool,
    /// Bytes of the piece, the output room or the tag that are handed over.
    pub length: u8,
    /// The digest length.
    pub bits: u64,
    /// Bytes of the key.
    pub key_length: u16,
    /// Bytes of the message.
    pub message_length: u16,
    /// Bytes of each piece that a tag session is given, or 0 for a tag at once.
    pub piece: u16,
    /// The key's first byte.
    pub key_seed: u8,
    /// The message's first byte.
    pub message_seed: u8,
    /// Bytes of the salt that are handed over.
    pub salt_length: u8,
    pub salt: [u8; 16],
    /// What a record holds behind its header, if its task is asked of it.
    pub on: Option<On>,
}

/// A record that may be a tag session, and the room beside it.
#[derive(Clone)]
pub struct On {
    /// It counts as the case says.
    pub session: TagSession,
    pub room: [u8; ROOM],
}

/// What is handed back.
pub struct Answer {
    /// The refusal number, or 0.
    pub number: u8,
    /// What a check says.
    pub yes: bool,
    pub session: TagSession,
    /// The room afterwards.
    pub room: [u8; ROOM],
}

impl Case {
    /// A case with a key, and everything else from the generator, but for a salt
    /// that is handed over whole.
    pub fn keyed(generator: &mut Generator, task: Task, bits: u64, key_length: u16) -> Case {
        Case {
            task,
            bits,
            key_length,
            salt_length: 16,
            ..Case::filled(generator)
        }
    }

    /// A case on a tag session, with a room from the generator.
    pub fn on(generator: &mut Generator, task: Task, length: u8, session: TagSession) -> Case {
        let room = generator.bytes();
        Case {
            task,
            length,
            on: Some(On { session, room }),
            ..Case::filled(generator)
        }
    }

    /// A case that checks these bytes.
    pub fn check(generator: &mut Generator, session: TagSession, tag: &[u8]) -> Case {
        let mut case = Case::on(generator, Task::Check, tag.len() as u8, session);
        case.on_mut().room[..tag.len()].copy_from_slice(tag);
        case
    }

    /// Any case, each number within its bounds.
    fn filled(generator: &mut Generator) -> Case {
        Case {
            task: Task::Whole,
            with_mode: false,
            in_bits: false,
            length: generator.below(256) as u8,
            bits: 128 + 8 * generator.below(49),
            key_length: generator.below(u64::from(MOST) + 1) as u16,
            message_length: generator.below(u64::from(MOST) + 1) as u16,
            piece: generator.below(256) as u16,
            key_seed: generator.below(256) as u8,
            message_seed: generator.below(256) as u8,
            salt_length: generator.below(17) as u8,
            salt: generator.bytes(),
            on: None,
        }
    }

    /// The number of the task in the record.
    fn number(&self) -> u8 {
        match (self.task, self.with_mode, self.in_bits) {
            (Task::Whole, _, _) => 1,
            (Task::Open, _, _) => 2,
            (Task::Add, false, _) => 3,
            (Task::Read, false, _) => 4,
            (Task::IsSession, _, false) => 5,
            (Task::Check, false, _) => 6,
            (Task::Add, true, false) => 7,
            (Task::Read, true, false) => 8,
            (Task::Check, true, false) => 9,
            (Task::Add, true, true) => 10,
            (Task::Read, true, true) => 11,
            (Task::IsSession, _, true) => 12,
            (Task::Check, true, true) => 13,
        }
    }

    /// What stands behind the header of a case on a tag session.
    pub fn on_mut(&mut self) -> &mut On {
        self.on.as_mut().expect("a case on a tag session")
    }

    /// The record. Numbers have their least significant byte first.
    pub fn record(&self) -> Vec<u8> {
        let mut record = Vec::with_capacity(HEADER);
        record.extend([self.number(), self.length]);
        record.extend(self.bits.to_le_bytes());
        for number in [self.key_length, self.message_length, self.piece] {
            record.extend(number.to_le_bytes());
        }
        record.extend([self.key_seed, self.message_seed, self.salt_length]);
        record.extend([0; 5]);
        record.extend(self.salt);
        if let Some(On { session, room }) = &self.on {
            record.extend(bytes(&session.inner));
            record.extend(bytes(&session.outer));
            record.extend(room);
        }
        record
    }

    pub fn key(&self) -> Vec<u8> {
        patterned(self.key_seed, self.key_length)
    }

    pub fn message(&self) -> Vec<u8> {
        patterned(self.message_seed, self.message_length)
    }

    /// The tag of the whole message, or the refusal number. The pieces make no
    /// difference to it.
    pub fn tag(&self) -> Result<Vec<u8>, u8> {
        let mut room = [0; 64];
        match checked::hmac(
            self.bits,
            self.lent_salt(),
            &self.key(),
            &self.message(),
            &mut room,
        ) {
            refusal::NONE => Ok(room[..self.bits as usize / 8].to_vec()),
            number => Err(number),
        }
    }

    /// What a check of the whole message says of a tag.
    fn says(&self, tag: &[u8]) -> &'static str {
        let (key, message) = (self.key(), self.message());
        yes_or_no(checked::hmac_check(self.bits, self.lent_salt(), &key, &message, tag).1)
    }

    fn lent_salt(&self) -> &[u8] {
        &self.salt[..usize::from(self.salt_length)]
    }

    /// All that a task on a tag session hands back, and an opening. The question
    /// whether it is a tag session is answered by [`line`](Case::line) alone.
    pub fn answer(&self) -> Answer {
        let length = usize::from(self.length);
        let (came, room) = match &self.on {
            Some(on) => (on.session.clone(), on.room),
            None => (BLANK, [0; ROOM]),
        };
        let counted = self.counted(&came);
        let mut answer = Answer {
            number: 0,
            yes: false,
            session: counted.clone(),
            room,
        };
        let lent = &mut answer.room[..length];
        match self.task {
            Task::Whole | Task::IsSession => {}
            Task::Open => {
                let opened = TagSession::open(self.bits, self.lent_salt(), &self.key());
                (answer.number, answer.session) = opened;
            }
            Task::Add => answer.number = answer.session.add(lent),
            Task::Read => answer.number = answer.session.read(lent),
            Task::Check => (answer.number, answer.yes) = answer.session.check(lent),
        }
        answer.session = match self.in_bits {
            _ if answer.session == counted => came,
            true => answer.session,
            false => in_bytes(&answer.session),
        };
        answer
    }

    /// A record of this case, in bits.
    fn counted(&self, session: &TagSession) -> TagSession {
        match self.in_bits {
            true => session.clone(),
            false => in_bits(session),
        }
    }

    /// The line that the program has to print for the record.
    pub fn line(&self) -> String {
        let answer = self.answer();
        let with_mode = self.with_mode && self.task != Task::Open;
        let (number, session) = (answer.number, both(&answer.session, with_mode));
        match self.task {
            Task::Whole => self.whole_line(),
            Task::Open | Task::Add => format!("{number} {session}\n"),
            Task::Read => {
                let lent = &answer.room[..usize::from(self.length)];
                format!("{number} {session} {}\n", hex::encode(lent))
            }
            Task::IsSession => {
                let yes = self.counted(&answer.session).is_session();
                format!("{}\n", yes_or_no(yes))
            }
            Task::Check => format!("{number} {} {session}\n", yes_or_no(answer.yes)),
        }
    }

    /// The tag, what a check says of it, and of the same with its very last bit
    /// changed.
    fn whole_line(&self) -> String {
        let right = match self.tag() {
            Ok(tag) => tag,
            Err(number) => return format!("refused {number}\n"),
        };
        let mut wrong = right.clone();
        *wrong.last_mut().expect("a byte") ^= 1;
        let said = [self.says(&right), self.says(&wrong)].join(" ");
        format!("{} {said}\n", hex::encode(&right))
    }
}

fn yes_or_no(yes: bool) -> &'static str {
    match yes {
        true => "yes",
        false => "no",
    }
}

/// The fields of a tag session: ten, or with the modes twelve.
fn both(session: &TagSession, with_mode: bool) -> String {
    [&session.inner, &session.outer]
        .map(|session| fields(session, with_mode))
        .join(" ")
}
