//! One case of `session_cases`: its record, of 642 bytes or in bits of 650, and the
//! line it has to give.

use super::units::{in_bits, in_bytes};
use plain::hex;
use plain::session::Session;
use seeded::Generator;

/// Bytes of a record.
pub const RECORD: usize = 642;

/// Bytes of a record in bits.
#[cfg(test)]
pub const RECORD_IN_BITS: usize = RECORD + 8;

/// Bytes of the room for a piece or the output.
pub const ROOM: usize = 255;

/// What is asked of a session.
#[derive(Debug, Clone, Copy, PartialEq, Eq)]
pub enum Task {
    /// Adds a piece of whole bytes.
    Add,
    /// Adds a piece of bits, which a record in bits alone is asked for.
    AddBits,
    /// Reads the digest.
    Read,
    IsSession,
    /// Opens another one, of the same mode, digest length and salt; a record in bits is
    /// not asked for that.
    Open,
}

/// A case: a record that may be a session, and what is handed over with it.
#[derive(Clone)]
pub struct Case {
    pub task: Task,
    /// Whether the line tells the mode and all of the waiting room too.
    pub with_mode: bool,
    /// The bit count of the piece, where the record is in bits; filled for every task.
    pub in_bits: Option<u64>,
    /// Bytes of the piece, the output room or the salt that are handed over.
    pub length: u8,
    /// It counts bits where the record does, and else bytes.
    pub session: Session,
    pub room: [u8; ROOM],
}

/// What is handed back.
pub struct Answer {
    /// The refusal number, or 0.
    pub number: u8,
    /// It counts as the record does.
    pub session: Session,
    /// The room afterwards.
    pub room: [u8; ROOM],
}

impl Case {
    /// A case with a room from the generator, whose line does not tell the mode.
    pub fn new(generator: &mut Generator, task: Task, length: u8, session: Session) -> Case {
        Case {
            task,
            with_mode: false,
            in_bits: None,
            length,
            session,
            room: generator.bytes(),
        }
    }

    /// A case in bits, with a bit count from the generator.
    pub fn in_bits(generator: &mut Generator, task: Task, length: u8, session: Session) -> Case {
        Case {
            with_mode: true,
            in_bits: Some(generator.number()),
            ..Case::new(generator, task, length, session)
        }
    }

    /// A case that adds a piece of so many bits, with zeros behind them in its last byte.
    pub fn piece(generator: &mut Generator, count: u64, session: Session) -> Case {
        let length = count.div_ceil(8);
        let mut case = Case::in_bits(generator, Task::AddBits, length as u8, session);
        case.in_bits = Some(count);
        if length > 0 {
            case.room[length as usize - 1] &= 0xff << (8 * length - count);
        }
        case
    }

    /// The record. Numbers have their least significant byte first.
    pub fn record(&self) -> Vec<u8> {
        let mut record = Vec::with_capacity(RECORD);
        record.extend([self.number(), self.length]);
        record.extend(bytes(&self.session));
        record.extend(self.room);
        record.extend(self.in_bits.iter().flat_map(|count| count.to_le_bytes()));
        record
    }

    /// The number of the task in the record.
    fn number(&self) -> u8 {
        match (self.task, self.with_mode, self.in_bits.is_some()) {
            (Task::Add, false, false) => 1,
            (Task::Read, false, false) => 2,
            (Task::IsSession, _, false) => 3,
            (Task::Open, false, false) => 4,
            (Task::Add, true, false) => 5,
            (Task::Read, true, false) => 6,
            (Task::Open, true, false) => 7,
            (Task::AddBits, true, true) => 8,
            (Task::Read, true, true) => 9,
            (Task::IsSession, true, true) => 10,
            (Task::Add, true, true) => 11,
            (task, ..) => panic!("no number is for {task:?} so"),
        }
    }

    /// All that the task hands back. The question whether it is a session is
    /// answered by [`line`](Case::line) alone.
    pub fn answer(&self) -> Answer {
        let length = usize::from(self.length);
        let mut room = self.room;
        let lent = &mut room[..length];
        let mut session = self.counted();
        let number = match self.task {
            Task::Add => session.add(lent),
            Task::AddBits => session.add_bits(lent, self.in_bits.expect("a bit count")),
            Task::Read => session.read(lent),
            Task::IsSession => 0,
            Task::Open => {
                let salt = &self.session.salt[..length.min(16)];
                let (number, opened) = Session::open(session.mode, session.bits, salt);
                session = opened;
                number
            }
        };
        let as_it_came = session == self.counted();
        let session = match self.in_bits {
            _ if as_it_came => self.session.clone(),
            Some(_) => session,
            None => in_bytes(&session),
        };
        Answer {
            number,
            session,
            room,
        }
    }

    /// The session, in bits.
    fn counted(&self) -> Session {
        match self.in_bits {
            Some(_) => self.session.clone(),
            None => in_bits(&self.session),
        }
    }

    /// The line that the program has to print for the record.
    pub fn line(&self) -> String {
        let answer = self.answer();
        let (number, session) = (answer.number, fields(&answer.session, self.with_mode));
        match self.task {
            Task::Add | Task::AddBits | Task::Open => format!("{number} {session}\n"),
            Task::Read => {
                let lent = &answer.room[..usize::from(self.length)];
                format!("{number} {session} {}\n", hex::encode(lent))
            }
            Task::IsSession if self.counted().is_session() => "yes\n".into(),
            Task::IsSession => "no\n".into(),
        }
    }
}

/// The 385 bytes of a session within a record.
pub fn bytes(session: &Session) -> Vec<u8> {
    let mut bytes = Vec::new();
    bytes.extend(session.bits.to_le_bytes());
    bytes.extend(session.taken.to_le_bytes());
    bytes.extend(session.salt);
    bytes.extend(session.chaining);
    bytes.extend(session.waiting);
    bytes.push(session.mode.number());
    bytes
}

/// The fields of a session within a line: six with the mode. Without it five, and of
/// the waiting room as much as double-pipe has use for.
pub fn fields(session: &Session, with_mode: bool) -> String {
    let Session {
        mode,
        bits,
        salt,
        chaining,
        taken,
        waiting,
    } = session;
    let waiting = if with_mode { waiting } else { &waiting[..192] };
    let bytes = [&salt[..], chaining, waiting].map(hex::encode).join(" ");
    let fields = format!("{bits} {taken} {bytes}");
    match with_mode {
        true => format!("{} {fields}", mode.number()),
        false => fields,
    }
}
