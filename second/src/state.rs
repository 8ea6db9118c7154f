//! Whose turn it is while a table is built.

use crate::discovery::Discovery;
use crate::form::records_end;
use crate::frame::GREATEST_LENGTH;
use crate::host::Host;
use crate::interface::Interface;
use crate::record::Record;
use crate::wire::{array_at, put, put_u16, put_u32, u16_at, u32_at};

/// Between two builder calls. A plain value, so that a caller can also hold
/// one that no call ever handed out; such a state is refused.
#[derive(Clone, Copy, Debug, Default, PartialEq, Eq)]
pub struct State {
    /// 0 for the empty state, a record's kind, `READY` or `FINISHED`.
    pub turn: u16,
    /// The list position to come, 0 outside lists.
    pub position: u16,
    pub counts: [u8; 4],
    /// How many bytes of the buffer are used.
    pub used: u32,
    /// The minor revision of the table as far as it is told.
    pub minor: u32,
}

/// All positions are told, and only finish can come.
pub const READY: u16 = 7;
pub const FINISHED: u16 = 8;

/// No record needs a later minor revision.
const GREATEST_MINOR: u32 = 1;

const HOST: u16 = Host::ID as u16;
const FIRST_LIST: u16 = Interface::ID as u16;
const LAST_LIST: u16 = Discovery::ID as u16;

impl State {
    pub const EMPTY: State = State {
        turn: 0,
        position: 0,
        counts: [0; 4],
        used: 0,
        minor: 0,
    };

    /// The state after begin.
    pub fn begun(counts: [u8; 4], used: usize) -> State {
        State {
            turn: HOST,
            counts,
            used: used as u32,
            ..State::EMPTY
        }
    }

    /// The state as sixteen bytes, numbers little endian, for a caller who
    /// keeps it as such. Any sixteen bytes are some state's.
    pub fn to_bytes(self) -> [u8; 16] {
        let mut bytes = [0; 16];
        put_u16(&mut bytes, 0, self.turn);
        put_u16(&mut bytes, 2, self.position);
        put(&mut bytes, 4, &self.counts);
        put_u32(&mut bytes, 8, self.used);
        put_u32(&mut bytes, 12, self.minor);
        bytes
    }

    pub fn from_bytes(bytes: [u8; 16]) -> State {
        State {
            turn: u16_at(&bytes, 0),
            position: u16_at(&bytes, 2),
            counts: array_at(&bytes, 4),
            used: u32_at(&bytes, 8),
            minor: u32_at(&bytes, 12),
        }
    }

    pub fn finished(self) -> State {
        State {
            turn: FINISHED,
            ..self
        }
    }

    /// Whether this is a possible begun state.
    pub fn is_begun(self) -> bool {
        self.position_is_possible()
            && records_end(self.counts) <= self.end()
            && self.end() <= GREATEST_LENGTH
            && self.minor <= GREATEST_MINOR
    }

    /// Where the bytes used end in the buffer.
    pub fn end(self) -> usize {
        self.used as usize
    }

    fn position_is_possible(self) -> bool {
        match self.turn {
            HOST | READY => self.position == 0,
            FIRST_LIST..=LAST_LIST => {
                1 <= self.position && self.position <= self.count_of(self.turn)
            }
            _ => false,
        }
    }

    pub fn is_in_list(self) -> bool {
        matches!(self.turn, FIRST_LIST..=LAST_LIST)
    }

    fn count_of(self, list: u16) -> u16 {
        self.counts[usize::from(list - FIRST_LIST)].into()
    }

    /// The state after a record was written up to this end, which takes at
    /// least this minor revision.
    pub fn after(self, end: usize, minor: u8) -> State {
        State {
            used: end as u32,
            minor: self.minor.max(minor.into()),
            ..self.next()
        }
    }

    /// The state after the record whose turn it was.
    pub fn next(self) -> State {
        if self.is_in_list() && self.position < self.count_of(self.turn) {
            return State {
                position: self.position + 1,
                ..self
            };
        }
        let mut later = self.turn + 1..=LAST_LIST;
        let (turn, position) = match later.find(|list| self.count_of(*list) != 0) {
            Some(list) => (list, 1),
            None => (READY, 0),
        };
        State {
            turn,
            position,
            ..self
        }
    }
}
