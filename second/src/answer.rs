//! What every call answers: a number, and the record it speaks of.

use std::fmt;

/// The numbers an answer can carry.
pub mod number {
    pub const DONE: u8 = 0;
    pub const TOO_FEW_BYTES: u8 = 1;
    pub const SIGNATURE: u8 = 2;
    pub const LENGTH: u8 = 3;
    pub const TOO_LONG: u8 = 4;
    pub const CHECKSUM: u8 = 5;
    pub const HEADER_VERSION: u8 = 6;
    pub const CONTROL: u8 = 7;
    pub const REGION: u8 = 8;
    pub const RECORD_VERSION: u8 = 9;
    pub const RECORD: u8 = 10;
    pub const REFERENCE: u8 = 11;
    pub const HEAP_RECORD: u8 = 12;
    pub const INDEX: u8 = 13;
    pub const OUTPUT_TOO_SHORT: u8 = 14;
    pub const OUT_OF_TURN: u8 = 15;
    pub const NO_SUCH_FIELD: u8 = 16;
    pub const FORM_TOO_LONG: u8 = 17;
    pub const TEXT: u8 = 18;
    pub const OVERLAP: u8 = 19;
    pub const SECONDARY: u8 = 20;

    /// The greatest of them.
    pub const LAST: u8 = SECONDARY;
}

/// The kind of the header, in answers and in reads.
pub const HEADER_KIND: u8 = 0;
/// The kind of the control record, in answers and in reads.
pub const CONTROL_KIND: u8 = 1;

/// A number with the kind and position of the record that gave rise to it.
#[derive(Clone, Copy, Debug, PartialEq, Eq, Hash, PartialOrd, Ord)]
pub struct Answer {
    pub number: u8,
    pub kind: u8,
    pub position: u16,
}

impl Answer {
    pub const DONE: Answer = Answer::plain(number::DONE);

    /// An answer that speaks of no record.
    pub const fn plain(number: u8) -> Answer {
        Answer::at(number, HEADER_KIND, 0)
    }

    pub const fn at(number: u8, kind: u8, position: u16) -> Answer {
        Answer {
            number,
            kind,
            position,
        }
    }

    pub fn is_done(self) -> bool {
        self.number == number::DONE
    }
}

/// As the tools print it: number, kind and position.
impl fmt::Display for Answer {
    fn fmt(&self, out: &mut fmt::Formatter) -> fmt::Result {
        write!(out, "{} {} {}", self.number, self.kind, self.position)
    }
}
