//! Text, which ends in its only zero byte.

use crate::answer::number;
use crate::record::{Bytes, Number};
use std::borrow::Cow;

/// A text as it stands in a table: its words, and the zero byte that ends
/// them.
#[derive(Clone, Debug, PartialEq, Eq)]
pub struct Text<'a> {
    ended: Bytes<'a>,
}

impl<'a> Text<'a> {
    /// With the zero byte it must fit a reference's length.
    pub const LONGEST_WORDS: usize = u16::MAX as usize - 1;

    /// A table's bytes, if the first zero byte among them is the last byte.
    pub fn read(bytes: &'a [u8]) -> Result<Text<'a>, Number> {
        let first_zero = bytes.iter().position(|byte| *byte == 0);
        if first_zero.is_some_and(|place| place + 1 == bytes.len()) {
            let ended = Cow::Borrowed(bytes);
            Ok(Text { ended })
        } else {
            Err(number::TEXT)
        }
    }

    /// Words that a caller tells, to which the zero byte is added. Words
    /// that are too long are not looked at.
    pub fn told(words: &[u8]) -> Result<Text<'static>, Number> {
        if words.len() > Self::LONGEST_WORDS {
            Err(number::REFERENCE)
        } else if words.contains(&0) {
            Err(number::TEXT)
        } else {
            let ended = Cow::Owned([words, &[0]].concat());
            Ok(Text { ended })
        }
    }

    /// The same of words that are known to be fine.
    pub fn of(words: impl AsRef<[u8]>) -> Text<'static> {
        Text::told(words.as_ref()).expect("words without a zero byte")
    }

    /// What a reader hands back. Empty words still have a place.
    pub fn words(&self) -> &[u8] {
        &self.ended[..self.ended.len() - 1]
    }

    /// What stands in a table.
    pub fn ended(&self) -> &[u8] {
        &self.ended
    }
}
