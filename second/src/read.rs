//! Reads of single records, fields and objects.

use crate::answer::{number, Answer, CONTROL_KIND, HEADER_KIND};
use crate::discovery::Discovery;
use crate::frame::{CONTROL_START, DRIVER_SIGNATURE_AT};
use crate::host::Host;
use crate::identity::Identity;
use crate::interface::{Info, Interface};
use crate::meaning::{Entry, Meaning};
use crate::record::Record;
use crate::security::Security;
use crate::subsystem::{Extended, Subsystem};
use std::ops::Range;

/// The longest record an image holds, and the longest field.
pub const LONGEST_RECORD: usize = 128;
pub const LONGEST_FIELD: usize = 16;

/// A record's fields in table layout; reserved bits, ignored fields and
/// references are zero.
#[derive(Clone, Copy, Debug, PartialEq, Eq)]
pub struct Image {
    pub answer: Answer,
    pub used: bool,
    pub length: usize,
    pub bytes: [u8; LONGEST_RECORD],
}

/// One field's bytes in table order.
#[derive(Clone, Copy, Debug, PartialEq, Eq)]
pub struct Field {
    pub answer: Answer,
    pub used: bool,
    pub length: usize,
    pub bytes: [u8; LONGEST_FIELD],
}

/// What a kind and position select; list records may be unused.
enum Selected<'r, 'a> {
    Header,
    Control,
    Host(&'r Host<'a>),
    Interface(Option<&'r Interface<'a>>),
    Subsystem(Option<&'r Subsystem<'a>>),
    Security(Option<&'r Security<'a>>),
    Discovery(Option<&'r Discovery<'a>>),
    Info(&'r Info<'a>),
    Extended(&'r Extended<'a>),
    Identity(&'r Identity<'a>),
}

/// A table that is checked once and then read as often as needed.
pub struct Reading<'a> {
    table: &'a [u8],
    meaning: Result<Meaning<'a>, Answer>,
}

impl<'a> Reading<'a> {
    pub fn of(table: &'a [u8]) -> Reading<'a> {
        Reading {
            table,
            meaning: Meaning::read(table),
        }
    }

    pub fn record(&self, kind: u8, position: u16) -> Image {
        let found = self.select(kind, position);
        found.map_or_else(refused_image, |(meaning, selected)| {
            selected.image(meaning, position)
        })
    }

    pub fn field(&self, kind: u8, position: u16, offset: u32) -> Field {
        let found = self.select(kind, position).and_then(|(meaning, selected)| {
            let length = field_length(kind, offset).ok_or(NO_SUCH_FIELD)?;
            Ok((selected.image(meaning, position), length))
        });
        let mut bytes = [0; LONGEST_FIELD];
        match found {
            Ok((image, length)) => {
                let start = offset as usize;
                bytes[..length].copy_from_slice(&image.bytes[start..start + length]);
                Field {
                    answer: Answer::DONE,
                    used: image.used,
                    length,
                    bytes,
                }
            }
            Err(answer) => Field {
                answer,
                used: false,
                length: 0,
                bytes,
            },
        }
    }

    /// The place within the lent bytes of what is handed back of an object,
    /// where there is one: of text that is without its zero byte.
    pub fn object(&self, kind: u8, position: u16, offset: u32) -> (Answer, Option<Range<usize>>) {
        let found = self
            .select(kind, position)
            .and_then(|(meaning, selected)| selected.object(meaning, offset).ok_or(NO_SUCH_FIELD));
        match found {
            Ok(object) => (Answer::DONE, object.map(|object| self.place_of(object))),
            Err(answer) => (answer, None),
        }
    }

    /// How many positions each list has, or the first fault of a table that
    /// is refused.
    pub fn counts(&self) -> Result<[u8; 4], Answer> {
        let meaning = self.meaning.as_ref().map_err(|answer| *answer)?;
        Ok(meaning.counts())
    }

    /// An object read from a table borrows its bytes, so its address tells
    /// its place.
    fn place_of(&self, object: &[u8]) -> Range<usize> {
        let start = object.as_ptr() as usize - self.table.as_ptr() as usize;
        start..start + object.len()
    }

    /// A refused table is told first, then a record that does not exist.
    fn select(&self, kind: u8, position: u16) -> Result<(&Meaning<'a>, Selected<'_, 'a>), Answer> {
        let meaning = self.meaning.as_ref().map_err(|answer| *answer)?;
        let selected = match kind {
            HEADER_KIND if position == 0 => Some(Selected::Header),
            CONTROL_KIND if position == 0 => Some(Selected::Control),
            Host::ID if position == 0 => Some(Selected::Host(&meaning.host)),
            Interface::ID => entry(&meaning.interfaces, position).map(Selected::Interface),
            Subsystem::ID => entry(&meaning.subsystems, position).map(Selected::Subsystem),
            Security::ID => entry(&meaning.securities, position).map(Selected::Security),
            Discovery::ID => entry(&meaning.discoveries, position).map(Selected::Discovery),
            Info::ID => info_of(meaning, position).map(Selected::Info),
            Extended::ID => extended_of(meaning, position).map(Selected::Extended),
            Identity::ID => identity_of(meaning, position).map(Selected::Identity),
            _ => None,
        };
        Ok((meaning, selected.ok_or(NO_SUCH_FIELD)?))
    }
}

const NO_SUCH_FIELD: Answer = Answer::plain(number::NO_SUCH_FIELD);

/// The record at a list position: the outer `None` where the list has no
/// such position, the inner one where it is unused.
fn entry<R>(list: &[Entry<R>], position: u16) -> Option<Option<&R>> {
    let place = usize::from(position).checked_sub(1)?;
    list.get(place).map(Entry::used)
}

fn info_of<'r, 'a>(meaning: &'r Meaning<'a>, position: u16) -> Option<&'r Info<'a>> {
    entry(&meaning.interfaces, position)?.map(|owner| &owner.info)
}

fn extended_of<'r, 'a>(meaning: &'r Meaning<'a>, position: u16) -> Option<&'r Extended<'a>> {
    entry(&meaning.subsystems, position)??.extended.as_ref()
}

fn identity_of<'r, 'a>(meaning: &'r Meaning<'a>, position: u16) -> Option<&'r Identity<'a>> {
    let addition = info_of(meaning, position)?.addition.as_ref()?;
    addition.identity.as_ref()
}

impl<'r, 'a> Selected<'r, 'a> {
    fn image(&self, meaning: &Meaning, position: u16) -> Image {
        match self {
            Selected::Header => header_image(meaning),
            Selected::Control => control_image(meaning),
            Selected::Host(host) => record_image(Some(*host), position),
            Selected::Interface(entry) => record_image(*entry, position),
            Selected::Subsystem(entry) => record_image(*entry, position),
            Selected::Security(entry) => record_image(*entry, position),
            Selected::Discovery(entry) => record_image(*entry, position),
            Selected::Info(info) => record_image(Some(*info), position),
            Selected::Extended(extended) => record_image(Some(*extended), position),
            Selected::Identity(identity) => record_image(Some(*identity), position),
        }
    }

    fn object(&self, meaning: &'r Meaning<'a>, offset: u32) -> Option<Option<&'r [u8]>> {
        match self {
            Selected::Header if offset as usize == DRIVER_SIGNATURE_AT => {
                Some(meaning.driver_signature.as_deref())
            }
            Selected::Header | Selected::Control => None,
            Selected::Host(host) => Host::object(Some(*host), offset),
            Selected::Interface(entry) => Interface::object(*entry, offset),
            Selected::Subsystem(entry) => Subsystem::object(*entry, offset),
            Selected::Security(entry) => Security::object(*entry, offset),
            Selected::Discovery(entry) => Discovery::object(*entry, offset),
            Selected::Info(info) => Info::object(Some(*info), offset),
            Selected::Extended(extended) => Extended::object(Some(*extended), offset),
            Selected::Identity(identity) => Identity::object(Some(*identity), offset),
        }
    }
}

fn refused_image(answer: Answer) -> Image {
    Image {
        answer,
        used: false,
        length: 0,
        bytes: [0; LONGEST_RECORD],
    }
}

fn record_image<'a, R: Record<'a>>(record: Option<&R>, position: u16) -> Image {
    let mut bytes = [0; LONGEST_RECORD];
    if let Some(record) = record {
        record.write_fields(position, &mut bytes[..R::SIZE]);
    }
    Image {
        answer: Answer::DONE,
        used: record.is_some(),
        length: R::SIZE,
        bytes,
    }
}

fn header_image(meaning: &Meaning) -> Image {
    let mut bytes = [0; LONGEST_RECORD];
    meaning.origin.write(&mut bytes);
    Image {
        answer: Answer::DONE,
        used: true,
        length: CONTROL_START,
        bytes,
    }
}

/// The control record's field offsets count from the table's start, and so
/// does its image.
fn control_image(meaning: &Meaning) -> Image {
    let mut bytes = [0; LONGEST_RECORD];
    let [interfaces, subsystems, securities, discoveries] = meaning.counts();
    bytes[87] = interfaces;
    bytes[95] = subsystems;
    bytes[103] = securities;
    bytes[111] = discoveries;
    Image {
        answer: Answer::DONE,
        used: true,
        length: LONGEST_RECORD,
        bytes,
    }
}

fn header_field_length(offset: u32) -> Option<usize> {
    match offset {
        10 => Some(6),
        16 => Some(8),
        24 | 28 | 32 => Some(4),
        _ => None,
    }
}

/// The length of a kind's field at this offset; none for references.
pub fn field_length(kind: u8, offset: u32) -> Option<usize> {
    match kind {
        HEADER_KIND => header_field_length(offset),
        CONTROL_KIND => matches!(offset, 87 | 95 | 103 | 111).then_some(1),
        Host::ID => Host::field_length(offset),
        Interface::ID => Interface::field_length(offset),
        Subsystem::ID => Subsystem::field_length(offset),
        Security::ID => Security::field_length(offset),
        Discovery::ID => Discovery::field_length(offset),
        Info::ID => Info::field_length(offset),
        Extended::ID => Extended::field_length(offset),
        Identity::ID => Identity::field_length(offset),
        _ => None,
    }
}

/// Whether a kind has an object at this offset.
pub fn has_object(kind: u8, offset: u32) -> bool {
    match kind {
        HEADER_KIND => offset as usize == DRIVER_SIGNATURE_AT,
        Host::ID => Host::object(None, offset).is_some(),
        Interface::ID => Interface::object(None, offset).is_some(),
        Subsystem::ID => Subsystem::object(None, offset).is_some(),
        Security::ID => Security::object(None, offset).is_some(),
        Discovery::ID => Discovery::object(None, offset).is_some(),
        Info::ID => Info::object(None, offset).is_some(),
        Extended::ID => Extended::object(None, offset).is_some(),
        Identity::ID => Identity::object(None, offset).is_some(),
        _ => false,
    }
}

pub fn record(table: &[u8], kind: u8, position: u16) -> Image {
    Reading::of(table).record(kind, position)
}

pub fn field(table: &[u8], kind: u8, position: u16, offset: u32) -> Field {
    Reading::of(table).field(kind, position, offset)
}

pub fn object(
    table: &[u8],
    kind: u8,
    position: u16,
    offset: u32,
) -> (Answer, Option<Range<usize>>) {
    Reading::of(table).object(kind, position, offset)
}
