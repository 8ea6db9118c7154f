//! What all records have in common, whatever their kind.

use crate::answer::number;
use crate::frame::Frame;
use crate::identity::Identity;
use crate::interface::Info;
use crate::looks::Lookup;
use crate::subsystem::Extended;
use crate::text::Text;
use crate::wire::{put, put_u16, set_bit, u16_at, u32_at};
use std::borrow::Cow;
use std::collections::BTreeSet;

/// An object's bytes: borrowed from a table, or made up by a generator.
pub type Bytes<'a> = Cow<'a, [u8]>;

/// The only transport type there is: NVMe/TCP.
pub const TCP: u8 = 3;

/// Inside a record every fault has the record's own kind and position, so
/// only the number is handed on.
pub type Number = u8;

/// A heap record's bytes, with the source of its own objects.
pub type HeapRecord<'a> = (Bytes<'a>, Box<dyn Objects<'a> + 'a>);

/// Where a record's objects come from: a table's heap, or a builder's caller.
pub trait Objects<'a> {
    /// The object for the reference field at this offset, if present.
    fn optional(&self, field: usize) -> Result<Option<Bytes<'a>>, Number>;

    /// The same where it must be text.
    fn optional_text(&self, field: usize) -> Result<Option<Text<'a>>, Number>;

    /// The same where it must be a secondary list: each interface is named
    /// once at most, so that it is no longer than their list.
    fn optional_secondary(&self, field: usize) -> Result<Option<Bytes<'a>>, Number>;

    /// The heap record for the field, if present.
    fn optional_heap_record(&self, field: usize) -> Result<Option<HeapRecord<'a>>, Number>;

    fn heap_record(&self, field: usize) -> Result<HeapRecord<'a>, Number> {
        self.optional_heap_record(field)?.ok_or(number::REFERENCE)
    }

    fn required(&self, field: usize) -> Result<Bytes<'a>, Number> {
        self.optional(field)?.ok_or(number::REFERENCE)
    }

    fn required_text(&self, field: usize) -> Result<Text<'a>, Number> {
        self.optional_text(field)?.ok_or(number::REFERENCE)
    }

    /// Where the condition fails, the field is ignored and not looked at.
    fn required_when(&self, condition: bool, field: usize) -> Result<Option<Bytes<'a>>, Number> {
        if condition {
            self.required(field).map(Some)
        } else {
            Ok(None)
        }
    }
}

/// What a reference field of a record refers to.
pub enum Target<'r, 'a> {
    Absent,
    Object(&'r Bytes<'a>),
    Text(&'r Text<'a>),
    Info(&'r Info<'a>),
    Identity(&'r Identity<'a>),
    Extended(&'r Extended<'a>),
}

impl<'r, 'a> Target<'r, 'a> {
    pub fn optional(object: &'r Option<Bytes<'a>>) -> Self {
        object.as_ref().map_or(Target::Absent, Target::Object)
    }

    pub fn optional_text(text: &'r Option<Text<'a>>) -> Self {
        text.as_ref().map_or(Target::Absent, Target::Text)
    }

    /// The heap bytes of the target and of what a heap record refers to.
    pub fn length(&self) -> usize {
        match self {
            Target::Absent => 0,
            Target::Object(object) => object.len(),
            Target::Text(text) => text.ended().len(),
            Target::Info(info) => Info::SIZE + heap_length(*info),
            Target::Identity(identity) => Identity::SIZE + heap_length(*identity),
            Target::Extended(extended) => Extended::SIZE + heap_length(*extended),
        }
    }
}

/// One kind of record, as a struct of what it says.
pub trait Record<'a>: Sized {
    const ID: u8;
    /// The base size: the least a record of this kind takes.
    const SIZE: usize;
    /// The byte whose bit 0 is the valid bit.
    const VALID_AT: usize;

    /// Writes what is the same in every valid record at this position.
    fn stamp(bytes: &mut [u8], position: u16);

    /// Reads a valid record with its objects; indexes of others are not
    /// looked up.
    fn read(bytes: &[u8], position: u16, objects: &dyn Objects<'a>) -> Result<Self, Number>;

    /// The least minor revision of a table with this record in it.
    fn minor(&self) -> u8 {
        0
    }

    /// Whether every index in the record names a valid record. They are
    /// looked up in the order in which their faults count.
    fn indexes_hold(&self, _records: &Lookup<'a>) -> bool {
        true
    }

    /// Writes all fields that are no references. Reserved bits and bytes,
    /// and fields that are ignored, stay as they were.
    fn write_fields(&self, position: u16, bytes: &mut [u8]);

    /// The reference fields that count, by offset, with what they refer to.
    fn targets(&self) -> Vec<(usize, Target<'_, 'a>)>;

    /// The length of the field at this offset; none for references.
    fn field_length(offset: u32) -> Option<usize>;

    /// What a reader hands back of the object at this reference field: the
    /// outer `None` where there is no such field, the inner one where it is
    /// absent or unused.
    fn object(record: Option<&Self>, offset: u32) -> Option<Option<&[u8]>>;

    fn is_valid(bytes: &[u8]) -> bool {
        bytes[Self::VALID_AT] & 1 == 1
    }
}

/// The extended infos of a subsystem and of an interface begin alike: ID,
/// version, the owner's position.
pub fn stamp_extended<'a, R: Record<'a>>(bytes: &mut [u8], position: u16) {
    put(bytes, 0, &[R::ID, 1]);
    put_u16(bytes, 2, position);
    set_bit(bytes, R::VALID_AT, 0, true);
}

/// Whether these bytes are such a record, whole, valid and of this owner.
pub fn is_extended<'a, R: Record<'a>>(bytes: &[u8], position: u16) -> bool {
    bytes.len() >= R::SIZE
        && bytes[0] == R::ID
        && bytes[1] == 1
        && u16_at(bytes, 2) == position
        && R::is_valid(bytes)
}

/// Whether a secondary list is as it must be where there are so many
/// interface positions, used or not. What its indexes name is judged later.
pub fn judge_secondary(list: Option<&[u8]>, interfaces: u8) -> Result<(), Number> {
    let list = list.unwrap_or(&[]);
    if list.len() <= usize::from(interfaces) && all_differ(list) {
        Ok(())
    } else {
        Err(number::SECONDARY)
    }
}

fn all_differ(list: &[u8]) -> bool {
    let different: BTreeSet<&u8> = list.iter().collect();
    different.len() == list.len()
}

/// The heap bytes that belong to a record.
pub fn heap_length<'a, R: Record<'a>>(record: &R) -> usize {
    let targets = record.targets();
    targets.iter().map(|(_, target)| target.length()).sum()
}

/// A record of a table, whose objects lie in the table's heap.
pub struct InTable<'a> {
    pub frame: Frame<'a>,
    pub record: &'a [u8],
}

impl<'a> InTable<'a> {
    fn part(&self, field: usize) -> Result<Option<&'a [u8]>, Number> {
        let offset = u32_at(self.record, field);
        let length = u16_at(self.record, field + 4);
        match (offset, length) {
            (0, 0) => Ok(None),
            (0, _) | (_, 0) => Err(number::REFERENCE),
            _ => match self.frame.heap_part(offset, length) {
                Some(part) => Ok(Some(part)),
                None => Err(number::REFERENCE),
            },
        }
    }
}

impl<'a> Objects<'a> for InTable<'a> {
    fn optional(&self, field: usize) -> Result<Option<Bytes<'a>>, Number> {
        Ok(self.part(field)?.map(Cow::Borrowed))
    }

    fn optional_text(&self, field: usize) -> Result<Option<Text<'a>>, Number> {
        self.part(field)?.map(Text::read).transpose()
    }

    fn optional_secondary(&self, field: usize) -> Result<Option<Bytes<'a>>, Number> {
        let list = self.optional(field)?;
        judge_secondary(list.as_deref(), self.frame.interfaces.count)?;
        Ok(list)
    }

    fn optional_heap_record(&self, field: usize) -> Result<Option<HeapRecord<'a>>, Number> {
        let frame = self.frame;
        let nested = |record| -> HeapRecord<'a> {
            (Cow::Borrowed(record), Box::new(InTable { frame, record }))
        };
        Ok(self.part(field)?.map(nested))
    }
}
