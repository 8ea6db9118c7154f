//! Records read whole: each is an entry of the same length, so that a caller
//! can have one alone, or many of them in a row.
//!
//! An entry is the record's kind, its position, whether it is used, how long
//! its image is, four zeros, then the image, filled up with zeros, and the
//! places of its objects.

use crate::answer::{number, Answer, CONTROL_KIND, HEADER_KIND};
use crate::discovery::Discovery;
use crate::frame::DRIVER_SIGNATURE_AT;
use crate::host::Host;
use crate::identity::Identity;
use crate::interface::{Info, Interface};
use crate::read::{Image, Reading, LONGEST_RECORD};
use crate::record::Record;
use crate::security::Security;
use crate::subsystem::{Extended, Subsystem};
use crate::wire::{put, put_reference};
use std::ops::Range;

const IMAGE_AT: usize = 8;
const PLACES_AT: usize = IMAGE_AT + LONGEST_RECORD;
/// A start of four bytes, a length of two, whether the object is present,
/// and a zero.
const PLACE_SIZE: usize = 8;
const PRESENT_AT: usize = 6;
/// As many as a security record has; no record has more.
const PLACES: usize = 6;

pub const ENTRY_SIZE: usize = PLACES_AT + PLACES * PLACE_SIZE;

pub type EntryBytes = [u8; ENTRY_SIZE];

/// What a read of records in a row gives beside the entries that it writes.
#[derive(Clone, Copy, Debug, PartialEq, Eq)]
pub struct Records {
    pub answer: Answer,
    /// How many entries there was room for.
    pub written: usize,
    /// How many there are.
    pub total: usize,
}

impl Reading<'_> {
    /// The entry of a record. A heap record must be there.
    pub fn entry(&self, kind: u8, position: u16) -> Result<EntryBytes, Answer> {
        let image = self.record(kind, position);
        if image.answer.is_done() {
            Ok(self.entry_with(kind, position, &image))
        } else {
            Err(image.answer)
        }
    }

    /// Writes the entries of the records from this one on, kind by kind
    /// through the last one, into what is lent; bytes behind them stay. A
    /// last kind that comes before the first one counts as the first.
    pub fn records(&self, kind: u8, position: u16, last: u8, out: &mut [u8]) -> Records {
        let row = match self.row(kind, position, last) {
            Ok(row) => row,
            Err(answer) => {
                return Records {
                    answer,
                    written: 0,
                    total: 0,
                }
            }
        };
        let rooms = out.chunks_exact_mut(ENTRY_SIZE);
        let written = rooms.len().min(row.len());
        for (room, (kind, position)) in rooms.zip(&row) {
            let image = self.record(*kind, *position);
            room.copy_from_slice(&self.entry_with(*kind, *position, &image));
        }
        Records {
            answer: Answer::DONE,
            written,
            total: row.len(),
        }
    }

    /// Kinds and positions in the order of their entries.
    fn row(&self, kind: u8, position: u16, last: u8) -> Result<Vec<(u8, u16)>, Answer> {
        let counts = self.counts()?;
        if !positions(kind, counts).contains(&position) {
            return Err(Answer::plain(number::NO_SUCH_FIELD));
        }
        let kinds = kind..=last.max(kind);
        let all = kinds.flat_map(|kind| positions(kind, counts).map(move |at| (kind, at)));
        Ok(all.filter(|at| *at >= (kind, position)).collect())
    }

    /// The image of a heap record that is not there is refused and so empty,
    /// and its objects have no places: what is left is kind and position.
    fn entry_with(&self, kind: u8, position: u16, image: &Image) -> EntryBytes {
        let mut entry = [0; ENTRY_SIZE];
        let (used, length) = (image.used.into(), image.length as u8);
        put(&mut entry, 0, &[kind, position as u8, used, length]);
        put(&mut entry, IMAGE_AT, &image.bytes);
        let places = entry[PLACES_AT..].chunks_exact_mut(PLACE_SIZE);
        for (place, offset) in places.zip(object_offsets(kind)) {
            if let (_, Some(object)) = self.object(kind, position, *offset) {
                put_reference(place, 0, object.start as u32, object.len() as u16);
                place[PRESENT_AT] = 1;
            }
        }
        entry
    }
}

/// The positions of a kind that have an entry where a table has these
/// counts: those of a heap record are its owner's, whether or not each owner
/// has one.
fn positions(kind: u8, counts: [u8; 4]) -> Range<u16> {
    let [interfaces, subsystems, securities, discoveries] = counts;
    let listed = |count: u8| 1..u16::from(count) + 1;
    match kind {
        HEADER_KIND | CONTROL_KIND | Host::ID => 0..1,
        Interface::ID | Info::ID | Identity::ID => listed(interfaces),
        Subsystem::ID | Extended::ID => listed(subsystems),
        Security::ID => listed(securities),
        Discovery::ID => listed(discoveries),
        _ => 0..0,
    }
}

/// The references of a kind to objects, in the order of their places. Those
/// to heap records are none of them.
pub fn object_offsets(kind: u8) -> &'static [u32] {
    const SIGNATURE: u32 = DRIVER_SIGNATURE_AT as u32;
    match kind {
        HEADER_KIND => &[SIGNATURE],
        Host::ID => &[18],
        Subsystem::ID => &[10, 16, 48, 54],
        Security::ID => &[6, 12, 18, 24, 30, 36],
        Discovery::ID => &[6, 12],
        Info::ID => &[104],
        Extended::ID => &[12],
        Identity::ID => &[8, 14],
        _ => &[],
    }
}

pub fn records(table: &[u8], kind: u8, position: u16, last: u8, out: &mut [u8]) -> Records {
    Reading::of(table).records(kind, position, last, out)
}

pub fn entry(table: &[u8], kind: u8, position: u16) -> Result<EntryBytes, Answer> {
    Reading::of(table).entry(kind, position)
}
