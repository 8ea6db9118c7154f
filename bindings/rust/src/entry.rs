//! Records read whole, each with where its objects stand.

use crate::answer::answered;
use crate::{library, Kind, Refusal};
use core::fmt::{self, Debug, Formatter};
use core::ops::Range;

/// Where the places stand, behind the image, and how many bytes each has.
const IMAGE: usize = 8;
const IMAGE_BYTES: usize = 128;
const PLACES: usize = IMAGE + IMAGE_BYTES;
const PLACE_BYTES: usize = 8;

/// One record of a table, read by [`record`] or [`records`]: its fields in table layout, and where its objects stand.
///
/// [`Table`](crate::Table) reads them by name; [`Table::view`](crate::Table::view) names what is in one.
#[derive(Clone, Copy, PartialEq, Eq)]
#[repr(transparent)]
pub struct Entry {
    bytes: [u8; Entry::BYTES],
}

impl Entry {
    /// How many bytes an entry has, as `NBFT_ENTRY_BYTES` in C.
    pub const BYTES: usize = 184;

    /// No table has more records than this, those that [`records`] counts among them, as `NBFT_MOST_ENTRIES` in C.
    pub const MOST: usize = 1788;

    /// Room for an entry: nothing is read so far.
    pub const EMPTY: Entry = Entry { bytes: [0; Entry::BYTES] };

    /// All its bytes, as `struct nbft_entry` in `include/nbft.h` has them.
    pub fn bytes(&self) -> &[u8; Entry::BYTES] {
        &self.bytes
    }

    /// The record's kind.
    pub fn kind(&self) -> Kind {
        match self.bytes[0] {
            0 => Kind::Header,
            1 => Kind::Control,
            2 => Kind::Host,
            3 => Kind::Hfi,
            4 => Kind::Ssns,
            5 => Kind::Security,
            6 => Kind::Discovery,
            7 => Kind::HfiInfo,
            9 => Kind::SsnsExtended,
            _ => Kind::HfiExtended,
        }
    }

    /// The record's position in its list, that of its owner if it stands in the heap; 0 outside lists.
    pub fn position(&self) -> u16 {
        u16::from(self.bytes[1])
    }

    /// Whether the record is used. In one that is not every field is zero and every object absent.
    pub fn used(&self) -> bool {
        self.bytes[2] == 1
    }

    /// Whether there is such a record: an owner may have none of this kind in the heap, which [`records`] says so.
    pub fn is_there(&self) -> bool {
        self.bytes[3] != 0
    }

    /// The record in table layout: its fields, at the offsets that [`offsets`](crate::offsets) names, and zeros for all
    /// else. It is empty where there is no such record.
    pub fn image(&self) -> &[u8] {
        &self.bytes[IMAGE..][..usize::from(self.bytes[3])]
    }

    /// Where an object stands in the table, by the number that [`places`](crate::places) names; `None` where it is
    /// absent or the kind has no such place. A text is without its terminator.
    pub fn place(&self, number: u8) -> Option<Range<usize>> {
        let at = PLACES + PLACE_BYTES * usize::from(number);
        let &[a, b, c, d, low, high, present, _] = self.bytes.get(at..)?.first_chunk()?;
        let (start, length) = (u32::from_le_bytes([a, b, c, d]) as usize, usize::from(u16::from_le_bytes([low, high])));
        (present == 1).then_some(start..start + length)
    }

    /// A field of as many bytes as its type has.
    pub(crate) fn field<V: Value>(&self, offset: u32) -> V {
        V::first_of(&self.bytes[IMAGE..PLACES][offset as usize..])
    }

    pub(crate) fn bytes_mut(&mut self) -> &mut [u8; Entry::BYTES] {
        &mut self.bytes
    }
}

impl Default for Entry {
    fn default() -> Entry {
        Entry::EMPTY
    }
}

impl Debug for Entry {
    fn fmt(&self, f: &mut Formatter<'_>) -> fmt::Result {
        let mut shown = f.debug_struct("Entry");
        shown.field("kind", &self.kind()).field("position", &self.position()).field("used", &self.used());
        shown.field("image", &self.image()).finish_non_exhaustive()
    }
}

/// What a field is: a number, whose lowest byte comes first, or bytes.
pub(crate) trait Value {
    /// Of at least as many bytes as it has.
    fn first_of(bytes: &[u8]) -> Self;
}

impl<const N: usize> Value for [u8; N] {
    fn first_of(bytes: &[u8]) -> [u8; N] {
        *bytes.first_chunk().expect("every field stands within its image")
    }
}

impl Value for u8 {
    fn first_of(bytes: &[u8]) -> u8 {
        u8::from_le_bytes(Value::first_of(bytes))
    }
}

impl Value for u16 {
    fn first_of(bytes: &[u8]) -> u16 {
        u16::from_le_bytes(Value::first_of(bytes))
    }
}

impl Value for u32 {
    fn first_of(bytes: &[u8]) -> u32 {
        u32::from_le_bytes(Value::first_of(bytes))
    }
}

/// The record of a kind and position, by one check of the table.
///
/// Positions and refusals are those of [`field`](crate::field): a table that is not good is refused as by
/// [`check`](crate::check), then a record that is not there with [`Number::NoSuchField`](crate::Number::NoSuchField).
///
/// ```
/// # fn main() -> Result<(), nbft::Refusal> {
/// # let table = include_bytes!("../../../samples/machine.nbft");
/// use nbft::{offsets, places, record, Kind};
///
/// let entry = record(table, Kind::Ssns, 2)?;
/// assert!(entry.used());
/// assert_eq!(entry.image()[offsets::ssns::PRIMARY_HFI_INDEX as usize], 2);
/// assert_eq!(&table[entry.place(places::ssns::SERVICE).unwrap()], b"4420\0");
/// assert!(record(table, Kind::Ssns, 3).is_err());
/// # Ok(())
/// # }
/// ```
pub fn record(table: &[u8], kind: Kind, position: u16) -> Result<Entry, Refusal> {
    let mut entry = Entry::EMPTY;
    answered(library::record(table, kind as u8, position, entry.bytes_mut()))?;
    Ok(entry)
}

/// What [`records`] has read.
#[derive(Clone, Copy, Debug, PartialEq, Eq)]
pub struct Records<'e> {
    /// Those that found room, one behind the other.
    pub entries: &'e [Entry],
    /// How many there are from the kind and position on that were asked for.
    pub all: usize,
}

/// The records from a kind and position on, through those of kind `last`, by one check of the table.
///
/// Their order is that of kinds as [`Kind`] numbers them, and within a kind that of positions. Header, control record
/// and host have position 0; lists have what is counted, used or not. Of transport infos and extended infos there is an
/// entry for each position of their owners, of which [`Entry::is_there`] says whether there is one. A `last` before
/// `kind` counts as `kind`.
///
/// As many are read as there is room for; the others are counted, and can be asked for from the next one on.
///
/// A table that is not good is refused as by [`check`](crate::check), then a position that the kind does not have with
/// [`Number::NoSuchField`](crate::Number::NoSuchField). A refused call changes no entry.
///
/// ```
/// # fn main() -> Result<(), nbft::Refusal> {
/// # let table = include_bytes!("../../../samples/machine.nbft");
/// use nbft::{records, Entry, Kind};
///
/// let mut room = [Entry::EMPTY; 4];
/// let read = records(table, Kind::Host, 0, Kind::Ssns, &mut room)?;
/// // The host, two HFIs, and the first of two SSNSs.
/// assert_eq!((read.entries.len(), read.all), (4, 5));
/// assert_eq!((read.entries[3].kind(), read.entries[3].position()), (Kind::Ssns, 1));
/// # Ok(())
/// # }
/// ```
pub fn records<'e>(
    table: &[u8],
    kind: Kind,
    position: u16,
    last: Kind,
    entries: &'e mut [Entry],
) -> Result<Records<'e>, Refusal> {
    let packed = library::records(table, kind as u8, position, last as u8, entries);
    answered(packed as u32)?;
    let (written, all) = ((packed >> 32) as u16, (packed >> 48) as u16);
    Ok(Records { entries: &entries[..usize::from(written)], all: usize::from(all) })
}

/// Where the object of the reference at `offset` stands in the table, by one check of it; `None` where it is absent.
///
/// It is what [`object`](crate::object) hands back, by its place: a text is without its terminator. Positions and
/// refusals are those of [`field`](crate::field).
///
/// ```
/// # fn main() -> Result<(), nbft::Refusal> {
/// # let table = include_bytes!("../../../samples/machine.nbft");
/// use nbft::{object, object_place, offsets, Kind};
///
/// let place = object_place(table, Kind::Host, 0, offsets::host::NQN)?.unwrap();
/// assert_eq!(object(table, Kind::Host, 0, offsets::host::NQN)?, Some(&table[place]));
/// # Ok(())
/// # }
/// ```
pub fn object_place(table: &[u8], kind: Kind, position: u16, offset: u32) -> Result<Option<Range<usize>>, Refusal> {
    let packed = library::object_place(table, kind as u8, position, offset);
    answered(packed as u32)?;
    let (length, start) = (usize::from((packed >> 32) as u16), usize::from((packed >> 48) as u16));
    Ok((start != 0).then_some(start..start + length))
}
