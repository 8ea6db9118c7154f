//! Check, read, rewrite, build and close up NVMe boot firmware tables (NBFT).
//!
//! The work is done by the static library `libnbft.a`, whose answers are proved: for any bytes a call ends, touches only
//! what it is lent, and gives the answer that the definitions say. This crate adds slices, types and names to its
//! functions, and nothing else. It needs neither `std` nor an allocator.
//!
//! Any bytes may be handed in, and more of them than the table has. A refused call changes nothing.
//!
//! ```
//! use nbft::{offsets, Builder, Counts, Host, Kind, Number};
//!
//! # fn main() -> Result<(), nbft::Refusal> {
//! let mut buffer = [0; 256];
//! let mut builder = Builder::new(&mut buffer);
//! builder.begin(b"OEM   EXAMPLE \x01\0\0\0MAKE\x01\0\0\0", Counts::default(), b"")?;
//! builder.host(&Host { record: &[0; 32], nqn: b"nqn.2014-08.org.example:host" })?;
//! let table = builder.finish()?;
//!
//! // Checked once, and read by name.
//! let read = nbft::Table::new(table)?;
//! assert_eq!(read.header().oem_id(), *b"OEM   ");
//! assert_eq!(read.host().nqn(), Some(&b"nqn.2014-08.org.example:host"[..]));
//!
//! // One field or object, by kind, position and offset.
//! assert_eq!(nbft::field(table, Kind::Header, 0, offsets::header::OEM_REVISION)?.number(), Some(1));
//! let name = nbft::object(table, Kind::Host, 0, offsets::host::NQN)?;
//! assert_eq!(name, Some(&b"nqn.2014-08.org.example:host"[..]));
//!
//! let refusal = nbft::check(&table[1..]).unwrap_err();
//! assert_eq!(refusal.number, Number::Signature);
//! # Ok(())
//! # }
//! ```

#![no_std]
#![warn(missing_docs)]
#![deny(unsafe_code)]

mod answer;
mod builder;
mod entry;
pub mod flags;
mod library;
pub mod offsets;
pub mod places;
pub mod table;

pub use answer::{Kind, Number, Refusal};
pub use builder::{Builder, Counts, Discovery, Hfi, HfiExtended, Host, Security, Ssns};
pub use entry::{object_place, record, records, Entry, Records};
pub use table::Table;

use answer::answered;
use core::ffi::CStr;

/// Whether the bytes are a good table; if not, its first fault.
pub fn check(table: &[u8]) -> Result<(), Refusal> {
    answered(library::check(table))
}

/// The same check, and how often it looked at a record until its answer was known.
///
/// It looks once at the host and at each position of a list that it visits, used or not, and once for each index that
/// it resolves, the one that fails among them. A table that is refused before its records are visited has no looks.
///
/// With H HFIs, S SSNSs, C security and D discovery records counted, used or not, there are for any bytes at most
/// 1 + H + S × (4 + H) + C + 3 × D looks: a list of secondary HFIs that is longer than H, or names one twice, is
/// refused with [`Number::Secondary`] before any index of its record is resolved.
///
/// ```
/// # fn main() -> Result<(), nbft::Refusal> {
/// # let mut buffer = [0; 512];
/// # let mut builder = nbft::Builder::new(&mut buffer);
/// let counts = nbft::Counts { hfi: 2, discovery: 1, ..nbft::Counts::default() };
/// # builder.begin(&[0; 26], counts, b"")?;
/// # builder.host(&nbft::Host { record: &[0; 32], nqn: b"nqn.2014-08.org.example:host" })?;
/// # let mut info = [0; 128];
/// # info[nbft::offsets::info::INFO_VERSION as usize] = 1;
/// # builder.hfi(&nbft::Hfi { record: &[0; 32], info: &info, name: b"", extended: None })?;
/// # builder.leave()?;
/// # let mut record = [0; 32];
/// # record[nbft::offsets::discovery::HFI_INDEX as usize] = 1;
/// # builder.discovery(&nbft::Discovery { record: &record, address: b"", nqn: b"" })?;
/// # let table = builder.finish()?;
/// // The host, two positions of HFIs of which one is unused, the discovery record, and the HFI that it names.
/// assert_eq!(nbft::check_looks(table), (Ok(()), 1 + 2 + 1 + 1));
/// assert_eq!(nbft::check_looks(&table[1..]).1, 0);
/// # Ok(())
/// # }
/// ```
pub fn check_looks(table: &[u8]) -> (Result<(), Refusal>, u32) {
    let packed = library::check_looks(table);
    (answered(packed as u32), (packed >> 32) as u32)
}

/// A field that was read.
#[derive(Clone, Copy, Debug, PartialEq, Eq)]
pub struct Field {
    used: bool,
    length: u8,
    value: [u8; 16],
}

impl Field {
    /// Whether the record is used. In one that is not every field is zero.
    pub fn used(&self) -> bool {
        self.used
    }

    /// Its bytes in table order, 16 at most.
    pub fn bytes(&self) -> &[u8] {
        &self.value[..usize::from(self.length)]
    }

    /// What its bytes say as a number, the lowest first. Only a field of up to eight bytes is one.
    pub fn number(&self) -> Option<u64> {
        let [low @ .., _, _, _, _, _, _, _, _] = self.value;
        (self.length <= 8).then_some(u64::from_le_bytes(low))
    }
}

/// The field at `offset` in a record; [`Kind`] says which there are, [`offsets`] names them. Those of the control
/// record are counted from the table's start.
///
/// Header, control record and host take position 0, the others that in their list, from 1 on. Reserved bits, and fields
/// that other fields switch off, read as zero.
///
/// A table that is not good is refused as by [`check`], a record or field that is not there with
/// [`Number::NoSuchField`].
pub fn field(table: &[u8], kind: Kind, position: u16, offset: u32) -> Result<Field, Refusal> {
    let mut value = [0; 16];
    let packed = library::field(table, kind as u8, position, offset, &mut value);
    answered(packed as u32)?;
    Ok(Field { used: packed >> 32 & 1 == 1, length: (packed >> 40) as u8, value })
}

/// The object of the reference at `offset` in a record, as a part of `table`; `None` where it is absent.
///
/// A text ([`Kind`] says which objects are) comes without its terminator. One that is present may be empty, and is then
/// `Some(b"")`.
///
/// Positions and refusals are those of [`field`]. In an unused record every object is absent.
pub fn object(table: &[u8], kind: Kind, position: u16, offset: u32) -> Result<Option<&[u8]>, Refusal> {
    let packed = library::object(table, kind as u8, position, offset);
    let start = library::object_start(table, kind as u8, position, offset) as usize;
    answered(packed as u32)?;
    let (present, length) = (packed >> 48 & 1 == 1, usize::from((packed >> 32) as u16));
    Ok(present.then(|| &table[start..start + length]))
}

/// The text of the reference at `offset` with its terminator, as C has it; `None` where it is absent.
///
/// It is the same text as that of [`object`], with the zero byte that stands behind it. A reference to an object that is
/// no text is refused with [`Number::NoSuchField`].
///
/// ```
/// # fn main() -> Result<(), nbft::Refusal> {
/// # let table = include_bytes!("../../../samples/machine.nbft");
/// use nbft::{c_text, object, offsets, Kind};
///
/// let name = c_text(table, Kind::HfiInfo, 1, offsets::info::HOST_NAME)?.unwrap();
/// assert_eq!(name.to_bytes_with_nul(), b"server-17.example.net\0");
/// assert_eq!(object(table, Kind::HfiInfo, 1, offsets::info::HOST_NAME)?, Some(name.to_bytes()));
/// # Ok(())
/// # }
/// ```
pub fn c_text(table: &[u8], kind: Kind, position: u16, offset: u32) -> Result<Option<&CStr>, Refusal> {
    let text = object(table, kind, position, offset)?;
    if !offsets::is_text(kind, offset) {
        return Err(Refusal { number: Number::NoSuchField, kind: Kind::Header, position: 0 });
    }
    let from_start = |text: &[u8]| &table[text.as_ptr() as usize - table.as_ptr() as usize..];
    Ok(text.and_then(|text| CStr::from_bytes_until_nul(from_start(text)).ok()))
}

/// Writes the table's one form into the first bytes of `out`, and hands them back; those behind stay as they were.
///
/// Two good tables say the same exactly when their forms are equal byte for byte. A table that is not good is refused as
/// by [`check`], then one whose form would pass 65,536 bytes, then an `out` that is shorter than the form.
pub fn rewrite<'o>(table: &[u8], out: &'o mut [u8]) -> Result<&'o mut [u8], Refusal> {
    let packed = library::rewrite(table, out);
    answered(packed as u32)?;
    Ok(&mut out[..(packed >> 32) as usize])
}

/// Closes up the table's heap in place, and says how many of its bytes moved.
///
/// Bytes of the heap that no reference names are given up, and those that one names move down in the order in which they
/// stand. What the table says stays as it is, and so do its Length, where the heap begins, and which bytes objects share.
/// Lent bytes behind the table stay too.
///
/// `map` needs a bit for each byte of the heap: `table.len().div_ceil(8)` bytes are always enough. What it holds before
/// means nothing. Afterwards bit n % 8, the lowest first, of byte n / 8 says whether a reference named heap byte n before
/// the call; all further bits are 0.
///
/// A table that is not good is refused as by [`check`], then a map that is too short with [`Number::OutputTooShort`],
/// then with [`Number::Overlap`] a table in which a heap record shares a byte with another object or heap record. A
/// refused call changes neither table nor map.
///
/// ```
/// # fn main() -> Result<(), nbft::Refusal> {
/// # let mut buffer = [0; 256];
/// # let mut builder = nbft::Builder::new(&mut buffer);
/// # builder.begin(&[0; 26], nbft::Counts::default(), b"driver")?;
/// # builder.host(&nbft::Host { record: &[0; 32], nqn: b"nqn.2014-08.org.example:host" })?;
/// # let mut table = builder.finish()?.to_vec();
/// // The driver signature, which stands first in the heap, is taken out of the table.
/// table[44..50].fill(0);
/// table[9] = 0;
/// table[9] = table.iter().fold(0, |sum: u8, byte| sum.wrapping_sub(*byte));
///
/// let mut map = vec![0; table.len().div_ceil(8)];
/// let moved = nbft::compact(&mut table, &mut map)?;
/// assert_eq!(moved as usize, "nqn.2014-08.org.example:host".len() + 1);
/// assert_eq!(nbft::check(&table), Ok(()));
/// # Ok(())
/// # }
/// ```
pub fn compact(table: &mut [u8], map: &mut [u8]) -> Result<u32, Refusal> {
    let packed = library::compact(table, map);
    answered(packed as u32)?;
    Ok((packed >> 32) as u32)
}
