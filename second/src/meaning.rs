//! What an accepted table says, free of how it is laid out.

use crate::answer::{number, Answer, HEADER_KIND};
use crate::discovery::Discovery;
use crate::frame::{Frame, DRIVER_SIGNATURE_AT};
use crate::host::Host;
use crate::interface::Interface;
use crate::looks::Lookup;
use crate::record::{heap_length, Bytes, InTable, Objects, Record};
use crate::security::Security;
use crate::subsystem::Subsystem;
use crate::wire::{array_at, put, put_u32, u32_at};

/// A list position.
#[derive(Clone, Debug, PartialEq, Eq)]
pub enum Entry<R> {
    Unused,
    Used(R),
}

impl<R> Entry<R> {
    pub fn used(&self) -> Option<&R> {
        match self {
            Entry::Unused => None,
            Entry::Used(record) => Some(record),
        }
    }
}

/// The header fields that tell who made the table.
#[derive(Clone, Debug, Default, PartialEq, Eq)]
pub struct Origin {
    pub oem: [u8; 6],
    pub oem_table: [u8; 8],
    pub oem_revision: u32,
    pub creator: [u8; 4],
    pub creator_revision: u32,
}

impl Origin {
    /// Bytes 10 to 35 of a header.
    pub const START: usize = 10;
    pub const SIZE: usize = 26;

    pub fn read(header: &[u8]) -> Origin {
        Origin {
            oem: array_at(header, 10),
            oem_table: array_at(header, 16),
            oem_revision: u32_at(header, 24),
            creator: array_at(header, 28),
            creator_revision: u32_at(header, 32),
        }
    }

    pub fn write(&self, header: &mut [u8]) {
        put(header, 10, &self.oem);
        put(header, 16, &self.oem_table);
        put_u32(header, 24, self.oem_revision);
        put(header, 28, &self.creator);
        put_u32(header, 32, self.creator_revision);
    }
}

#[derive(Clone, Debug, PartialEq, Eq)]
pub struct Meaning<'a> {
    pub origin: Origin,
    pub driver_signature: Option<Bytes<'a>>,
    pub host: Host<'a>,
    pub interfaces: Vec<Entry<Interface<'a>>>,
    pub subsystems: Vec<Entry<Subsystem<'a>>>,
    pub securities: Vec<Entry<Security<'a>>>,
    pub discoveries: Vec<Entry<Discovery<'a>>>,
}

impl<'a> Meaning<'a> {
    /// The meaning of a good table, or the first fault of another.
    pub fn read(lent: &'a [u8]) -> Result<Meaning<'a>, Answer> {
        Meaning::within(Frame::read(lent)?)
    }

    /// The same of a table whose frame is good.
    pub fn within(frame: Frame<'a>) -> Result<Meaning<'a>, Answer> {
        Meaning::looked_up(&Lookup::of(frame))
    }

    /// The same, and the looks that this takes are counted.
    fn looked_up(records: &Lookup<'a>) -> Result<Meaning<'a>, Answer> {
        let frame = records.frame;
        let header = InTable {
            frame,
            record: frame.table,
        };
        let in_header = |number| Answer::at(number, HEADER_KIND, 0);
        // Records are read in the order in which their faults count.
        Ok(Meaning {
            origin: Origin::read(frame.table),
            driver_signature: header.optional(DRIVER_SIGNATURE_AT).map_err(in_header)?,
            host: read_record(records, records.host_record(), 0)?,
            interfaces: read_list(records)?,
            subsystems: read_list(records)?,
            securities: read_list(records)?,
            discoveries: read_list(records)?,
        })
    }

    pub fn counts(&self) -> [u8; 4] {
        [
            self.interfaces.len(),
            self.subsystems.len(),
            self.securities.len(),
            self.discoveries.len(),
        ]
        .map(|count| count as u8)
    }

    /// The minor revision of the form: the least that has all interfaces.
    pub fn minor(&self) -> u8 {
        let used = self.interfaces.iter().filter_map(Entry::used);
        used.map(Interface::minor).max().unwrap_or(0)
    }

    /// All object and heap record bytes, as if nothing were shared.
    pub fn heap_length(&self) -> usize {
        self.driver_signature.as_ref().map_or(0, |o| o.len())
            + heap_length(&self.host)
            + list_heap_length(&self.interfaces)
            + list_heap_length(&self.subsystems)
            + list_heap_length(&self.securities)
            + list_heap_length(&self.discoveries)
    }
}

fn read_record<'a, R: Record<'a>>(
    records: &Lookup<'a>,
    bytes: &'a [u8],
    position: u16,
) -> Result<R, Answer> {
    let objects = InTable {
        frame: records.frame,
        record: bytes,
    };
    let in_record = |number| Answer::at(number, R::ID, position);
    let record = R::read(bytes, position, &objects).map_err(in_record)?;
    if record.indexes_hold(records) {
        Ok(record)
    } else {
        Err(in_record(number::INDEX))
    }
}

fn read_list<'a, R: Record<'a>>(records: &Lookup<'a>) -> Result<Vec<Entry<R>>, Answer> {
    let count = u16::from(records.frame.list(R::ID).count);
    let read = |position| {
        let bytes = records.list_record::<R>(position);
        if R::is_valid(bytes) {
            read_record(records, bytes, position).map(Entry::Used)
        } else {
            Ok(Entry::Unused)
        }
    };
    (1..=count).map(read).collect()
}

fn list_heap_length<'a, R: Record<'a>>(list: &[Entry<R>]) -> usize {
    list.iter().filter_map(Entry::used).map(heap_length).sum()
}

/// Whether a table is good, and if not, its first fault.
pub fn check(lent: &[u8]) -> Answer {
    match Meaning::read(lent) {
        Ok(_) => Answer::DONE,
        Err(answer) => answer,
    }
}

/// The same, and how often records were looked at until the answer was known.
pub fn check_looks(lent: &[u8]) -> (Answer, u32) {
    let records = match Frame::read(lent) {
        Ok(frame) => Lookup::of(frame),
        Err(answer) => return (answer, 0),
    };
    let outcome = Meaning::looked_up(&records);
    (outcome.err().unwrap_or(Answer::DONE), records.looks())
}

/// The meaning of a table that is known to be good.
pub fn meaning(table: &[u8]) -> Meaning<'_> {
    Meaning::read(table).expect("only a good table has a meaning")
}
