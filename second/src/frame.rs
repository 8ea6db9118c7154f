//! The outer structure of a table: header, control record and regions.

use crate::answer::{number, Answer, CONTROL_KIND};
use crate::discovery::Discovery;
use crate::host::Host;
use crate::interface::Interface;
use crate::record::Record;
use crate::security::Security;
use crate::subsystem::Subsystem;
use crate::wire::{byte_sum, u16_at, u32_at};

pub const SIGNATURE: [u8; 4] = *b"NBFT";
pub const LEAST_LENGTH: usize = 160;
pub const GREATEST_LENGTH: usize = 65_536;
/// Where the control record starts, and how long it is at least.
pub const CONTROL_START: usize = 64;
pub const CONTROL_SIZE: usize = 64;
/// The driver signature's reference field in the header.
pub const DRIVER_SIGNATURE_AT: usize = 44;
/// The minor revision in the header.
pub const MINOR_AT: usize = 50;

/// Bytes of a table. Sums are made in 64 bits, where they cannot wrap.
#[derive(Clone, Copy, Debug, PartialEq, Eq)]
pub struct Region {
    pub start: u64,
    pub length: u64,
}

impl Region {
    pub fn end(self) -> u64 {
        self.start + self.length
    }

    fn shares_a_byte_with(self, other: Region) -> bool {
        self.start < other.end() && other.start < self.end()
    }
}

/// A list entry of the control record.
#[derive(Clone, Copy, Debug, PartialEq, Eq)]
pub struct List {
    pub offset: u32,
    pub record_length: u16,
    pub version: u8,
    pub count: u8,
}

impl List {
    fn read(table: &[u8], at: usize) -> List {
        List {
            offset: u32_at(table, at),
            record_length: u16_at(table, at + 4),
            version: table[at + 6],
            count: table[at + 7],
        }
    }

    pub fn region(self) -> Region {
        Region {
            start: self.offset.into(),
            length: u64::from(self.record_length) * u64::from(self.count),
        }
    }

    fn is_empty(self) -> bool {
        self.count == 0
    }
}

/// A table whose header, control record and regions are good.
#[derive(Clone, Copy, Debug)]
pub struct Frame<'a> {
    /// Exactly the table's Length.
    pub table: &'a [u8],
    pub control_end: u64,
    pub host: Region,
    pub interfaces: List,
    pub subsystems: List,
    pub securities: List,
    pub discoveries: List,
    pub heap: Region,
}

impl<'a> Frame<'a> {
    /// Judges numbers 1 to 9, in that order.
    pub fn read(lent: &'a [u8]) -> Result<Frame<'a>, Answer> {
        let table = judge_header(lent).map_err(Answer::plain)?;
        let in_control = |number| Answer::at(number, CONTROL_KIND, 0);
        judge_control(table).map_err(in_control)?;
        let frame = Frame::of_fields(table);
        if !frame.regions_are_good() {
            return Err(in_control(number::REGION));
        }
        if !frame.versions_are_good() {
            return Err(in_control(number::RECORD_VERSION));
        }
        Ok(frame)
    }

    fn of_fields(table: &'a [u8]) -> Frame<'a> {
        Frame {
            table,
            control_end: CONTROL_START as u64 + u64::from(u16_at(table, 68)),
            host: Region {
                start: u32_at(table, 72).into(),
                length: u16_at(table, 76).into(),
            },
            interfaces: List::read(table, 80),
            subsystems: List::read(table, 88),
            securities: List::read(table, 96),
            discoveries: List::read(table, 104),
            heap: Region {
                start: u32_at(table, 36).into(),
                length: u32_at(table, 40).into(),
            },
        }
    }

    pub fn lists(&self) -> [List; 4] {
        [
            self.interfaces,
            self.subsystems,
            self.securities,
            self.discoveries,
        ]
    }

    pub fn counts(&self) -> [u8; 4] {
        self.lists().map(|list| list.count)
    }

    pub fn regions(&self) -> Vec<Region> {
        let mut regions = vec![self.host];
        let lists = self.lists();
        regions.extend(lists.iter().filter(|l| !l.is_empty()).map(|l| l.region()));
        if self.heap.length != 0 {
            regions.push(self.heap);
        }
        regions
    }

    fn regions_are_good(&self) -> bool {
        let long_enough =
            |list: List, size: usize| list.is_empty() || usize::from(list.record_length) >= size;
        let regions = self.regions();
        let inside = |r: &Region| r.start >= self.control_end && r.end() <= self.table.len() as u64;
        self.host.length >= Host::SIZE as u64
            && long_enough(self.interfaces, Interface::SIZE)
            && long_enough(self.subsystems, Subsystem::SIZE)
            && long_enough(self.securities, Security::SIZE)
            && long_enough(self.discoveries, Discovery::SIZE)
            && regions.iter().all(inside)
            && !any_two_share_a_byte(&regions)
    }

    fn versions_are_good(&self) -> bool {
        let lists = self.lists();
        self.table[78] == 1
            && lists
                .iter()
                .all(|list| list.is_empty() || list.version == 1)
    }

    pub fn host_record(&self) -> &'a [u8] {
        self.part(self.host)
    }

    /// The list of this kind of record.
    pub fn list(&self, kind: u8) -> List {
        match kind {
            Interface::ID => self.interfaces,
            Subsystem::ID => self.subsystems,
            Security::ID => self.securities,
            Discovery::ID => self.discoveries,
            _ => panic!("kind {kind} has no list"),
        }
    }

    /// The record at this position, which must be within the count.
    pub fn list_record(&self, kind: u8, position: u16) -> &'a [u8] {
        let list = self.list(kind);
        let length = u64::from(list.record_length);
        self.part(Region {
            start: u64::from(list.offset) + u64::from(position - 1) * length,
            length,
        })
    }

    /// Whether the index names a record whose valid bit is set.
    pub fn names_valid<R: Record<'a>>(&self, index: u8) -> bool {
        1 <= index
            && index <= self.list(R::ID).count
            && R::is_valid(self.list_record(R::ID, index.into()))
    }

    /// The referred bytes, if they lie wholly in the heap.
    pub fn heap_part(&self, offset: u32, length: u16) -> Option<&'a [u8]> {
        let part = Region {
            start: offset.into(),
            length: length.into(),
        };
        let inside = part.start >= self.heap.start && part.end() <= self.heap.end();
        inside.then(|| self.part(part))
    }

    fn part(&self, region: Region) -> &'a [u8] {
        &self.table[region.start as usize..region.end() as usize]
    }
}

/// Numbers 1 to 6; hands back the table without the bytes beyond its Length.
fn judge_header(lent: &[u8]) -> Result<&[u8], u8> {
    if lent.len() < LEAST_LENGTH {
        return Err(number::TOO_FEW_BYTES);
    }
    if lent[..4] != SIGNATURE {
        return Err(number::SIGNATURE);
    }
    let length = u32_at(lent, 4) as usize;
    if length < LEAST_LENGTH || length > lent.len() {
        return Err(number::LENGTH);
    }
    if length > GREATEST_LENGTH {
        return Err(number::TOO_LONG);
    }
    let table = &lent[..length];
    if byte_sum(table) != 0 {
        return Err(number::CHECKSUM);
    }
    if table[8] != 1 {
        return Err(number::HEADER_VERSION);
    }
    Ok(table)
}

/// Number 7.
fn judge_control(table: &[u8]) -> Result<(), u8> {
    let identity = table[64] == 1 && table[65] == 1;
    let size = usize::from(u16_at(table, 68));
    let fits = size >= CONTROL_SIZE && CONTROL_START + size <= table.len();
    let block_valid = table[70] & 1 == 1;
    if identity && fits && block_valid {
        Ok(())
    } else {
        Err(number::CONTROL)
    }
}

fn any_two_share_a_byte(regions: &[Region]) -> bool {
    regions.iter().enumerate().any(|(place, first)| {
        let later = &regions[place + 1..];
        later.iter().any(|other| first.shares_a_byte_with(*other))
    })
}
