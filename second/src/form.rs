//! The one form of a meaning, and the rewriter.

use crate::answer::{number, Answer};
use crate::discovery::Discovery;
use crate::frame::{
    CONTROL_SIZE, CONTROL_START, DRIVER_SIGNATURE_AT, GREATEST_LENGTH, MINOR_AT, SIGNATURE,
};
use crate::host::Host;
use crate::interface::Interface;
use crate::meaning::{Entry, Meaning, Origin};
use crate::record::{Record, Target};
use crate::security::Security;
use crate::subsystem::Subsystem;
use crate::wire::{byte_sum, put, put_reference, put_u16, put_u32};

/// Where the form's host record starts: right behind header and control.
pub const HOST_START: usize = CONTROL_START + CONTROL_SIZE;

/// Where the form's list of this kind starts; the kind past the last list
/// gives the records' end.
fn list_start(counts: [u8; 4], kind: u8) -> usize {
    let [interfaces, subsystems, securities, discoveries] = counts.map(usize::from);
    let mut start = HOST_START + Host::SIZE;
    if kind > Interface::ID {
        start += interfaces * Interface::SIZE;
    }
    if kind > Subsystem::ID {
        start += subsystems * Subsystem::SIZE;
    }
    if kind > Security::ID {
        start += securities * Security::SIZE;
    }
    if kind > Discovery::ID {
        start += discoveries * Discovery::SIZE;
    }
    start
}

/// Where the form's records end and its heap starts.
pub fn records_end(counts: [u8; 4]) -> usize {
    list_start(counts, Discovery::ID + 1)
}

/// Where the form's record of this kind and position starts.
pub fn record_start<'a, R: Record<'a>>(counts: [u8; 4], position: u16) -> usize {
    if R::ID == Host::ID {
        HOST_START
    } else {
        list_start(counts, R::ID) + usize::from(position - 1) * R::SIZE
    }
}

/// Collects objects one after another from a given place of the table on.
pub struct Heap {
    pub start: usize,
    pub bytes: Vec<u8>,
}

impl Heap {
    pub fn starting_at(start: usize) -> Heap {
        Heap {
            start,
            bytes: Vec::new(),
        }
    }

    pub fn end(&self) -> usize {
        self.start + self.bytes.len()
    }

    fn append(&mut self, bytes: &[u8]) -> (u32, u16) {
        let offset = self.end() as u32;
        self.bytes.extend_from_slice(bytes);
        (offset, bytes.len() as u16)
    }

    /// Puts a heap record first and what it refers to right behind it.
    fn append_record<'a, R: Record<'a>>(&mut self, record: &R, position: u16) -> (u32, u16) {
        let place = self.bytes.len();
        let reference = self.append(&vec![0; R::SIZE]);
        let bytes = lay_out(record, position, self);
        put(&mut self.bytes, place, &bytes);
        reference
    }
}

/// The record's bytes at base size; what it refers to goes to the heap.
pub fn lay_out<'a, R: Record<'a>>(record: &R, position: u16, heap: &mut Heap) -> Vec<u8> {
    let mut bytes = vec![0; R::SIZE];
    record.write_fields(position, &mut bytes);
    for (field, target) in record.targets() {
        let (offset, length) = match target {
            Target::Absent => (0, 0),
            Target::Object(object) => heap.append(object),
            Target::Text(text) => heap.append(text.ended()),
            Target::Info(info) => heap.append_record(info, position),
            Target::Identity(identity) => heap.append_record(identity, position),
            Target::Extended(extended) => heap.append_record(extended, position),
        };
        put_reference(&mut bytes, field, offset, length);
    }
    bytes
}

/// Header and control record, with what is stored last still 0.
pub fn lay_out_front(origin: &Origin, counts: [u8; 4], signature: (u32, u16)) -> Vec<u8> {
    let mut bytes = vec![0; HOST_START];
    put(&mut bytes, 0, &SIGNATURE);
    bytes[8] = 1;
    origin.write(&mut bytes);
    put_u32(&mut bytes, 36, records_end(counts) as u32);
    put_reference(&mut bytes, DRIVER_SIGNATURE_AT, signature.0, signature.1);
    put(&mut bytes, CONTROL_START, &[1, 1]);
    put_u16(&mut bytes, 68, CONTROL_SIZE as u16);
    bytes[70] = 1;
    put_reference(&mut bytes, 72, HOST_START as u32, Host::SIZE as u16);
    bytes[78] = 1;
    put_list::<Interface>(&mut bytes, 80, counts, counts[0]);
    put_list::<Subsystem>(&mut bytes, 88, counts, counts[1]);
    put_list::<Security>(&mut bytes, 96, counts, counts[2]);
    put_list::<Discovery>(&mut bytes, 104, counts, counts[3]);
    bytes
}

fn put_list<'a, R: Record<'a>>(bytes: &mut [u8], at: usize, counts: [u8; 4], count: u8) {
    if count != 0 {
        let start = list_start(counts, R::ID) as u32;
        put_reference(bytes, at, start, R::SIZE as u16);
    }
    bytes[at + 6] = 1;
    bytes[at + 7] = count;
}

/// Stores Length, heap length and minor revision, and puts the checksum
/// right.
pub fn seal(table: &mut [u8], heap_length: usize, minor: u8) {
    put_u32(table, 4, table.len() as u32);
    put_u32(table, 40, heap_length as u32);
    table[MINOR_AT] = minor;
    put_checksum(table);
}

/// Makes all bytes sum to 0.
pub fn put_checksum(table: &mut [u8]) {
    table[9] = 0;
    table[9] = byte_sum(table).wrapping_neg();
}

pub fn form_length(meaning: &Meaning) -> usize {
    records_end(meaning.counts()) + meaning.heap_length()
}

/// The bytes that every table with this meaning is rewritten to.
pub fn form(meaning: &Meaning) -> Vec<u8> {
    let counts = meaning.counts();
    let mut heap = Heap::starting_at(records_end(counts));
    let signature = match &meaning.driver_signature {
        Some(object) => heap.append(object),
        None => (0, 0),
    };
    let mut table = lay_out_front(&meaning.origin, counts, signature);
    table.extend(lay_out(&meaning.host, 0, &mut heap));
    lay_out_list(&meaning.interfaces, &mut table, &mut heap);
    lay_out_list(&meaning.subsystems, &mut table, &mut heap);
    lay_out_list(&meaning.securities, &mut table, &mut heap);
    lay_out_list(&meaning.discoveries, &mut table, &mut heap);
    table.extend_from_slice(&heap.bytes);
    seal(&mut table, heap.bytes.len(), meaning.minor());
    table
}

fn lay_out_list<'a, R: Record<'a>>(list: &[Entry<R>], table: &mut Vec<u8>, heap: &mut Heap) {
    for (position, entry) in (1..).zip(list) {
        match entry {
            Entry::Unused => table.resize(table.len() + R::SIZE, 0),
            Entry::Used(record) => table.extend(lay_out(record, position, heap)),
        }
    }
}

/// Writes the form of a good table; a refusal leaves the output as it was.
pub fn rewrite(lent: &[u8], output: &mut [u8]) -> (Answer, usize) {
    let meaning = match Meaning::read(lent) {
        Ok(meaning) => meaning,
        Err(answer) => return (answer, 0),
    };
    let length = form_length(&meaning);
    if length > GREATEST_LENGTH {
        return (Answer::plain(number::FORM_TOO_LONG), 0);
    }
    if length > output.len() {
        return (Answer::plain(number::OUTPUT_TOO_SHORT), 0);
    }
    put(output, 0, &form(&meaning));
    (Answer::DONE, length)
}
