//! Builds a table from parts, one call for each record.

use crate::answer::{number, Answer, HEADER_KIND};
use crate::discovery::Discovery;
use crate::form::{lay_out, lay_out_front, record_start, records_end, seal, Heap, HOST_START};
use crate::frame::GREATEST_LENGTH;
use crate::host::Host;
use crate::identity::Identity;
use crate::interface::{Info, Interface};
use crate::meaning::{check, Origin};
use crate::record::{judge_secondary, Bytes, HeapRecord, Number, Objects, Record};
use crate::security::Security;
use crate::state::{State, READY};
use crate::subsystem::{Extended, Subsystem};
use crate::text::Text;
use crate::wire::put;
use std::borrow::Cow;

const LONGEST_OBJECT: usize = 65_535;
const OUT_OF_TURN: Answer = Answer::plain(number::OUT_OF_TURN);

/// An HFI record as it is told. The extended info counts only where it is
/// told and the info's version has it.
#[derive(Clone, Copy, Debug)]
pub struct ToldInterface<'a> {
    pub record: [u8; 32],
    pub info: [u8; 128],
    pub host_name: &'a [u8],
    pub extended: Option<[u8; 20]>,
    pub iaid: &'a [u8],
    pub duid: &'a [u8],
}

/// An SSNS record as it is told. The extended info counts only when the
/// record's flags say that it is in use.
#[derive(Clone, Copy, Debug)]
pub struct ToldSubsystem<'a> {
    pub record: [u8; 128],
    pub address: &'a [u8],
    pub service: &'a [u8],
    pub secondary_interfaces: &'a [u8],
    pub name: &'a [u8],
    pub extended: [u8; 18],
    pub root_path: &'a [u8],
}

/// Objects that a caller tells, each with its reference field's offset, text
/// without the zero byte that ends it, and the heap record: no record refers
/// to more than one.
#[derive(Clone, Copy)]
struct Told<'a> {
    objects: &'a [(usize, &'a [u8])],
    heap_record: Option<(&'a [u8], &'a Told<'a>)>,
    /// How many interface positions the table is to have.
    interfaces: u8,
}

impl<'a> Told<'a> {
    /// Without heap record, and with no object that is a secondary list.
    fn plain(objects: &'a [(usize, &'a [u8])]) -> Told<'a> {
        Told {
            objects,
            heap_record: None,
            interfaces: 0,
        }
    }

    /// An empty object is an absent one.
    fn at(&self, field: usize) -> Option<&'a [u8]> {
        let told = self.objects.iter().find(|(offset, _)| *offset == field);
        told.map(|(_, object)| *object).filter(|o| !o.is_empty())
    }
}

impl<'a> Objects<'a> for Told<'a> {
    fn optional(&self, field: usize) -> Result<Option<Bytes<'a>>, Number> {
        self.at(field).map(told_object).transpose()
    }

    fn optional_text(&self, field: usize) -> Result<Option<Text<'a>>, Number> {
        self.at(field).map(Text::told).transpose()
    }

    fn optional_secondary(&self, field: usize) -> Result<Option<Bytes<'a>>, Number> {
        let list = self.optional(field)?;
        judge_secondary(list.as_deref(), self.interfaces)?;
        Ok(list)
    }

    fn optional_heap_record(&self, _field: usize) -> Result<Option<HeapRecord<'a>>, Number> {
        let nested = |(bytes, told): (&'a [u8], &'a Told<'a>)| -> HeapRecord<'a> {
            (Cow::Borrowed(bytes), Box::new(*told))
        };
        Ok(self.heap_record.map(nested))
    }
}

/// The same records as if every object were fine.
struct FineObjects<'a>(&'a Told<'a>);

impl<'a> Objects<'a> for FineObjects<'a> {
    fn optional(&self, _field: usize) -> Result<Option<Bytes<'a>>, Number> {
        Ok(Some(Cow::Borrowed(b"fine")))
    }

    fn optional_text(&self, _field: usize) -> Result<Option<Text<'a>>, Number> {
        Ok(Some(Text::of("fine")))
    }

    fn optional_secondary(&self, _field: usize) -> Result<Option<Bytes<'a>>, Number> {
        Ok(None)
    }

    fn optional_heap_record(&self, _field: usize) -> Result<Option<HeapRecord<'a>>, Number> {
        let nested = |(bytes, told): (&'a [u8], &'a Told<'a>)| -> HeapRecord<'a> {
            (Cow::Borrowed(bytes), Box::new(FineObjects(told)))
        };
        Ok(self.0.heap_record.map(nested))
    }
}

/// An object that no length field can hold is wrong.
fn told_object(object: &[u8]) -> Result<Bytes<'_>, Number> {
    if object.len() > LONGEST_OBJECT {
        Err(number::REFERENCE)
    } else {
        Ok(Cow::Borrowed(object))
    }
}

/// A copy of told bytes with identity, index and valid bit put right.
fn stamped<'a, R: Record<'a>>(told: &[u8], position: u16) -> Vec<u8> {
    let mut bytes = told.to_vec();
    R::stamp(&mut bytes, position);
    bytes
}

/// Whether the table can grow to this end, and the buffer holds it.
fn judge_end(buffer: &[u8], end: usize) -> Result<(), Answer> {
    if end > GREATEST_LENGTH {
        Err(Answer::plain(number::FORM_TOO_LONG))
    } else if end > buffer.len() {
        Err(Answer::plain(number::OUTPUT_TOO_SHORT))
    } else {
        Ok(())
    }
}

/// A refused call hands back the state it was given.
fn handed_back(given: State, outcome: Result<State, Answer>) -> (Answer, State) {
    match outcome {
        Ok(state) => (Answer::DONE, state),
        Err(answer) => (answer, given),
    }
}

/// The record that is told. What is wrong with it or its heap records comes
/// before what is wrong with any object, whatever the order of the fields.
fn read_told<'a, R: Record<'a>>(
    bytes: &[u8],
    position: u16,
    objects: &'a Told<'a>,
) -> Result<R, Number> {
    R::read(bytes, position, &FineObjects(objects))?;
    R::read(bytes, position, objects)
}

/// Writes the record whose turn it is.
fn place<'a, R: Record<'a>>(
    buffer: &mut [u8],
    state: State,
    told: &[u8],
    objects: &'a Told<'a>,
) -> Result<State, Answer> {
    if !state.is_begun() || state.turn != u16::from(R::ID) {
        return Err(OUT_OF_TURN);
    }
    let position = state.position;
    let bytes = stamped::<R>(told, position);
    let record: R = read_told(&bytes, position, objects)
        .map_err(|number| Answer::at(number, R::ID, position))?;
    let mut heap = Heap::starting_at(state.end());
    let bytes = lay_out(&record, position, &mut heap);
    judge_end(buffer, heap.end())?;
    put(buffer, record_start::<R>(state.counts, position), &bytes);
    put(buffer, heap.start, &heap.bytes);
    Ok(state.after(heap.end(), record.minor()))
}

fn try_begin(
    buffer: &mut [u8],
    state: State,
    header: &[u8; Origin::SIZE],
    counts: [u8; 4],
    signature: &[u8],
) -> Result<State, Answer> {
    if state != State::EMPTY {
        return Err(OUT_OF_TURN);
    }
    told_object(signature).map_err(|number| Answer::at(number, HEADER_KIND, 0))?;
    let start = records_end(counts);
    let end = start + signature.len();
    judge_end(buffer, end)?;
    let reference = match signature.len() {
        0 => (0, 0),
        length => (start as u32, length as u16),
    };
    let mut front = lay_out_front(&Origin::default(), counts, reference);
    put(&mut front, Origin::START, header);
    put(buffer, 0, &front);
    buffer[HOST_START..start].fill(0);
    put(buffer, start, signature);
    Ok(State::begun(counts, end))
}

/// Writes header, control record and driver signature, and clears the
/// record area.
pub fn begin(
    buffer: &mut [u8],
    state: State,
    header: &[u8; Origin::SIZE],
    counts: [u8; 4],
    signature: &[u8],
) -> (Answer, State) {
    let outcome = try_begin(buffer, state, header, counts, signature);
    handed_back(state, outcome)
}

pub fn host(buffer: &mut [u8], state: State, record: &[u8; 32], name: &[u8]) -> (Answer, State) {
    let objects = [(18, name)];
    let outcome = place::<Host>(buffer, state, record, &Told::plain(&objects));
    handed_back(state, outcome)
}

pub fn hfi(buffer: &mut [u8], state: State, told: &ToldInterface) -> (Answer, State) {
    let info = stamped::<Info>(&told.info, state.position);
    let extended = told.extended;
    let extended = extended.map(|bytes| stamped::<Identity>(&bytes, state.position));
    let client = [(8, told.iaid), (14, told.duid)];
    let client = Told::plain(&client);
    let inner = Told {
        objects: &[(104, told.host_name)],
        heap_record: extended.as_deref().map(|bytes| (bytes, &client)),
        ..Told::plain(&[])
    };
    let objects = Told {
        heap_record: Some((&info, &inner)),
        ..Told::plain(&[])
    };
    let outcome = place::<Interface>(buffer, state, &told.record, &objects);
    handed_back(state, outcome)
}

pub fn ssns(buffer: &mut [u8], state: State, told: &ToldSubsystem) -> (Answer, State) {
    let extended = stamped::<Extended>(&told.extended, state.position);
    let root_path = [(12, told.root_path)];
    let objects = Told {
        objects: &[
            (10, told.address),
            (16, told.service),
            (48, told.secondary_interfaces),
            (54, told.name),
        ],
        heap_record: Some((&extended, &Told::plain(&root_path))),
        interfaces: state.counts[0],
    };
    let outcome = place::<Subsystem>(buffer, state, &told.record, &objects);
    handed_back(state, outcome)
}

/// The objects are in the order of their reference fields.
pub fn security(
    buffer: &mut [u8],
    state: State,
    record: &[u8; 64],
    objects: [&[u8]; 6],
) -> (Answer, State) {
    let [algorithms, protocols, ciphers, groups, hashes, keypath] = objects;
    let objects = [
        (6, algorithms),
        (12, protocols),
        (18, ciphers),
        (24, groups),
        (30, hashes),
        (36, keypath),
    ];
    let outcome = place::<Security>(buffer, state, record, &Told::plain(&objects));
    handed_back(state, outcome)
}

pub fn discovery(
    buffer: &mut [u8],
    state: State,
    record: &[u8; 32],
    address: &[u8],
    name: &[u8],
) -> (Answer, State) {
    let objects = [(6, address), (12, name)];
    let outcome = place::<Discovery>(buffer, state, record, &Told::plain(&objects));
    handed_back(state, outcome)
}

/// Leaves the list position whose turn it is unused; no byte is written.
pub fn leave(buffer: &mut [u8], state: State) -> (Answer, State) {
    if !state.is_begun() || !state.is_in_list() {
        return (OUT_OF_TURN, state);
    }
    let outcome = judge_end(buffer, state.end()).map(|()| state.next());
    handed_back(state, outcome)
}

/// Stores heap length, Length, minor revision and checksum, if the reader
/// takes the table that this makes.
pub fn finish(buffer: &mut [u8], state: State) -> (Answer, State) {
    if !state.is_begun() || state.turn != READY {
        return (OUT_OF_TURN, state);
    }
    let used = state.end();
    if let Err(answer) = judge_end(buffer, used) {
        return (answer, state);
    }
    let mut table = buffer[..used].to_vec();
    let heap_length = used - records_end(state.counts);
    seal(&mut table, heap_length, state.minor as u8);
    let answer = check(&table);
    if !answer.is_done() {
        return (answer, state);
    }
    put(buffer, 0, &table);
    (Answer::DONE, state.finished())
}
