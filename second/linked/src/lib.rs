//! The static library's functions, for Rust.

pub mod builder;
pub mod builds;
pub mod cases;
pub mod checks;
pub mod closings;
pub mod guard;
pub mod holes;
pub mod long_forms;
pub mod margins;
pub mod mischief;
pub mod noise;
pub mod reads;
pub mod records;
pub mod rewrites;
pub mod runs;
pub mod soak;
pub mod sums;
pub mod tables;
pub mod tally;

use second::whole::ENTRY_SIZE;
use second::{Answer, EntryBytes, Field, Records};
use std::ops::Range;
use std::ptr::{null, null_mut, NonNull};

extern "C" {
    fn nbft_check(table: *const u8, length: usize) -> u32;
    fn nbft_check_looks(table: *const u8, length: usize) -> u64;
    fn nbft_field(table: *const u8, length: usize, kind: u8, position: u16, offset: u32, value: *mut [u8; 16]) -> u64;
    fn nbft_object(table: *const u8, length: usize, kind: u8, position: u16, offset: u32) -> u64;
    fn nbft_object_start(table: *const u8, length: usize, kind: u8, position: u16, offset: u32) -> u32;
    fn nbft_object_place(table: *const u8, length: usize, kind: u8, position: u16, offset: u32) -> u64;
    fn nbft_record(table: *const u8, length: usize, kind: u8, position: u16, entry: *mut EntryBytes) -> u32;
    fn nbft_records(
        table: *const u8,
        length: usize,
        kind: u8,
        position: u16,
        last: u8,
        entries: *mut u8,
        room: usize,
    ) -> u64;
    fn nbft_rewrite(table: *const u8, length: usize, output: *mut u8, room: usize) -> u64;
    fn nbft_compact(table: *mut u8, length: usize, map: *mut u8, room: usize) -> u64;
}

/// What the static library answers to these bytes.
pub fn check(lent: &[u8]) -> Answer {
    // SAFETY: the pointer and the length are a slice's; the function only reads.
    unpack(unsafe { nbft_check(lent.as_ptr(), lent.len()) })
}

/// The same, and how often it looked at records.
pub fn check_looks(lent: &[u8]) -> (Answer, u32) {
    // SAFETY: as above.
    unpack_looks(unsafe { nbft_check_looks(lent.as_ptr(), lent.len()) })
}

/// What both answer to no bytes, lent where nothing can be read: at null, and at a place that dangles.
pub fn check_nothing() -> [(Answer, (Answer, u32)); 2] {
    let dangling: *const u8 = NonNull::dangling().as_ptr();
    // SAFETY: no byte is lent, so the functions read none.
    [null(), dangling].map(|place| unsafe { (unpack(nbft_check(place, 0)), unpack_looks(nbft_check_looks(place, 0))) })
}

/// Stands in a field's 16 bytes before they are read; a refused read leaves it.
pub const UNTOUCHED: [u8; 16] = [0xA5; 16];

/// What it answers to a read of a field, with what it then left in the 16 bytes.
pub fn field(lent: &[u8], kind: u8, position: u16, offset: u32) -> Field {
    let mut bytes = UNTOUCHED;
    // SAFETY: as above; the function writes 16 bytes at most.
    let packed = unsafe { nbft_field(lent.as_ptr(), lent.len(), kind, position, offset, &mut bytes) };
    Field {
        answer: unpack(packed as u32),
        used: packed >> 32 & 0xFF == 1,
        length: (packed >> 40) as usize,
        bytes,
    }
}

/// What a read of an object gives: where it stands in the lent bytes, text without the byte that ends it.
#[derive(Debug, PartialEq, Eq)]
pub struct Object {
    pub answer: Answer,
    /// Bits 48 to 63 of what the library gives: 1 where the object is present, and no other bit is ever set.
    pub present: u16,
    pub place: Range<usize>,
}

/// What it answers to a read of an object, by two calls.
pub fn object(lent: &[u8], kind: u8, position: u16, offset: u32) -> Object {
    let (answer, length, present) = object_length(lent, kind, position, offset);
    let start = object_start(lent, kind, position, offset);
    Object { answer, present, place: start..start + length }
}

/// By the first of them: the answer, the object's length, and what says that it is present.
pub fn object_length(lent: &[u8], kind: u8, position: u16, offset: u32) -> (Answer, usize, u16) {
    // SAFETY: as above; the function only reads.
    let packed = unsafe { nbft_object(lent.as_ptr(), lent.len(), kind, position, offset) };
    (unpack(packed as u32), usize::from((packed >> 32) as u16), (packed >> 48) as u16)
}

/// By the second: where the object starts.
pub fn object_start(lent: &[u8], kind: u8, position: u16, offset: u32) -> usize {
    // SAFETY: as above; the function only reads.
    unsafe { nbft_object_start(lent.as_ptr(), lent.len(), kind, position, offset) as usize }
}

/// The same by the one call that gives a place. No object starts at 0, so that it says with the start which are absent.
pub fn object_place(lent: &[u8], kind: u8, position: u16, offset: u32) -> Object {
    // SAFETY: as above; the function only reads.
    unpack_place(unsafe { nbft_object_place(lent.as_ptr(), lent.len(), kind, position, offset) })
}

/// Stands in an entry before a record is read there; a refused read leaves it.
pub const UNTOUCHED_ENTRY: EntryBytes = [0xA5; ENTRY_SIZE];

/// What it answers to a read of a whole record, which it then left in the entry.
pub fn record(lent: &[u8], kind: u8, position: u16, entry: &mut EntryBytes) -> Answer {
    // SAFETY: as above; the function writes the entry alone.
    unpack(unsafe { nbft_record(lent.as_ptr(), lent.len(), kind, position, entry) })
}

/// What it gives for a read of whole records in a row, whose entries it then left in the output.
pub fn records(lent: &[u8], kind: u8, position: u16, last: u8, output: &mut [u8]) -> Records {
    let (entries, room) = (output.as_mut_ptr(), output.len());
    // SAFETY: pointers and lengths are two slices'; the function reads the one and writes the other.
    unpack_records(unsafe { nbft_records(lent.as_ptr(), lent.len(), kind, position, last, entries, room) })
}

/// What it gives for all records where the output has no bytes and stands where nothing can be written: at null, and at
/// a place that dangles. A table without bytes stands there too.
pub fn records_into_nothing(lent: &[u8]) -> [Records; 2] {
    let dangling: *mut u8 = NonNull::dangling().as_ptr();
    [null_mut(), dangling].map(|place| {
        let table = if lent.is_empty() { place.cast_const() } else { lent.as_ptr() };
        // SAFETY: no byte of the output is lent, so the function writes none.
        unpack_records(unsafe { nbft_records(table, lent.len(), 0, 0, 10, place, 0) })
    })
}

/// What it answers to reads of a record and of an object's place in no bytes, lent at null and at a place that dangles,
/// with what is then left in the entry.
pub fn read_nothing() -> [(Answer, EntryBytes, Object); 2] {
    let dangling: *const u8 = NonNull::dangling().as_ptr();
    [null(), dangling].map(|place| {
        let mut entry = UNTOUCHED_ENTRY;
        // SAFETY: no byte is lent to be read, so the functions read none; the entry is there to be written.
        let (answer, packed) =
            unsafe { (nbft_record(place, 0, 0, 0, &mut entry), nbft_object_place(place, 0, 2, 0, 18)) };
        (unpack(answer), entry, unpack_place(packed))
    })
}

/// What it answers to a rewrite, and the length of the form that it then left in the output.
pub fn rewrite(lent: &[u8], output: &mut [u8]) -> (Answer, usize) {
    // SAFETY: pointers and lengths are two slices'; the function reads the one and writes the other.
    let packed = unsafe { nbft_rewrite(lent.as_ptr(), lent.len(), output.as_mut_ptr(), output.len()) };
    (unpack(packed as u32), (packed >> 32) as usize)
}

/// What it answers where the output has no bytes and stands where nothing can be written: at null, and at a place
/// that dangles. A table without bytes stands there too.
pub fn rewrite_into_nothing(lent: &[u8]) -> [(Answer, usize); 2] {
    let dangling: *mut u8 = NonNull::dangling().as_ptr();
    [null_mut(), dangling].map(|place| {
        let table = if lent.is_empty() { place.cast_const() } else { lent.as_ptr() };
        // SAFETY: no byte of the output is lent, so the function writes none.
        let packed = unsafe { nbft_rewrite(table, lent.len(), place, 0) };
        (unpack(packed as u32), (packed >> 32) as usize)
    })
}

/// What it answers when it closes up the table, and how many bytes of the heap it then moved.
pub fn compact(table: &mut [u8], map: &mut [u8]) -> (Answer, usize) {
    // SAFETY: pointers and lengths are two slices', which nothing else holds.
    let packed = unsafe { nbft_compact(table.as_mut_ptr(), table.len(), map.as_mut_ptr(), map.len()) };
    (unpack(packed as u32), (packed >> 32) as usize)
}

/// The same where the map has no bytes and stands where nothing can be written: at null, and at a place that dangles. A
/// table without bytes stands there too. Beside what is given stands what is left of the table.
pub fn compact_with_nothing(lent: &[u8]) -> [((Answer, usize), Vec<u8>); 2] {
    let dangling: *mut u8 = NonNull::dangling().as_ptr();
    [null_mut(), dangling].map(|place| {
        let mut table = lent.to_vec();
        let start = if table.is_empty() { place } else { table.as_mut_ptr() };
        // SAFETY: no byte of the map is lent, so the function writes none there.
        let packed = unsafe { nbft_compact(start, table.len(), place, 0) };
        ((unpack(packed as u32), (packed >> 32) as usize), table)
    })
}

/// Bytes as a message shows them.
pub fn hex(bytes: &[u8]) -> String {
    bytes.iter().map(|byte| format!("{byte:02X}")).collect()
}

/// Where two rows of bytes first differ, as a message says it behind what else it tells: nothing where they do not.
fn first_difference(name: &str, given: &[u8], expected: &[u8]) -> String {
    let mut pairs = given.iter().zip(expected).enumerate();
    match pairs.find(|(_, (given, expected))| given != expected) {
        Some((place, (is, should))) => format!("; byte {place} of the {name} is {is:02X} and not {should:02X}"),
        None => String::new(),
    }
}

/// Bits 0 to 31 the answer, 32 to 63 the looks.
fn unpack_looks(packed: u64) -> (Answer, u32) {
    (unpack(packed as u32), (packed >> 32) as u32)
}

/// Bits 0 to 31 the answer, 32 to 47 the object's length, 48 to 63 its start.
fn unpack_place(packed: u64) -> Object {
    let (length, start) = (usize::from((packed >> 32) as u16), (packed >> 48) as usize);
    Object { answer: unpack(packed as u32), present: (start != 0).into(), place: start..start + length }
}

/// Bits 0 to 31 the answer, 32 to 47 the entries written, 48 to 63 all that there are.
fn unpack_records(packed: u64) -> Records {
    let (written, total) = (usize::from((packed >> 32) as u16), (packed >> 48) as usize);
    Records { answer: unpack(packed as u32), written, total }
}

/// Bits 0 to 7 number, 8 to 15 kind, 16 to 31 position.
fn unpack(packed: u32) -> Answer {
    let [number, kind, low, high] = packed.to_le_bytes();
    Answer {
        number,
        kind,
        position: u16::from_le_bytes([low, high]),
    }
}
