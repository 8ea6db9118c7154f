//! Every kind, position and offset of a table, read by both programs, and each record whole.

use crate::cases::each;
use crate::guard::Guarded;
use crate::tally::Tally;
use crate::{first_difference, hex, tables, Object, UNTOUCHED_ENTRY};
use second::random::Random;
use second::read::Reading;
use second::secondary::{listing, named_twice};
use second::{form, Answer, Field};
use std::fmt::Debug;

/// All kinds, and numbers that are none.
pub const KINDS: [u8; 13] = [0, 1, 2, 3, 4, 5, 6, 7, 8, 9, 10, 11, 255];
/// A record has at most 128 bytes, and some offsets behind it.
const OFFSETS: u32 = 131;

/// Kind, position and offset.
type At = (u8, u16, u32);

/// The library's reads of a table, each compared and counted.
pub trait Read: FnMut(&[u8], &mut Tally) -> Result<(), String> {}

impl<F: FnMut(&[u8], &mut Tally) -> Result<(), String>> Read for F {}

pub fn by_library(table: &[u8], tally: &mut Tally) -> Result<(), String> {
    all(table, table, tally)
}

/// The same twice: the table ends at, then starts behind, a page that nothing may touch.
pub fn by_library_in_pages(pages: &mut Guarded, table: &[u8], tally: &mut Tally) -> Result<(), String> {
    all(table, pages.ending(table), tally)?;
    all(table, pages.starting(table), tally)
}

/// Secondary lists first, then generated tables.
pub fn compare(count: u64, seed: u64, mut read: impl Read) -> Result<String, String> {
    let mut tally = Tally::default();
    known(&mut tally, &mut read)?;
    generated(count, seed, &mut tally, read)?;
    let (reads, numbers) = (tally.calls(), tally.by_number());
    Ok(format!("{reads} reads of {} tables agree (seed {seed}); by number {numbers}", count + 2))
}

/// A table that is taken with a full secondary list, and one that is refused for its list.
pub fn known(tally: &mut Tally, mut read: impl Read) -> Result<(), String> {
    let full = form(&listing(&[true, true], &[2, 1]));
    [full, named_twice().table].iter().try_for_each(|table| told(table, read(table, tally)))
}

fn told(table: &[u8], compared: Result<(), String>) -> Result<(), String> {
    compared.map_err(|difference| format!("{difference}, on\n{}", hex(table)))
}

/// Good tables in many layouts, and one in four of any sort.
pub fn generated(count: u64, seed: u64, tally: &mut Tally, mut read: impl Read) -> Result<(), String> {
    let mut random = Random::seeded(seed);
    each(count, seed, || {
        let table = if random.one_in(4) { tables::next(&mut random) } else { tables::good(&mut random) };
        told(&table, read(&table, tally))
    })
}

/// The reads of a table, which the library is lent at some place.
fn all(table: &[u8], lent: &[u8], tally: &mut Tally) -> Result<(), String> {
    let reading = Reading::of(table);
    for kind in KINDS {
        for position in positions(table) {
            of_record(&reading, lent, (kind, position), tally)?;
        }
    }
    Ok(())
}

fn of_record(reading: &Reading, lent: &[u8], (kind, position): (u8, u16), tally: &mut Tally) -> Result<(), String> {
    whole(reading, lent, (kind, position), tally)?;
    for offset in (0..OFFSETS).chain([65_536, u32::MAX]) {
        let at = (kind, position, offset);
        let (field, object) = (field_of(reading, at), object_of(reading, at));
        tally.add("field", field.answer);
        tally.add("object", object.answer);
        tally.add("place", object.answer);
        same(at, &field, &crate::field(lent, kind, position, offset))?;
        same(at, &object, &crate::object(lent, kind, position, offset))?;
        same(at, &object, &crate::object_place(lent, kind, position, offset))?;
    }
    Ok(())
}

/// The record's entry. A refused read leaves the caller's bytes alone.
fn whole(reading: &Reading, lent: &[u8], (kind, position): (u8, u16), tally: &mut Tally) -> Result<(), String> {
    let mut entry = UNTOUCHED_ENTRY;
    let answer = crate::record(lent, kind, position, &mut entry);
    let (right, expected) = match reading.entry(kind, position) {
        Ok(expected) => (Answer::DONE, expected),
        Err(refused) => (refused, UNTOUCHED_ENTRY),
    };
    tally.add("record", right);
    if (answer, entry) == (right, expected) {
        return Ok(());
    }
    let in_entry = first_difference("entry", &entry, &expected);
    let told = format!("the library answers {answer:?}, the second program {right:?}{in_entry}");
    Err(format!("kind {kind}, position {position}, read whole: {told}"))
}

/// Each position of the longest list, the ones around it, and ones that no list has.
fn positions(table: &[u8]) -> impl Iterator<Item = u16> {
    let longest = [87, 95, 103, 111].iter().filter_map(|&count| table.get(count)).max().copied().unwrap_or(0);
    (0..=u16::from(longest) + 1).chain([256, u16::MAX])
}

/// A refused read leaves the caller's bytes alone.
fn field_of(reading: &Reading, (kind, position, offset): At) -> Field {
    let mut field = reading.field(kind, position, offset);
    if !field.answer.is_done() {
        field.bytes = crate::UNTOUCHED;
    }
    field
}

fn object_of(reading: &Reading, (kind, position, offset): At) -> Object {
    let (answer, place) = reading.object(kind, position, offset);
    Object { answer, present: place.is_some().into(), place: place.unwrap_or(0..0) }
}

fn same<T: PartialEq + Debug>((kind, position, offset): At, expected: &T, given: &T) -> Result<(), String> {
    if given == expected {
        return Ok(());
    }
    Err(format!(
        "kind {kind}, position {position}, offset {offset}: the library gives {given:?}, the second program {expected:?}"
    ))
}
