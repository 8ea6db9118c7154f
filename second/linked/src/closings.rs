//! Tables closed up by both programs, each with maps of many lengths that are full of noise, so that a bit shows whether
//! it was written.

use crate::cases::each;
use crate::guard::{in_four_places, Guarded};
use crate::margins::Margined;
use crate::noise::Noise;
use crate::tally::Tally;
use crate::{first_difference, hex, holes, long_forms, tables};
use second::answer::number::{OUTPUT_TOO_SHORT, TOO_FEW_BYTES};
use second::frame::Frame;
use second::random::Random;
use second::samples::{crowded, smallest};
use second::{form, Answer, Meaning};

/// What closing gives, and every byte of table and map when it has ended.
#[derive(PartialEq, Eq)]
pub struct Closing {
    answer: Answer,
    moved: usize,
    table: Vec<u8>,
    map: Vec<u8>,
}

/// The library closes a table up, with a map that holds these bytes.
pub fn by_library(table: &[u8], map: &[u8]) -> Result<Closing, String> {
    let (mut table, mut map) = (Margined::new(table), Margined::new(map));
    let closing = call(table.within(), map.within());
    if table.margins_stay() && map.margins_stay() {
        Ok(closing)
    } else {
        Err("the library writes outside table and map".to_string())
    }
}

/// The same four times: table and map each end at, or start behind, a page that nothing may touch.
pub fn by_library_in_pages(pages: &mut [Guarded; 2], table: &[u8], map: &[u8]) -> Result<Closing, String> {
    in_four_places(pages, [table, map], "what the library does", |table, map| Ok(call(table, map)))
}

fn call(table: &mut [u8], map: &mut [u8]) -> Closing {
    let (answer, moved) = crate::compact(table, map);
    Closing { answer, moved, table: table.to_vec(), map: map.to_vec() }
}

fn by_second(table: &[u8], map: &[u8]) -> Closing {
    let (mut table, mut map) = (table.to_vec(), map.to_vec());
    let (answer, moved) = second::compact(&mut table, &mut map);
    Closing { answer, moved, table, map }
}

/// The library closes a table up, with a map that holds these bytes.
pub trait Make: FnMut(&[u8], &[u8]) -> Result<Closing, String> {}

impl<F: FnMut(&[u8], &[u8]) -> Result<Closing, String>> Make for F {}

/// Cases of a tally: tables, those of them that were closed up, and those in which bytes moved.
const TABLES: &str = "tables";
const CLOSED: &str = "tables closed up";
const MOVED: &str = "tables in which bytes moved";

/// Directed tables, then generated ones until `count` of these have been closed up.
pub fn compare(count: u64, seed: u64, mut close: impl Make) -> Result<String, String> {
    let mut tally = Tally::default();
    directed(&mut tally, &mut close)?;
    generated(count, seed, &mut tally, close)?;
    Ok(format!(
        "{} closings of {} tables agree (seed {seed}), {} tables are closed up, bytes move in {}; by number {}",
        tally.calls(),
        tally.cases(TABLES),
        tally.cases(CLOSED),
        tally.cases(MOVED),
        tally.by_number()
    ))
}

/// With no bytes lent where nothing can be read or written, then tables.
pub fn directed(tally: &mut Tally, close: impl Make) -> Result<(), String> {
    compare_with_nothing()?;
    let mut comparison = Comparison::seeded(0, tally, close);
    directed_tables().iter().try_for_each(|table| comparison.of_table(table))
}

pub fn generated(count: u64, seed: u64, tally: &mut Tally, close: impl Make) -> Result<(), String> {
    let mut comparison = Comparison::seeded(seed, tally, close);
    each(count, seed, || comparison.any_tables())
}

/// A map of no bytes, lent where nothing can be written.
fn compare_with_nothing() -> Result<(), String> {
    for (table, number) in [(smallest(), OUTPUT_TOO_SHORT), (Vec::new(), TOO_FEW_BYTES)] {
        for (given, left) in crate::compact_with_nothing(&table) {
            if given != (Answer::plain(number), 0) || left != table {
                return Err(format!("the library gives {given:?} for no map, on\n{}", hex(&table)));
            }
        }
    }
    Ok(())
}

/// Tables of every sort: most of them good, and of these many with holes, and many in which a heap record shares bytes
/// or only just does not.
fn next(random: &mut Random) -> Vec<u8> {
    match random.below(40) {
        0 => long_forms::near_the_limit(random),
        1 => long_forms::crowd(random),
        2..=7 => tables::next(random),
        8..=13 => tables::good(random),
        14..=21 => holes::with_holes(random),
        22..=25 => holes::with_ignored_references(random),
        _ => holes::with_an_overlap(random),
    }
}

/// Behind those that rewrites start from too: long ones, and one with two bytes before its name.
fn directed_tables() -> Vec<Vec<u8>> {
    let mut tables = tables::directed();
    tables.extend([form(&crowded(96)), form(&crowded(95)), long_forms::far_too_long()]);
    tables.push(holes::two_bytes_before_the_name());
    tables
}

/// Both programs close up many tables, side by side.
struct Comparison<'t, F> {
    close: F,
    random: Random,
    /// What maps hold before they are lent is cut from this.
    noise: Noise,
    tally: &'t mut Tally,
}

/// No map is longer.
const LONGEST_MAP: usize = 70_000;

impl<'t, F: Make> Comparison<'t, F> {
    fn seeded(seed: u64, tally: &'t mut Tally, close: F) -> Comparison<'t, F> {
        let mut random = Random::seeded(seed);
        let noise = Noise::new(&mut random, LONGEST_MAP);
        Comparison { close, random, noise, tally }
    }

    /// Tables until one of them is closed up.
    fn any_tables(&mut self) -> Result<(), String> {
        let before = self.tally.cases(CLOSED);
        while self.tally.cases(CLOSED) == before {
            let table = next(&mut self.random);
            self.of_table(&table)?;
        }
        Ok(())
    }

    /// A table with maps of all lengths. Where it is closed up, it is closed again and must stay as it is.
    fn of_table(&mut self, table: &[u8]) -> Result<(), String> {
        self.tally.case(TABLES);
        let heap = Frame::read(table).map_or(table.len(), |frame| frame.heap.length as usize);
        let needed = heap.div_ceil(8).clamp(1, LONGEST_MAP - 100);
        for room in self.rooms(needed) {
            self.call_both(table, room)?;
        }
        let closing = self.call_both(table, needed)?;
        if closing.answer.is_done() {
            self.of_closed(table, closing)?;
        }
        Ok(())
    }

    fn of_closed(&mut self, table: &[u8], closing: Closing) -> Result<(), String> {
        self.tally.case(CLOSED);
        if closing.moved > 0 {
            self.tally.case(MOVED);
        }
        if Meaning::read(&closing.table) != Meaning::read(table) {
            return Err(format!("the closed table says something else, on\n{}", hex(table)));
        }
        let longer = closing.map.len() + self.random.below(20);
        let again = self.call_both(&closing.table, longer)?;
        if (again.answer, again.moved) == (Answer::DONE, 0) && again.table == closing.table {
            return Ok(());
        }
        Err(format!("a closed table is closed to something else, on\n{}", hex(table)))
    }

    /// Lengths of maps around the one that is needed: a byte less, more, none, any.
    fn rooms(&mut self, needed: usize) -> Vec<usize> {
        let mut rooms = vec![needed - 1, needed + 1 + self.random.below(64), 0];
        rooms.extend((0..2).map(|_| self.random.below(2 * needed + 1).min(LONGEST_MAP)));
        if self.random.one_in(8) {
            rooms.push(8191 + self.random.below(3));
        }
        rooms
    }

    /// Both programs close up a table with a map of this length.
    fn call_both(&mut self, table: &[u8], room: usize) -> Result<Closing, String> {
        let map = self.noise.cut(&mut self.random, room);
        let expected = by_second(table, map);
        let given = (self.close)(table, map)
            .and_then(|given| same(&expected, given))
            .map_err(|difference| format!("{difference}, for a map of {room} bytes, on\n{}", hex(table)))?;
        self.tally.add("compact", given.answer);
        Ok(given)
    }
}

fn same(expected: &Closing, given: Closing) -> Result<Closing, String> {
    if given == *expected {
        return Ok(given);
    }
    let told = |closing: &Closing| format!("{:?} and {} bytes moved", closing.answer, closing.moved);
    let in_table = first_difference("table", &given.table, &expected.table);
    let in_map = first_difference("map", &given.map, &expected.map);
    Err(format!("the library gives {}, the second program {}{in_table}{in_map}", told(&given), told(expected)))
}

#[cfg(test)]
mod tests {
    use super::*;
    use second::answer::number::OVERLAP;
    use std::collections::BTreeMap;

    #[test]
    fn tables_meet_every_number_that_closing_can_give() {
        let line = compare(300, 3, |table, map| Ok(by_second(table, map))).expect("it agrees with itself");
        for number in (0..=14).chain([18, 19]) {
            assert!(line.contains(&format!(" {number}: ")), "{number} is missing: {line}");
        }
    }

    #[test]
    fn short_maps_overlaps_and_moves_are_met_often() {
        let (mut numbers, mut moves) = (BTreeMap::new(), 0);
        let mut tally = Tally::default();
        generated(300, 4, &mut tally, |table, map| {
            let closing = by_second(table, map);
            *numbers.entry(closing.answer.number).or_insert(0) += 1;
            moves += usize::from(closing.moved > 0);
            Ok(closing)
        })
        .expect("it agrees with itself");
        let calls: i32 = numbers.values().sum();
        for number in [0, OUTPUT_TOO_SHORT, OVERLAP] {
            assert!(numbers[&number] > calls / 10, "{number} is rare: {numbers:?}");
        }
        assert!(moves > 300, "{moves} calls move bytes");
    }

    #[test]
    fn a_difference_of_one_bit_is_found() {
        let spoils: [fn(&mut Closing); 5] = [
            |closing| closing.answer.position ^= 1,
            |closing| closing.moved ^= 1,
            |closing| closing.table[9] ^= 1,
            |closing| *closing.table.last_mut().expect("the table has bytes") ^= 0x80,
            |closing| *closing.map.last_mut().expect("the map has bytes") ^= 0x80,
        ];
        for spoil in spoils {
            let mut done = 0;
            let compared = compare(20, 5, |table, map| {
                let mut closing = by_second(table, map);
                done += u32::from(closing.answer.is_done());
                if done == 200 && closing.answer.is_done() {
                    spoil(&mut closing);
                }
                Ok(closing)
            });
            assert!(compared.is_err_and(|difference| difference.contains("the library gives")));
        }
    }
}
