//! Whole records read by both programs, one alone and many in a row, each into outputs of many lengths that are full of
//! noise, so that a byte shows whether it was written.

use crate::cases::each;
use crate::guard::{in_four_places, Guarded};
use crate::margins::Margined;
use crate::noise::Noise;
use crate::reads::KINDS;
use crate::tally::Tally;
use crate::{first_difference, hex, long_forms, tables, Object, UNTOUCHED_ENTRY};
use second::answer::number::TOO_FEW_BYTES;
use second::random::Random;
use second::read::Reading;
use second::samples::smallest;
use second::secondary::most_looks;
use second::whole::ENTRY_SIZE;
use second::{Answer, Records};
use std::collections::BTreeSet;

/// The record at a kind and position: alone, or with those behind it through the ones of a last kind.
#[derive(Clone, Copy, Debug)]
pub struct Asked {
    kind: u8,
    position: u16,
    last: Option<u8>,
}

/// Everything that a table says.
const ALL: Asked = Asked { kind: 0, position: 0, last: Some(10) };

/// What a read gives, and every byte of the output when it has ended. A record alone is a row of one.
#[derive(PartialEq, Eq)]
pub struct Read {
    records: Records,
    output: Vec<u8>,
}

/// The library's read of records into an output that holds these bytes.
pub fn by_library(table: &[u8], asked: Asked, output: &[u8]) -> Result<Read, String> {
    let (lent, mut output) = (table.to_vec(), Margined::new(output));
    let read = call(table, &lent, asked, output.within())?;
    if output.margins_stay() {
        Ok(read)
    } else {
        Err("the library writes outside the output".to_string())
    }
}

/// The same four times: table and output each end at, or start behind, a page that nothing may touch.
pub fn by_library_in_pages(
    pages: &mut [Guarded; 2],
    table: &[u8],
    asked: Asked,
    output: &[u8],
) -> Result<Read, String> {
    in_four_places(pages, [table, output], "the library's read", |lent, output| call(table, lent, asked, output))
}

/// Lends a copy of the table, which the library must leave as it is.
fn call(table: &[u8], lent: &[u8], asked: Asked, output: &mut [u8]) -> Result<Read, String> {
    let Asked { kind, position, last } = asked;
    let records = match last {
        Some(last) => crate::records(lent, kind, position, last, output),
        None => row_of_one(crate::record(lent, kind, position, output.try_into().expect("an entry's room"))),
    };
    if lent != table {
        return Err("the library changes the table".to_string());
    }
    Ok(Read { records, output: output.to_vec() })
}

fn by_second(reading: &Reading, Asked { kind, position, last }: Asked, output: &[u8]) -> Read {
    let mut output = output.to_vec();
    let records = match last {
        Some(last) => reading.records(kind, position, last, &mut output),
        None => match reading.entry(kind, position) {
            Ok(entry) => {
                output.copy_from_slice(&entry);
                row_of_one(Answer::DONE)
            }
            Err(answer) => row_of_one(answer),
        },
    };
    Read { records, output }
}

fn row_of_one(answer: Answer) -> Records {
    let entries = usize::from(answer.is_done());
    Records { answer, written: entries, total: entries }
}

/// The library's read of records into an output that holds these bytes.
pub trait Make: FnMut(&[u8], Asked, &[u8]) -> Result<Read, String> {}

impl<F: FnMut(&[u8], Asked, &[u8]) -> Result<Read, String>> Make for F {}

/// Cases of a tally: tables, and those of them that are good.
const TABLES: &str = "tables";
const GOOD: &str = "good tables";

/// Directed tables, then generated ones.
pub fn compare(count: u64, seed: u64, mut read: impl Make) -> Result<String, String> {
    let mut tally = Tally::default();
    directed(&mut tally, &mut read)?;
    generated(count, seed, &mut tally, read)?;
    Ok(format!(
        "{} reads of whole records of {} tables agree (seed {seed}), {} tables are good; by number {}",
        tally.calls(),
        tally.cases(TABLES),
        tally.cases(GOOD),
        tally.by_number()
    ))
}

/// With no bytes lent where nothing can be read or written, then tables.
pub fn directed(tally: &mut Tally, read: impl Make) -> Result<(), String> {
    compare_with_nothing()?;
    let mut comparison = Comparison::seeded(0, tally, read);
    directed_tables().iter().try_for_each(|table| comparison.of_table(table))
}

pub fn generated(count: u64, seed: u64, tally: &mut Tally, read: impl Make) -> Result<(), String> {
    let mut comparison = Comparison::seeded(seed, tally, read);
    each(count, seed, || comparison.any_table())
}

/// An output of no bytes, lent where nothing can be written, and a table of none, lent where nothing can be read.
fn compare_with_nothing() -> Result<(), String> {
    for table in [smallest(), Vec::new()] {
        let expected = second::records(&table, 0, 0, 10, &mut []);
        for given in crate::records_into_nothing(&table) {
            if given != expected {
                return Err(format!("the library gives {given:?} for no output, on\n{}", hex(&table)));
            }
        }
    }
    let too_few = Answer::plain(TOO_FEW_BYTES);
    let nothing = Object { answer: too_few, present: 0, place: 0..0 };
    let expected = (too_few, UNTOUCHED_ENTRY, nothing);
    if crate::read_nothing().iter().all(|given| *given == expected) {
        return Ok(());
    }
    Err("the library gives something else than 1 for no table, or writes the entry".to_string())
}

/// Tables of every sort: most of them good, in any layout, and some with many records.
fn next(random: &mut Random) -> Vec<u8> {
    match random.below(40) {
        0 => long_forms::crowd(random),
        1..=10 => tables::next(random),
        _ => tables::good(random),
    }
}

/// Behind those that rewrites and closings start from too, one that uses nearly all positions that there can be.
fn directed_tables() -> Vec<Vec<u8>> {
    let mut tables = tables::directed();
    tables.push(most_looks());
    tables
}

/// A table, with the second program's reading, which is one for all that is asked.
struct Told<'a> {
    table: &'a [u8],
    reading: Reading<'a>,
}

/// Both programs' reads of many tables, side by side.
struct Comparison<'t, F> {
    read: F,
    random: Random,
    /// What outputs hold before they are lent is cut from this.
    noise: Noise,
    tally: &'t mut Tally,
}

/// No output is longer: the 1,788 entries that there can be have 328,992 bytes.
const LONGEST_OUTPUT: usize = 330_000;

impl<'t, F: Make> Comparison<'t, F> {
    fn seeded(seed: u64, tally: &'t mut Tally, read: F) -> Comparison<'t, F> {
        let mut random = Random::seeded(seed);
        let noise = Noise::new(&mut random, LONGEST_OUTPUT);
        Comparison { read, random, noise, tally }
    }

    fn any_table(&mut self) -> Result<(), String> {
        let table = next(&mut self.random);
        self.of_table(&table)
    }

    fn of_table(&mut self, table: &[u8]) -> Result<(), String> {
        self.tally.case(TABLES);
        let told = Told { table, reading: Reading::of(table) };
        match told.reading.counts() {
            Ok(counts) => self.of_good(&told, counts),
            Err(_) => self.of_refused(&told),
        }
    }

    /// All at once into all outputs; then every kind, from several positions on, through several last kinds.
    fn of_good(&mut self, told: &Told, counts: [u8; 4]) -> Result<(), String> {
        self.tally.case(GOOD);
        for room in self.rooms(total(told, ALL)) {
            self.call_both(told, ALL, room)?;
        }
        for kind in KINDS {
            for position in self.positions(counts) {
                self.at_record(told, kind, position)?;
            }
        }
        Ok(())
    }

    /// The answer is the check's, whatever is asked for.
    fn of_refused(&mut self, told: &Told) -> Result<(), String> {
        for kind in KINDS {
            for position in [0, 1, self.random.word() as u16] {
                let (last, room) = (self.random.byte(), self.random.below(4 * ENTRY_SIZE));
                self.call_both(told, Asked { kind, position, last: Some(last) }, room)?;
                self.call_both(told, Asked { kind, position, last: None }, ENTRY_SIZE)?;
            }
        }
        Ok(())
    }

    fn at_record(&mut self, told: &Told, kind: u8, position: u16) -> Result<(), String> {
        self.call_both(told, Asked { kind, position, last: None }, ENTRY_SIZE)?;
        for last in [kind, 0, 10, 255, self.random.byte()] {
            let asked = Asked { kind, position, last: Some(last) };
            for room in self.some_rooms(total(told, asked)) {
                self.call_both(told, asked, room)?;
            }
        }
        Ok(())
    }

    /// Start, middle and end of each list, the positions beside it, far ones of which some have a low byte that is a
    /// position, and any.
    fn positions(&mut self, counts: [u8; 4]) -> BTreeSet<u16> {
        let ends = counts.map(u16::from).into_iter().flat_map(|count| [count.div_ceil(2), count, count + 1]);
        ends.chain([0, 1, 256, 257, u16::MAX, self.random.word() as u16]).collect()
    }

    /// Lengths of outputs around the one that all entries take: that one, an entry or a byte less, more, that of one
    /// entry, one byte, none, any.
    fn rooms(&mut self, total: usize) -> [usize; 9] {
        let all = total.max(1) * ENTRY_SIZE;
        let more = all + 1 + self.random.below(ENTRY_SIZE - 1);
        let any = self.random.below(all + 2 * ENTRY_SIZE);
        [0, 1, ENTRY_SIZE, all - ENTRY_SIZE, all - 1, all, more, all + ENTRY_SIZE, any]
    }

    /// Some of them, and just one where there are no entries.
    fn some_rooms(&mut self, total: usize) -> Vec<usize> {
        let rooms = self.rooms(total);
        let some = if total == 0 { 1 } else { 4 };
        (0..some).map(|_| *self.random.pick(&rooms)).collect()
    }

    /// Both programs read what is asked for into an output of this length.
    fn call_both(&mut self, told: &Told, asked: Asked, room: usize) -> Result<(), String> {
        let output = self.noise.cut(&mut self.random, room);
        let expected = by_second(&told.reading, asked, output);
        let answer = expected.records.answer;
        (self.read)(told.table, asked, output).and_then(|given| same(&expected, &given)).map_err(|difference| {
            format!("{difference}, for {asked:?} and an output of {room} bytes, on\n{}", hex(told.table))
        })?;
        self.tally.add(if asked.last.is_some() { "records" } else { "record" }, answer);
        Ok(())
    }
}

/// How many entries there are of what is asked for: none where that is refused.
fn total(told: &Told, asked: Asked) -> usize {
    by_second(&told.reading, asked, &[]).records.total
}

fn same(expected: &Read, given: &Read) -> Result<(), String> {
    if given == expected {
        return Ok(());
    }
    let told = |Records { answer, written, total }| format!("{answer:?} and {written} of {total} entries");
    let (library, second) = (told(given.records), told(expected.records));
    let in_output = first_difference("output", &given.output, &expected.output);
    Err(format!("the library gives {library}, the second program {second}{in_output}"))
}

#[cfg(test)]
mod tests {
    use super::*;
    use second::answer::number::{INDEX, NO_SUCH_FIELD, SECONDARY, TEXT};

    /// Of the good ones only the short: each call reads the table anew here, and there are many calls.
    #[test]
    fn tables_meet_every_number_that_a_read_can_give() {
        let mut tally = Tally::default();
        let mut comparison = Comparison::seeded(8, &mut tally, |table: &[u8], asked, output: &[u8]| {
            Ok(by_second(&Reading::of(table), asked, output))
        });
        for table in directed_tables() {
            if table.len() < 400 || !second::check(&table).is_done() {
                comparison.of_table(&table).expect("it agrees with itself");
            }
        }
        let line = format!(" {}", tally.by_number());
        for number in (0..=INDEX).chain([NO_SUCH_FIELD, TEXT, SECONDARY]) {
            assert!(line.contains(&format!(" {number}: ")), "{number} is missing: {line}");
        }
    }

    #[test]
    fn outputs_come_empty_and_short_and_just_long_enough_and_longer() {
        let mut met = [0; 5];
        let mut tally = Tally::default();
        generated(20, 8, &mut tally, |table, asked, output| {
            let read = by_second(&Reading::of(table), asked, output);
            let Records { answer, written, total } = read.records;
            if answer.is_done() && asked.last.is_some() {
                let rest = output.len() - written * ENTRY_SIZE;
                met[0] += u32::from(written == 0);
                met[1] += u32::from(0 < written && written < total);
                met[2] += u32::from(written == total && rest == 0);
                met[3] += u32::from(written == total && rest > 0);
                met[4] += u32::from(rest >= ENTRY_SIZE);
            }
            Ok(read)
        })
        .expect("it agrees with itself");
        assert!(met.iter().all(|times| *times > 100), "{met:?}");
    }

    #[test]
    fn a_difference_of_one_bit_is_found() {
        let spoils: [fn(&mut Read); 5] = [
            |read| read.records.answer.position ^= 1,
            |read| read.records.written ^= 1,
            |read| read.records.total ^= 1,
            |read| read.output[0] ^= 1,
            |read| *read.output.last_mut().expect("the output has bytes") ^= 0x80,
        ];
        for spoil in spoils {
            let mut done = 0;
            let compared = generated(20, 5, &mut Tally::default(), |table, asked, output| {
                let mut read = by_second(&Reading::of(table), asked, output);
                done += u32::from(read.records.written > 0);
                if done == 200 && read.records.written > 0 {
                    spoil(&mut read);
                }
                Ok(read)
            });
            assert!(compared.is_err_and(|difference| difference.contains("the library gives")));
        }
    }
}
