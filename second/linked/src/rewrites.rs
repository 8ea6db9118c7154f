//! Tables rewritten by both programs, each into outputs of many lengths that
//! are full of noise, so that a byte shows whether it was written.

use crate::cases::each;
use crate::guard::{in_four_places, Guarded};
use crate::margins::Margined;
use crate::noise::Noise;
use crate::tally::Tally;
use crate::{first_difference, hex, long_forms, tables};
use second::answer::number::{OUTPUT_TOO_SHORT, TOO_FEW_BYTES};
use second::damage::empty_heap;
use second::frame::GREATEST_LENGTH;
use second::random::Random;
use second::samples::{crowded, machine, smallest};
use second::{form, form_length, Answer, Meaning};

/// What a rewrite gives, and every byte of the output when it has ended.
#[derive(PartialEq, Eq)]
pub struct Rewrite {
    answer: Answer,
    length: usize,
    output: Vec<u8>,
}

/// The library's rewrite of a table into an output that holds these bytes.
pub fn by_library(table: &[u8], output: &[u8]) -> Result<Rewrite, String> {
    let (lent, mut output) = (table.to_vec(), Margined::new(output));
    let rewrite = call(table, &lent, output.within())?;
    if output.margins_stay() {
        Ok(rewrite)
    } else {
        Err("the library writes outside the output".to_string())
    }
}

/// The same four times: table and output each end at, or start behind, a page that nothing may touch.
pub fn by_library_in_pages(pages: &mut [Guarded; 2], table: &[u8], output: &[u8]) -> Result<Rewrite, String> {
    in_four_places(pages, [table, output], "the library's rewrite", |lent, output| call(table, lent, output))
}

/// Lends a copy of the table, which the library must leave as it is.
fn call(table: &[u8], lent: &[u8], output: &mut [u8]) -> Result<Rewrite, String> {
    let (answer, length) = crate::rewrite(lent, output);
    if lent != table {
        return Err("the library changes the table".to_string());
    }
    Ok(Rewrite { answer, length, output: output.to_vec() })
}

fn by_second(table: &[u8], output: &[u8]) -> Rewrite {
    let mut output = output.to_vec();
    let (answer, length) = second::rewrite(table, &mut output);
    Rewrite { answer, length, output }
}

/// The library's rewrite of a table into an output that holds these bytes.
pub trait Make: FnMut(&[u8], &[u8]) -> Result<Rewrite, String> {}

impl<F: FnMut(&[u8], &[u8]) -> Result<Rewrite, String>> Make for F {}

/// Cases of a tally: tables, and those of them that have a form.
const TABLES: &str = "tables";
const WITH_A_FORM: &str = "tables with a form";

/// Directed tables, then generated ones until `count` of these have been rewritten.
pub fn compare(count: u64, seed: u64, mut rewrite: impl Make) -> Result<String, String> {
    let mut tally = Tally::default();
    directed(&mut tally, &mut rewrite)?;
    generated(count, seed, &mut tally, rewrite)?;
    Ok(format!(
        "{} rewrites of {} tables agree (seed {seed}), {} tables have a form; by number {}",
        tally.calls(),
        tally.cases(TABLES),
        tally.cases(WITH_A_FORM),
        tally.by_number()
    ))
}

pub fn directed(tally: &mut Tally, rewrite: impl Make) -> Result<(), String> {
    compare_into_nothing()?;
    let mut comparison = Comparison::seeded(0, tally, rewrite);
    directed_tables().iter().try_for_each(|table| comparison.of_table(table))
}

pub fn generated(count: u64, seed: u64, tally: &mut Tally, rewrite: impl Make) -> Result<(), String> {
    let mut comparison = Comparison::seeded(seed, tally, rewrite);
    each(count, seed, || comparison.any_tables())
}

/// An output of no bytes, lent where nothing can be written.
fn compare_into_nothing() -> Result<(), String> {
    for (table, number) in [(smallest(), OUTPUT_TOO_SHORT), (Vec::new(), TOO_FEW_BYTES)] {
        for given in crate::rewrite_into_nothing(&table) {
            if given != (Answer::plain(number), 0) {
                return Err(format!("the library gives {given:?} for no output, on\n{}", hex(&table)));
            }
        }
    }
    Ok(())
}

/// Tables of every sort: most of them good, in any layout, and some whose forms are long.
fn next(random: &mut Random) -> Vec<u8> {
    match random.below(40) {
        0 | 1 => long_forms::near_the_limit(random),
        2 | 3 => long_forms::crowd(random),
        4..=15 => tables::next(random),
        _ => tables::good(random),
    }
}

/// Behind those that closings start from too: one with an empty heap, and forms
/// around the greatest length and its multiples.
fn directed_tables() -> Vec<Vec<u8>> {
    let mut tables = tables::directed();
    tables.push(empty_heap(&form(&machine())).table);
    tables.extend([form(&crowded(96)), long_forms::far_too_long()]);
    let mut random = Random::seeded(0);
    for length in [65_535, 65_536, 65_537, 65_538, 65_700, 131_071, 131_072, 131_073, 131_400, 196_608, 200_000] {
        for _ in 0..4 {
            tables.push(long_forms::of_length(&mut random, machine(), length));
        }
    }
    tables
}

/// Both rewrites of many tables, side by side.
struct Comparison<'t, F> {
    rewrite: F,
    random: Random,
    /// What outputs hold before they are lent is cut from this.
    noise: Noise,
    tally: &'t mut Tally,
}

/// No output is longer. A form that is longer still is far too long.
const LONGEST_OUTPUT: usize = 1 << 18;

impl<'t, F: Make> Comparison<'t, F> {
    fn seeded(seed: u64, tally: &'t mut Tally, rewrite: F) -> Comparison<'t, F> {
        let mut random = Random::seeded(seed);
        let noise = Noise::new(&mut random, LONGEST_OUTPUT);
        Comparison { rewrite, random, noise, tally }
    }

    /// Tables until one of them has a form.
    fn any_tables(&mut self) -> Result<(), String> {
        let before = self.tally.cases(WITH_A_FORM);
        while self.tally.cases(WITH_A_FORM) == before {
            let table = next(&mut self.random);
            self.of_table(&table)?;
        }
        Ok(())
    }

    /// A table into all outputs. Where it has a form, that is rewritten too and must stay as it is.
    fn of_table(&mut self, table: &[u8]) -> Result<(), String> {
        self.tally.case(TABLES);
        let length = Meaning::read(table).ok().map(|meaning| form_length(&meaning));
        for room in self.rooms(length.unwrap_or(table.len())) {
            self.call_both(table, room)?;
        }
        match length {
            Some(length) if length <= GREATEST_LENGTH => self.of_form(table, length),
            _ => Ok(()),
        }
    }

    fn of_form(&mut self, table: &[u8], length: usize) -> Result<(), String> {
        self.tally.case(WITH_A_FORM);
        let form = self.call_both(table, length)?.output;
        let longer = length + self.random.below(20);
        let again = self.call_both(&form, longer)?.output;
        if again[..length] == form {
            return Ok(());
        }
        Err(format!("the form is rewritten to something else, on\n{}", hex(&form)))
    }

    /// Lengths of outputs around a form's, or what might be one's: that one, a byte less, more, none, any.
    fn rooms(&mut self, length: usize) -> Vec<usize> {
        let length = length.clamp(1, LONGEST_OUTPUT - 100);
        let mut rooms = vec![length, length - 1, length + 1 + self.random.below(64), 0];
        rooms.extend((0..3).map(|_| self.random.below(length + 100)));
        if self.random.one_in(8) {
            rooms.push(GREATEST_LENGTH - 1 + self.random.below(3));
        }
        rooms
    }

    /// Both programs rewrite a table into an output of this length.
    fn call_both(&mut self, table: &[u8], room: usize) -> Result<Rewrite, String> {
        let output = self.noise.cut(&mut self.random, room);
        let expected = by_second(table, output);
        let given = (self.rewrite)(table, output)
            .and_then(|given| same(&expected, given))
            .map_err(|difference| format!("{difference}, for an output of {room} bytes, on\n{}", hex(table)))?;
        self.tally.add("rewrite", given.answer);
        Ok(given)
    }
}

fn same(expected: &Rewrite, given: Rewrite) -> Result<Rewrite, String> {
    if given == *expected {
        return Ok(given);
    }
    let told = |rewrite: &Rewrite| format!("{:?} and length {}", rewrite.answer, rewrite.length);
    let in_output = first_difference("output", &given.output, &expected.output);
    Err(format!("the library gives {}, the second program {}{in_output}", told(&given), told(expected)))
}

#[cfg(test)]
mod tests {
    use super::*;

    #[test]
    fn tables_meet_every_number_that_a_rewrite_can_give() {
        let line = compare(300, 3, |table, output| Ok(by_second(table, output))).expect("it agrees with itself");
        for number in (0..=14).chain([17, 18, 20]) {
            assert!(line.contains(&format!(" {number}: ")), "{number} is missing: {line}");
        }
    }
}
