//! Tables checked by both programs, which must also have looked at records as often as each other, and no more often
//! than the table's counts allow.

use crate::cases::each;
use crate::guard::Guarded;
use crate::tally::Tally;
use crate::{hex, sums, tables};
use second::answer::number::TOO_FEW_BYTES;
use second::looks::most_looks_at;
use second::random::Random;
use second::secondary::{self, all_indexes};
use second::{form, samples, Answer};

/// An answer, and how often records were looked at until it was known.
pub type Looked = (Answer, u32);

/// The library's check.
pub trait Check: FnMut(&[u8]) -> Result<Looked, String> {}

impl<F: FnMut(&[u8]) -> Result<Looked, String>> Check for F {}

/// With looks and without: the answer must be the same.
pub fn by_library(table: &[u8]) -> Result<Looked, String> {
    one_answer(table, crate::check(table), crate::check_looks(table))
}

fn one_answer(table: &[u8], answer: Answer, looked: Looked) -> Result<Looked, String> {
    if looked.0 == answer {
        return Ok(looked);
    }
    Err(format!("the library answers {answer:?}, and with looks {:?}, on\n{}", looked.0, hex(table)))
}

/// The same twice: the table ends at, then starts behind, a page that nothing may touch.
pub fn by_library_in_pages(pages: &mut Guarded, table: &[u8]) -> Result<Looked, String> {
    let ending = by_library(pages.ending(table))?;
    let starting = by_library(pages.starting(table))?;
    if ending == starting {
        Ok(ending)
    } else {
        Err(format!("the library's answer depends on the place, on\n{}", hex(table)))
    }
}

/// What is known first, then generated tables.
pub fn compare(count: u64, seed: u64, mut check: impl Check) -> Result<String, String> {
    known(&mut check)?;
    let mut tally = Tally::default();
    generated(count, seed, &mut tally, check)?;
    let looks = tally.looks();
    Ok(format!("{count} tables agree (seed {seed}), {looks} looks at records; by number {}", tally.by_number()))
}

/// No bytes, the known samples and the examples, secondary lists, tables with all indexes that there can be, and tables
/// whose sum is off by one.
pub fn known(mut check: impl Check) -> Result<(), String> {
    let too_few = Answer::plain(TOO_FEW_BYTES);
    for (answer, looked) in crate::check_nothing() {
        same(&[], (too_few, 0), one_answer(&[], answer, looked)?)?;
    }
    let mut samples = samples::known();
    samples.extend(samples::examples());
    samples.extend(secondary::lists());
    for sample in samples {
        let (answer, looks) = second::check_looks(&sample.table);
        assert_eq!(answer, sample.answer, "{}", sample.name);
        same(&sample.table, (answer, looks), check(&sample.table)?)?;
    }
    for table in tables_that_reach_the_bound() {
        same(&table, (Answer::DONE, most_looks_at(&table)), check(&table)?)?;
    }
    sums::each(|table| same(table, second::check_looks(table), check(table)?))
}

/// Among them the one that takes the most looks of all that we know.
fn tables_that_reach_the_bound() -> Vec<Vec<u8>> {
    let mut tables: Vec<Vec<u8>> =
        [[1; 4], [3, 2, 1, 1], [2, 5, 3, 4], [60, 9, 2, 7]].map(|counts| form(&all_indexes(counts))).into();
    tables.push(secondary::most_looks());
    tables
}

pub fn generated(count: u64, seed: u64, tally: &mut Tally, mut check: impl Check) -> Result<(), String> {
    let mut random = Random::seeded(seed);
    each(count, seed, || {
        let table = tables::next(&mut random);
        let (answer, looks) = second::check_looks(&table);
        same(&table, (answer, looks), check(&table)?)?;
        tally.add("check", answer);
        tally.look(looks);
        Ok(())
    })
}

fn same(table: &[u8], expected: Looked, given: Looked) -> Result<(), String> {
    if given != expected {
        let told = |(answer, looks): Looked| format!("{answer:?} after {looks} looks");
        let (library, second) = (told(given), told(expected));
        return Err(format!("the library answers {library}, the second program {second}, on\n{}", hex(table)));
    }
    let (looks, most) = (given.1, most_looks_at(table));
    if looks <= most {
        return Ok(());
    }
    Err(format!("both look {looks} times at records, but {most} times is the most, on\n{}", hex(table)))
}

#[cfg(test)]
mod tests {
    use super::*;
    use second::answer::number::{INDEX, SECONDARY};

    #[test]
    fn tables_meet_every_number_of_a_check() {
        let mut tally = Tally::default();
        generated(4000, 1, &mut tally, |table| Ok(second::check_looks(table))).expect("it agrees with itself");
        let line = format!(" {}", tally.by_number());
        for number in (0..=INDEX).chain([18, SECONDARY]) {
            assert!(line.contains(&format!(" {number}: ")), "{number} is missing: {line}");
        }
        assert!(tally.looks() > 20_000);
    }

    #[test]
    fn one_look_more_or_less_is_found() {
        for other in [|looks: u32| looks + 1, |looks: u32| looks.saturating_sub(1)] {
            let compared = generated(20, 1, &mut Tally::default(), |table| {
                let (answer, looks) = second::check_looks(table);
                Ok((answer, other(looks)))
            });
            assert!(compared.is_err_and(|difference| difference.contains("looks")));
        }
    }

    #[test]
    fn another_answer_with_looks_than_without_is_found() {
        let (done, refused) = (Answer::DONE, Answer::plain(TOO_FEW_BYTES));
        assert_eq!(one_answer(&[], done, (done, 7)), Ok((done, 7)));
        assert!(one_answer(&[], done, (refused, 7)).is_err());
    }

    #[test]
    fn more_looks_than_the_counts_allow_are_found() {
        let table = form(&all_indexes([3, 2, 1, 1]));
        let most = most_looks_at(&table);
        assert_eq!(same(&table, (Answer::DONE, most), (Answer::DONE, most)), Ok(()));
        let passed = (Answer::DONE, most + 1);
        assert!(same(&table, passed, passed).is_err_and(|difference| difference.contains("the most")));
    }
}
