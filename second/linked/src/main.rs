//! Compares the static library with the second program.

use linked::guard::Guarded;
use linked::soak::{self, fresh_seed, Until};
use linked::{builder, builds, cases, checks, closings, reads, records, rewrites};
use std::process::ExitCode;

const HELP: &str = "\
linked: compares the static library's answers with the second program's

  linked compare COUNT SEED    answers and looks at records of COUNT generated tables; the same SEED gives the same ones
  linked reads COUNT SEED      every kind, position and offset of COUNT generated tables
  linked records COUNT SEED    whole records of COUNT generated tables, alone and in rows, into outputs of many lengths
  linked rewrite COUNT SEED    generated tables until COUNT of them have a form, each into outputs of many lengths
  linked close COUNT SEED      generated tables until COUNT of them are closed up, each with maps of many lengths
  linked build COUNT SEED      COUNT runs of the builder, each call with answer, state and every byte of the buffer
  linked guard COUNT SEED      checks, a twentieth as many rewrites, closings and runs of the builder and a hundredth as many tables'
                               reads and reads of whole records, all lent between pages that nothing may touch
  linked soak seconds N [SEED] all of these in batches for N seconds, each batch from another seed; without SEED from a fresh one
  linked soak cases N [SEED]   the same until N cases, which are tables and runs of the builder, agree
";

fn main() -> ExitCode {
    cases::tell_of_touched_pages();
    let arguments: Vec<String> = std::env::args().skip(1).collect();
    let words: Vec<&str> = arguments.iter().map(String::as_str).collect();
    match run(&words) {
        Ok(line) => {
            println!("{line}");
            ExitCode::SUCCESS
        }
        Err(complaint) => {
            eprintln!("{complaint}");
            ExitCode::FAILURE
        }
    }
}

fn run(words: &[&str]) -> Result<String, String> {
    match words {
        ["compare", count, seed] => checks::compare(number(count)?, number(seed)?, checks::by_library),
        ["reads", count, seed] => reads::compare(number(count)?, number(seed)?, reads::by_library),
        ["records", count, seed] => records::compare(number(count)?, number(seed)?, records::by_library),
        ["rewrite", count, seed] => rewrites::compare(number(count)?, number(seed)?, rewrites::by_library),
        ["close", count, seed] => closings::compare(number(count)?, number(seed)?, closings::by_library),
        ["build", count, seed] => builds::compare(number(count)?, number(seed)?, builder::by_library),
        ["guard", count, seed] => guarded(number(count)?, number(seed)?),
        ["soak", "seconds", seconds] => soak::run(Until::Seconds(number(seconds)?), fresh_seed()),
        ["soak", "seconds", seconds, seed] => soak::run(Until::Seconds(number(seconds)?), number(seed)?),
        ["soak", "cases", cases] => soak::run(Until::Cases(number(cases)?), fresh_seed()),
        ["soak", "cases", cases, seed] => soak::run(Until::Cases(number(cases)?), number(seed)?),
        _ => Err(HELP.to_string()),
    }
}

/// Checks, and rewrites, closings, builds and reads of fewer tables, lent between pages that nothing may touch.
fn guarded(count: u64, seed: u64) -> Result<String, String> {
    let mut two = [Guarded::new(1 << 20), Guarded::new(1 << 20)];
    let checks = checks::compare(count, seed, |table: &[u8]| checks::by_library_in_pages(&mut two[0], table))?;
    let reads = reads::compare(count / 100, seed, |table: &[u8], tally: &mut _| {
        reads::by_library_in_pages(&mut two[0], table, tally)
    })?;
    let records = records::compare(count / 100, seed, |table: &[u8], asked, output: &[u8]| {
        records::by_library_in_pages(&mut two, table, asked, output)
    })?;
    let rewrites = rewrites::compare(count / 20, seed, |table: &[u8], output: &[u8]| {
        rewrites::by_library_in_pages(&mut two, table, output)
    })?;
    let closings = closings::compare(count / 20, seed, |table: &[u8], map: &[u8]| {
        closings::by_library_in_pages(&mut two, table, map)
    })?;
    let mut pages = builder::pages();
    let builds = builds::compare(count / 20, seed, |call: &_, state, buffer: &[u8]| {
        builder::by_library_in_pages(&mut pages, call, state, buffer)
    })?;
    Ok([checks, reads, records, rewrites, closings, builds].join("\n"))
}

fn number(word: &str) -> Result<u64, String> {
    word.parse().map_err(|_| format!("{word}: not a number\n\n{HELP}"))
}
