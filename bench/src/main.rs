//! Nanoseconds per call of the static library, of the second program and of a
//! bare sum of the same bytes, all in one run; and the stack that the calls
//! take. Ratios count, not the nanoseconds of one machine.

mod alone;
mod calls;
mod report;
mod series;
mod stack;
mod tables;
mod turns;

use std::process::ExitCode;

const HELP: &str = "\
bench: times of the static library beside the second program

  bench           sums, checks, reads of a field, of an object's place and of whole tables, rewrites, closings and a
                  build, each in a table, and every call of the C library by itself
  bench series    checks and rewrites by the table's length
  bench worst     the closing that takes longest of those that we know
";

fn main() -> ExitCode {
    let words: Vec<String> = std::env::args().skip(1).collect();
    match words.iter().map(String::as_str).collect::<Vec<_>>()[..] {
        [] => report::print(),
        ["series"] => series::print(),
        ["worst"] => report::print_worst(),
        _ => {
            eprint!("{HELP}");
            return ExitCode::FAILURE;
        }
    }
    ExitCode::SUCCESS
}
