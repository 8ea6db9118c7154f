//! Checks, rewrites and compares tables, and writes the files others compare
//! with.

use second::changes::report;
use second::pairs::pairs;
use second::random::Random;
use second::{check, check_looks, rewrite};
use std::ffi::OsString;
use std::fs;
use std::path::{Path, PathBuf};
use std::process::ExitCode;

const HELP: &str = "\
second: an independent reading of NVMe boot firmware tables

  second check FILE           print the table's number, kind and position
  second looks FILE           print the same, and how often the check looked at a record
  second form FILE OUT        write the table's one form
  second diff FILE FILE       print what differs between the two tables' meanings, a line each
  second json FILE...         print what the tables say as JSON, with nvme-cli's keys and behind them our own; of a
                              folder the files NBFT and NBFT1 to NBFT9 that are there, and - is standard input
  second vectors write DIR    write DIR/tables.txt
  second vectors check DIR    say whether DIR/tables.txt is what would be written
  second samples write DIR    write the sample tables DIR/*.nbft
  second samples check DIR    say whether they are what would be written
  second cases write DIR      write cases for a proof assistant, DIR/*/specs/*.antt
  second cases check DIR      say whether they are what would be written
  second pairs write DIR COUNT SEED
                              write COUNT pairs of tables DIR/N.a and DIR/N.b, N from 0 on, and DIR/N.expected,
                              which is what diff prints of them; the same SEED gives the same ones
  second interop write DIR COUNT SEED
                              write COUNT tables DIR/NBFT0, DIR/NBFT1 and so on, that nvme-cli's library takes
  second shown write DIR COUNT SEED
                              write COUNT tables DIR/0, DIR/1 and so on, good ones and some that are refused
  second apart write DIR SEED
                              write pairs of good tables DIR/NAME.a and DIR/NAME.b that say the same but for one
                              thing, which the name tells: one for all that a table can say
";

fn main() -> ExitCode {
    let arguments: Vec<OsString> = std::env::args_os().skip(1).collect();
    match run(&arguments) {
        Ok(()) => ExitCode::SUCCESS,
        Err(complaint) => {
            eprintln!("{complaint}");
            ExitCode::FAILURE
        }
    }
}

/// Names of files that are shown may be any bytes, all other words are text.
fn run(arguments: &[OsString]) -> Result<(), String> {
    let words: Vec<String> = arguments.iter().map(lossy).collect();
    let words: Vec<&str> = words.iter().map(String::as_str).collect();
    match words.as_slice() {
        ["json", _, ..] => print_json(&arguments[1..]),
        [_, "write", directory, numbers @ ..] if !numbers.is_empty() => {
            write_generated(words[0], Path::new(directory), numbers)
        }
        words => run_words(words),
    }
}

fn lossy(argument: &OsString) -> String {
    argument.to_string_lossy().into_owned()
}

fn run_words(words: &[&str]) -> Result<(), String> {
    match words {
        ["check", file] => print_check(Path::new(file)),
        ["looks", file] => print_looks(Path::new(file)),
        ["form", file, output] => write_form(Path::new(file), Path::new(output)),
        ["diff", first, second] => print_diff(Path::new(first), Path::new(second)),
        ["vectors", action, directory] => {
            let file = Path::new(directory).join("tables.txt");
            keep(action, file, second::vectors::text().as_bytes())
        }
        ["samples", action, directory] => samples(action, Path::new(directory)),
        ["cases", action, directory] => cases(action, Path::new(directory)),
        [] | ["help" | "--help" | "-h"] => {
            print!("{HELP}");
            Ok(())
        }
        _ => Err(HELP.to_string()),
    }
}

fn read(file: &Path) -> Result<Vec<u8>, String> {
    fs::read(file).map_err(|fault| format!("{}: {fault}", file.display()))
}

fn write(file: &Path, bytes: &[u8]) -> Result<(), String> {
    fs::write(file, bytes).map_err(|fault| format!("{}: {fault}", file.display()))
}

fn print_check(file: &Path) -> Result<(), String> {
    println!("{}", check(&read(file)?));
    Ok(())
}

fn print_looks(file: &Path) -> Result<(), String> {
    let (answer, looks) = check_looks(&read(file)?);
    println!("{answer} {looks}");
    Ok(())
}

/// Refused tables are told in what is printed, as differences are.
fn print_diff(first: &Path, second: &Path) -> Result<(), String> {
    print!("{}", report(&read(first)?, &read(second)?));
    Ok(())
}

/// An object for each file, refused ones too, in a list.
fn print_json(arguments: &[OsString]) -> Result<(), String> {
    let (json, complaints) = second::files::shown(arguments);
    println!("{json}");
    match complaints.is_empty() {
        true => Ok(()),
        false => Err(complaints.join("\n")),
    }
}

fn write_form(file: &Path, output: &Path) -> Result<(), String> {
    let mut form = vec![0; second::frame::GREATEST_LENGTH];
    let (answer, length) = rewrite(&read(file)?, &mut form);
    if answer.is_done() {
        write(output, &form[..length])
    } else {
        Err(format!("{}: refused with {answer}", file.display()))
    }
}

/// The tables that ship as files: the smallest, some as a machine's firmware
/// would leave them, and one that is refused.
fn samples(action: &str, directory: &Path) -> Result<(), String> {
    use second::form;
    use second::samples::{dhcp, machine, mixed, refused, smallest};
    let tables = [
        ("smallest.nbft", smallest()),
        ("machine.nbft", form(&machine())),
        ("mixed.nbft", form(&mixed())),
        ("dhcp.nbft", form(&dhcp())),
        ("refused.nbft", refused()),
    ];
    let mut files = tables.iter();
    files.try_for_each(|(name, table)| keep(action, directory.join(name), table))
}

fn cases(action: &str, directory: &Path) -> Result<(), String> {
    let mut files = second::cases::files().into_iter();
    files.try_for_each(|(name, text)| keep(action, directory.join(name), text.as_bytes()))
}

/// Files that come from a seed, and which are the same from the same one.
fn write_generated(what: &str, directory: &Path, numbers: &[&str]) -> Result<(), String> {
    let numbers: Result<Vec<u64>, String> = numbers.iter().map(|word| number(word)).collect();
    match (what, numbers?.as_slice()) {
        ("pairs", [count, seed]) => write_pairs(directory, *count, *seed),
        ("interop", [count, seed]) => {
            write_tables(directory, "NBFT", (*count, *seed), second::interop::table)
        }
        ("shown", [count, seed]) => {
            write_tables(directory, "", (*count, *seed), second::pairs::lent)
        }
        ("apart", [seed]) => write_apart(directory, *seed),
        _ => Err(HELP.to_string()),
    }
}

fn write_pairs(directory: &Path, count: u64, seed: u64) -> Result<(), String> {
    let mut random = Random::seeded(seed);
    for pair in 0..count {
        let (first, second) = pairs(&mut random);
        let expected = report(&first, &second);
        let file = |name: &str| directory.join(format!("{pair}.{name}"));
        write(&file("a"), &first)?;
        write(&file("b"), &second)?;
        write(&file("expected"), expected.as_bytes())?;
    }
    Ok(())
}

fn write_tables(
    directory: &Path,
    name: &str,
    (count, seed): (u64, u64),
    next: fn(&mut Random) -> Vec<u8>,
) -> Result<(), String> {
    let mut random = Random::seeded(seed);
    for table in 0..count {
        write(
            &directory.join(format!("{name}{table}")),
            &next(&mut random),
        )?;
    }
    Ok(())
}

fn write_apart(directory: &Path, seed: u64) -> Result<(), String> {
    for pair in second::apart::all(&mut Random::seeded(seed)) {
        let file = |end: &str| directory.join(format!("{}.{end}", pair.name));
        write(&file("a"), &pair.first)?;
        write(&file("b"), &pair.second)?;
    }
    Ok(())
}

fn number(word: &str) -> Result<u64, String> {
    let complaint = |_| format!("{word}: not a number\n\n{HELP}");
    word.parse().map_err(complaint)
}

/// Writes a file, or checks that it is as it would be written.
fn keep(action: &str, file: PathBuf, bytes: &[u8]) -> Result<(), String> {
    match action {
        "write" => write(&file, bytes),
        "check" => compare(&file, bytes),
        _ => Err(HELP.to_string()),
    }
}

fn compare(file: &Path, bytes: &[u8]) -> Result<(), String> {
    let present = read(file)?;
    if present == bytes {
        return Ok(());
    }
    let found = String::from_utf8_lossy(&present);
    let expected = String::from_utf8_lossy(bytes);
    let same = found
        .lines()
        .zip(expected.lines())
        .take_while(|(f, e)| f == e);
    let line = same.count();
    let start = |text: &str| -> String {
        let line = text.lines().nth(line).unwrap_or("the end of the file");
        line.chars().take(60).collect()
    };
    Err(format!(
        "{}: line {} is not what would be written: found {:?}, expected {:?}",
        file.display(),
        line + 1,
        start(&found),
        start(&expected)
    ))
}
