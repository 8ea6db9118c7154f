//! The files that are shown as JSON: those that are named, and those that
//! stand in folders that are named.

use crate::json::Json;
use crate::show;
use std::ffi::{OsStr, OsString};
use std::fs;
use std::io::{self, ErrorKind, Read};
use std::os::unix::ffi::{OsStrExt, OsStringExt};
use std::path::Path;

/// The names under which a system hands its tables out.
const IN_FOLDERS: [&str; 10] = [
    "NBFT", "NBFT1", "NBFT2", "NBFT3", "NBFT4", "NBFT5", "NBFT6", "NBFT7", "NBFT8", "NBFT9",
];

/// What stands for standard input.
const STANDARD_INPUT: &str = "-";

/// A list with an object for each file, and a complaint about each that
/// cannot be read, so that one of them does not hide the others.
pub fn shown(arguments: &[OsString]) -> (Json, Vec<String>) {
    let mut objects = Vec::new();
    let mut complaints = Vec::new();
    for argument in arguments {
        for (name, outcome) in read_all(argument) {
            match outcome {
                Ok(bytes) => objects.push(show(name.as_bytes(), &bytes)),
                Err(fault) => complaints.push(format!("{}: {fault}", name.display())),
            }
        }
    }
    (Json::List(objects), complaints)
}

/// A file under the name that is shown, with its bytes.
type Named = (OsString, io::Result<Vec<u8>>);

fn read_all(argument: &OsStr) -> Vec<Named> {
    if Path::new(argument).is_dir() {
        return read_folder(argument);
    }
    let mut bytes = Vec::new();
    let outcome = match argument == STANDARD_INPUT {
        true => io::stdin().read_to_end(&mut bytes).map(|_| bytes),
        false => fs::read(argument),
    };
    vec![(argument.to_os_string(), outcome)]
}

/// The tables of a folder. One without any is complained of.
fn read_folder(folder: &OsStr) -> Vec<Named> {
    let files = IN_FOLDERS.iter().map(|name| {
        let file = inside(folder, name);
        let outcome = fs::read(&file);
        (file, outcome)
    });
    let is_there = |outcome: &io::Result<Vec<u8>>| match outcome {
        Ok(_) => true,
        Err(fault) => fault.kind() != ErrorKind::NotFound,
    };
    let there: Vec<Named> = files.filter(|(_, outcome)| is_there(outcome)).collect();
    if there.is_empty() {
        let fault = io::Error::new(ErrorKind::NotFound, "no file NBFT, NBFT1 to NBFT9");
        return vec![(folder.to_os_string(), Err(fault))];
    }
    there
}

/// With one slash between folder and name, also where the folder has it.
fn inside(folder: &OsStr, name: &str) -> OsString {
    let mut file = folder.as_bytes().to_vec();
    if !file.ends_with(b"/") {
        file.push(b'/');
    }
    file.extend(name.as_bytes());
    OsString::from_vec(file)
}
