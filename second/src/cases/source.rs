//! Bytes, lists of cases and statements as source text.

use crate::answer::Answer;
use crate::vectors::{is_repetition, runs};
use std::fmt::Write;

/// What the cases of one file are called.
pub struct Family {
    /// What the file shows, in one sentence.
    pub about: &'static str,
    /// What the text needs of the library beside lists and bytes, each word behind a comma.
    pub words: &'static str,
    /// What else it needs, in a line of its own.
    pub uses: &'static str,
    /// The type of a case.
    pub case: &'static str,
    /// The test of one case, and that of a list of them.
    pub fine: &'static str,
    pub all_fine: &'static str,
    /// The name of the statements, before their number.
    pub agree: &'static str,
}

/// Cases that stand in one list, with what they have in common.
pub struct Group {
    pub title: String,
    pub cases: Vec<String>,
}

impl Group {
    pub fn new(title: &str, cases: Vec<String>) -> Group {
        Group {
            title: title.to_string(),
            cases,
        }
    }

    fn text(&self, family: &Family, place: usize) -> String {
        let Family {
            case,
            fine,
            all_fine,
            agree,
            ..
        } = family;
        let cases: String = self.cases.iter().map(|c| format!("{c}\n    ∷ ")).collect();
        format!(
            "\n-- {}\nabbrev cases{place} : List {case}\ncases{place} =\n    {cases}[]\n\n\
             pub {agree}{place} : T ({all_fine} cases{place})\nunfolding {fine}\n{agree}{place} = tt\n",
            self.title
        )
    }
}

/// The text of a file; the shelf's byte strings come before their uses.
pub fn file(family: &Family, shelf: &Shelf, groups: &[Group]) -> String {
    let mut text = format!(
        "-- {} Written by the second program. Assumes nothing.\n\
         use Rattle.std.specs.Prelude.{{List, [], ◌∷◌, replicate, T{}}}\n\
         use Rattle.table.specs.Bytes.{{edit}}\n\
         {}\n",
        family.about, family.words, family.uses
    );
    text.push_str(&shelf.text());
    for (place, group) in groups.iter().enumerate() {
        text.push_str(&group.text(family, place));
    }
    text
}

/// Byte strings that several cases share, each under a name of its own.
#[derive(Default)]
pub struct Shelf {
    kept: Vec<Vec<u8>>,
}

impl Shelf {
    pub fn name(&mut self, bytes: &[u8]) -> String {
        let found = self.kept.iter().position(|kept| kept == bytes);
        let place = found.unwrap_or_else(|| {
            self.kept.push(bytes.to_vec());
            self.kept.len() - 1
        });
        format!("bytes{place}")
    }

    fn text(&self) -> String {
        let mut text = String::new();
        for (place, bytes) in self.kept.iter().enumerate() {
            let sheet = sheet(bytes);
            let _ = write!(
                text,
                "\nabbrev bytes{place} : List ℕ\nbytes{place} = {sheet}\n"
            );
        }
        text
    }
}

/// The three numbers of an answer.
pub fn answer(answer: Answer) -> String {
    let Answer {
        number,
        kind,
        position,
    } = answer;
    format!("{number} {kind} {position}")
}

/// A list of a few bytes, or of one byte over and over, as an argument.
pub fn list(bytes: &[u8]) -> String {
    if bytes.is_empty() {
        return "[]".to_string();
    }
    if is_repetition(bytes) {
        return format!("(replicate {} {})", bytes.len(), bytes[0]);
    }
    let bytes: String = bytes.iter().map(|byte| format!("{byte} ∷ ")).collect();
    format!("({bytes}[])")
}

/// Zero bytes with the others put at their places.
pub fn sheet(bytes: &[u8]) -> String {
    let mut edits = String::new();
    for (start, run) in runs(bytes, |_| true) {
        if run[0] != 0 || !is_repetition(run) {
            let _ = write!(edits, "edit {start} {} ∷ ", list(run));
        }
    }
    if edits.is_empty() {
        format!("sheet {} []", bytes.len())
    } else {
        format!("sheet {} ({edits}[])", bytes.len())
    }
}

/// The same as an argument.
pub fn argument(bytes: &[u8]) -> String {
    format!("({})", sheet(bytes))
}
