//! Rewrites into lent output, with what they leave there.

use crate::cases::source::{answer, file, Family, Group, Shelf};
use crate::cases::{dirty, noisy};
use crate::form::rewrite;
use crate::goods::with_empty_texts;
use crate::identity::Identity;
use crate::meaning::meaning;
use crate::record::Record;
use crate::samples::{host_only, known, small, unended};
use crate::secondary::named_twice;
use crate::security::Security;
use crate::subsystem::Subsystem;
use crate::{form_length, Answer};

const FAMILY: Family = Family {
    about: "Rewrites with what the second program leaves in the output, and that the definitions compute the same.",
    words: ", ℕ",
    uses: "use Rattle.table.proofs.Cases.{RewriteCase, unwritten, written, sheet, fine_rewrite, all_fine_rewrites}",
    case: "RewriteCase",
    fine: "fine_rewrite",
    all_fine: "all_fine_rewrites",
    agree: "rewrites_agree",
};

fn case(shelf: &mut Shelf, table: &[u8], room: usize) -> String {
    let mut output = dirty(room);
    let (said, length) = rewrite(table, &mut output);
    let (table, lent) = (shelf.name(table), shelf.name(&dirty(room)));
    if said == Answer::DONE {
        format!("written {table} {lent} {length} {}", shelf.name(&output))
    } else {
        assert_eq!((length, output), (0, dirty(room)));
        format!("unwritten {table} {lent} {}", answer(said))
    }
}

/// Good tables in outputs of just their form's length, less and more; and
/// refused ones.
fn groups(shelf: &mut Shelf) -> [Group; 2] {
    let samples = known().into_iter().chain([unended(), named_twice()]);
    let (good, refused): (Vec<_>, Vec<_>) = samples.partition(|s| s.answer.is_done());
    let mut tables: Vec<Vec<u8>> = good.into_iter().map(|sample| sample.table).collect();
    tables.push(noisy(&host_only()));
    tables.push(noisy(&small(Security::ID, 1)));
    tables.push(noisy(&small(Security::ID, 2)));
    tables.push(noisy(&small(Subsystem::ID, 1)));
    tables.push(noisy(&small(Identity::ID, 1)));
    tables.push(noisy(&with_empty_texts(Subsystem::ID)));
    let mut cases = Vec::new();
    for table in &tables {
        let length = form_length(&meaning(table));
        for room in [length, length - 1, length + 20] {
            cases.push(case(shelf, table, room));
        }
    }
    cases.push(case(shelf, &tables[0], 0));
    let refused = refused.iter().map(|s| case(shelf, &s.table, 180)).collect();
    [
        Group::new("output as long as the form, one byte short, longer", cases),
        Group::new("refused tables", refused),
    ]
}

/// The text of the rewrites' file.
pub fn text() -> String {
    let mut shelf = Shelf::default();
    let groups = groups(&mut shelf);
    file(&FAMILY, &shelf, &groups)
}
