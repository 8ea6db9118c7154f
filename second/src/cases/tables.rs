//! A sample of the vectors: tables with their answers and forms.

use crate::answer::number;
use crate::cases::source::{answer, argument, file, Family, Group, Shelf};
use crate::vectors::{vectors, Vector};

const FAMILY: Family = Family {
    about: "Tables with the answers and forms that the second program gives, and that the definitions compute the same.",
    words: "",
    uses: "use Rattle.table.proofs.Cases.{Case, refused, taken, sheet, fine, all_fine}",
    case: "Case",
    fine: "fine",
    all_fine: "all_fine",
    agree: "agrees",
};

const CASES_IN_A_LIST: usize = 20;
const LONGEST_TABLE: usize = 720;

/// Vectors that are short enough, thinned where many say nearly the same.
pub fn sampled() -> Vec<Vector> {
    let short = |vector: &Vector| {
        let form_length = vector.form.as_ref().map_or(0, Vec::len);
        vector.table.len() <= LONGEST_TABLE && form_length <= LONGEST_TABLE
    };
    // The place among vectors of the same number says which ones to keep.
    let mut seen = [0; number::LAST as usize + 1];
    let kept = |vector: &Vector| {
        let named = |name| vector.name.starts_with(name);
        let every = match vector.answer.number {
            _ if named("known") => 1,
            _ if named("random") || named("pair") => 8,
            number::REGION => 8,
            number::REFERENCE => 5,
            number::RECORD | number::HEAP_RECORD | number::INDEX => 2,
            number::TEXT | number::SECONDARY => 2,
            _ => 1,
        };
        let count = &mut seen[usize::from(vector.answer.number)];
        *count += 1;
        *count % every == 0
    };
    vectors().into_iter().filter(short).filter(kept).collect()
}

fn case(vector: &Vector) -> String {
    let table = argument(&vector.table);
    match &vector.form {
        Some(form) => format!("taken {table} {}", argument(form)),
        None => format!("refused {table} {}", answer(vector.answer)),
    }
}

fn group(vectors: &[Vector]) -> Group {
    let names: Vec<&str> = vectors.iter().map(|vector| vector.name.as_str()).collect();
    Group::new(&names.join(", "), vectors.iter().map(case).collect())
}

/// The text of the cases' file.
pub fn text() -> String {
    let groups: Vec<Group> = sampled().chunks(CASES_IN_A_LIST).map(group).collect();
    file(&FAMILY, &Shelf::default(), &groups)
}
