//! Cases as source text for a proof assistant, which computes them anew.

pub mod builds;
pub mod reads;
pub mod rewrites;
pub mod singles;
pub mod source;
pub mod tables;

use crate::layout::{lay_out_freely, with_tail, Style};
use crate::meaning::Meaning;
use crate::random::Random;

/// A layout with noise and long records, and some bytes beyond its Length.
fn noisy(meaning: &Meaning) -> Vec<u8> {
    let mut random = Random::seeded(7);
    let table = lay_out_freely(&mut random, meaning, Style::SEPARATE);
    with_tail(&mut random, table)
}

/// Lent output, of which every byte shows whether it was written.
fn dirty(length: usize) -> Vec<u8> {
    vec![0xEE; length]
}

/// Each file, below the folder of the crates, and its text.
pub fn files() -> [(&'static str, String); 4] {
    [
        ("agreement_tables/specs/Cases.antt", tables::text()),
        ("agreement_reads/specs/ReadCases.antt", reads::text()),
        ("agreement_reads/specs/RewriteCases.antt", rewrites::text()),
        ("agreement_tables/specs/BuildCases.antt", builds::text()),
    ]
}
