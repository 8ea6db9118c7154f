//! Damages a good table in every way that has a number of its own.

use crate::answer::{number, Answer, HEADER_KIND};
use crate::form::{put_checksum, seal};
use crate::frame::{DRIVER_SIGNATURE_AT, GREATEST_LENGTH};
use crate::host::Host;
use crate::record::Record;
use crate::samples::Sample;
use crate::wire::{array_at, put, u32_at};

/// Some bytes of a table to overwrite, and the answer this leads to if the
/// checksum is put right.
#[derive(Clone, Debug)]
pub struct Damage {
    pub name: String,
    pub edits: Vec<(usize, Vec<u8>)>,
    pub answer: Answer,
    /// When the fault is met within its record: the reference fields that
    /// lead there, each behind the one it is nested in. Nothing for the
    /// record's own fields, and a field 0 for a heap record's.
    pub stage: Vec<usize>,
}

impl Damage {
    pub fn apply(&self, good: &[u8]) -> Sample {
        let mut table = good.to_vec();
        self.edit(&mut table);
        put_checksum_within_length(&mut table);
        Sample {
            name: self.name.clone(),
            table,
            answer: self.answer,
        }
    }

    /// The same under a name that tells the table that it is done to.
    pub fn named(self, table: &str) -> Damage {
        let name = format!("{table}-{}", self.name);
        Damage { name, ..self }
    }

    fn edit(&self, table: &mut [u8]) {
        for (place, bytes) in &self.edits {
            put(table, *place, bytes);
        }
    }

    /// Both damages at once, if it is certain that this one is met first.
    pub fn before(&self, other: &Damage, good: &[u8]) -> Option<Sample> {
        if !self.comes_before(other) {
            return None;
        }
        let mut table = good.to_vec();
        other.edit(&mut table);
        let sample = self.apply(&table);
        Some(Sample {
            name: format!("{}-before-{}", self.name, other.name),
            ..sample
        })
    }

    /// Numbers up to 9 are judged in their order; then records by kind and
    /// position, and each of them in stages.
    fn comes_before(&self, other: &Damage) -> bool {
        if self.answer.number <= number::RECORD_VERSION {
            self.answer.number < other.answer.number
        } else {
            other.answer.number > number::RECORD_VERSION && self.place() < other.place()
        }
    }

    fn place(&self) -> (u8, u16, &[usize]) {
        (self.answer.kind, self.answer.position, &self.stage)
    }
}

/// Puts the checksum right for the stated Length, as far as bytes are lent.
pub fn put_checksum_within_length(lent: &mut [u8]) {
    let length = (u32_at(lent, 4) as usize).clamp(10, lent.len());
    put_checksum(&mut lent[..length]);
}

fn refused(name: &str, number: u8, table: Vec<u8>) -> Sample {
    Sample {
        name: name.to_string(),
        table,
        answer: Answer::plain(number),
    }
}

/// Damage by the number of bytes lent, the Length and the checksum.
pub fn outer_damage(good: &[u8]) -> Vec<Sample> {
    let lent = |length| good[..length].to_vec();
    let with = |place: usize, byte: u8| {
        let mut table = good.to_vec();
        table[place] = byte;
        table
    };
    let (sum, last) = (good[9], good.len() - 1);
    let mut too_long = good.to_vec();
    too_long.resize(GREATEST_LENGTH + 1, 0);
    seal(&mut too_long, 0, 0);
    vec![
        refused("nothing-lent", number::TOO_FEW_BYTES, lent(0)),
        refused("one-byte-lent", number::TOO_FEW_BYTES, lent(1)),
        refused("159-bytes-lent", number::TOO_FEW_BYTES, lent(159)),
        refused("last-byte-not-lent", number::LENGTH, lent(last)),
        refused("only-160-bytes-lent", number::LENGTH, lent(160)),
        refused("length-65537", number::TOO_LONG, too_long),
        refused("checksum-off-by-1", number::CHECKSUM, with(9, sum ^ 1)),
        refused("checksum-off-by-128", number::CHECKSUM, with(9, sum ^ 128)),
        refused(
            "last-byte-changed",
            number::CHECKSUM,
            with(last, !good[last]),
        ),
        refused("checksum-before-major", number::CHECKSUM, with(8, 2)),
    ]
}

/// Without a heap every object is outside, whatever the heap's offset.
pub fn empty_heap(good: &[u8]) -> Sample {
    let mut table = good.to_vec();
    put(&mut table, 36, &[0xFF, 0xFF, 0xFF, 0xFF, 0, 0, 0, 0]);
    put_checksum_within_length(&mut table);
    let signature: [u8; 6] = array_at(good, DRIVER_SIGNATURE_AT);
    let kind = match signature {
        [0, 0, 0, 0, 0, 0] => Host::ID,
        _ => HEADER_KIND,
    };
    Sample {
        name: format!("empty-heap-found-by-kind-{kind}"),
        table,
        answer: Answer::at(number::REFERENCE, kind, 0),
    }
}
