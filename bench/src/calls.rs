//! The calls that are timed. Before a call is entered both programs make it, and
//! must agree.

use crate::turns::{Timed, Turns};
use linked::builder::Run;
use second::frame::GREATEST_LENGTH;
use second::retell::{make_all, Call};
use second::whole::ENTRY_SIZE;
use second::{Answer, EntryBytes, Records};
use std::hint::black_box;

/// A call as the library and as the second program make it.
#[derive(Clone, Copy)]
pub struct Both {
    pub library: Timed,
    pub second: Timed,
}

extern "C" {
    fn nbft_sum(table: *const u8, length: usize) -> u8;
}

/// The sum that the library's check takes.
fn library_sum(bytes: &[u8]) -> u8 {
    // SAFETY: pointer and length are a slice's; the function only reads.
    unsafe { nbft_sum(bytes.as_ptr(), bytes.len()) }
}

fn bare_sum(bytes: &[u8]) -> u8 {
    bytes.iter().fold(0, |sum, byte| sum.wrapping_add(*byte))
}

/// Room for all that a table says.
fn entries_of(table: &[u8]) -> Vec<u8> {
    vec![0; second::records(table, 0, 0, 10, &mut []).total * ENTRY_SIZE]
}

/// A table read list by list: header and host alone, then the rows of HFI infos, SSNSs, their extended infos, security
/// and discovery records, one behind the other. Gives how many bytes the entries have.
fn list_by_list(
    entries: &mut [u8],
    alone: impl Fn(u8, &mut EntryBytes),
    row: impl Fn(u8, &mut [u8]) -> Records,
) -> usize {
    let mut end = 0;
    for kind in [0, 2] {
        let entry = &mut entries[end..end + ENTRY_SIZE];
        alone(kind, entry.try_into().expect("it is as long as an entry"));
        end += ENTRY_SIZE;
    }
    for kind in [7, 4, 9, 5, 6] {
        end += row(kind, &mut entries[end..]).written * ENTRY_SIZE;
    }
    end
}

fn library_list_by_list(table: &[u8], entries: &mut [u8]) -> usize {
    list_by_list(
        entries,
        |kind, entry| assert!(linked::record(table, kind, 0, entry).is_done()),
        |kind, rest| linked::records(table, kind, 1, kind, rest),
    )
}

fn second_list_by_list(table: &[u8], entries: &mut [u8]) -> usize {
    list_by_list(
        entries,
        |kind, entry| *entry = second::entry(table, kind, 0).expect("the table is good"),
        |kind, rest| second::records(table, kind, 1, kind, rest),
    )
}

impl<'a> Turns<'a> {
    pub fn bare_sum(&mut self, table: &'a [u8]) -> Timed {
        self.enter(|| bare_sum(black_box(table)))
    }

    /// The library's; the second program has the bare one.
    pub fn sum(&mut self, table: &'a [u8]) -> Timed {
        (0..table.len()).for_each(|start| assert_eq!(library_sum(&table[start..]), bare_sum(&table[start..])));
        self.enter(|| library_sum(black_box(table)))
    }

    pub fn check(&mut self, table: &'a [u8]) -> Both {
        assert!(linked::check(table).is_done() && second::check(table).is_done());
        Both {
            library: self.enter(|| linked::check(black_box(table))),
            second: self.enter(|| second::check(black_box(table))),
        }
    }

    /// A field of the first discovery record, the last kind in the order of the lists.
    pub fn field(&mut self, table: &'a [u8]) -> Both {
        assert_eq!(linked::field(table, 6, 1, 3), second::field(table, 6, 1, 3));
        Both {
            library: self.enter(|| linked::field(black_box(table), 6, 1, 3)),
            second: self.enter(|| second::field(black_box(table), 6, 1, 3)),
        }
    }

    /// The place of an object of that record: by one call, and by the two that give its length and its start.
    pub fn place(&mut self, table: &'a [u8]) -> [Timed; 2] {
        assert_eq!(linked::object_place(table, 6, 1, 6), linked::object(table, 6, 1, 6));
        [
            self.enter(|| linked::object_place(black_box(table), 6, 1, 6)),
            self.enter(|| linked::object(black_box(table), 6, 1, 6)),
        ]
    }

    /// All that the table says, by one call.
    pub fn whole(&mut self, table: &'a [u8]) -> Both {
        let (mut entries, mut other) = (entries_of(table), entries_of(table));
        let (given, expected) =
            (linked::records(table, 0, 0, 10, &mut entries), second::records(table, 0, 0, 10, &mut other));
        assert!(given.answer.is_done() && given.written == given.total);
        assert!(given == expected && entries == other);
        Both {
            library: self.enter(move || linked::records(black_box(table), 0, 0, 10, black_box(&mut entries))),
            second: self.enter(move || second::records(black_box(table), 0, 0, 10, black_box(&mut other))),
        }
    }

    /// What a boot takes of it, by a call for each list.
    pub fn list_by_list(&mut self, table: &'a [u8]) -> Both {
        let (mut entries, mut other) = (entries_of(table), entries_of(table));
        let end = library_list_by_list(table, &mut entries);
        assert_eq!(second_list_by_list(table, &mut other), end);
        assert_eq!(entries, other);
        Both {
            library: self.enter(move || library_list_by_list(black_box(table), black_box(&mut entries))),
            second: self.enter(move || second_list_by_list(black_box(table), black_box(&mut other))),
        }
    }

    pub fn rewrite(&mut self, table: &'a [u8]) -> Both {
        let (mut output, mut other) = (vec![0; GREATEST_LENGTH], vec![0; GREATEST_LENGTH]);
        assert_eq!(linked::rewrite(table, &mut output), second::rewrite(table, &mut other));
        assert_eq!(output, other);
        Both {
            library: self.enter(move || linked::rewrite(black_box(table), black_box(&mut output))),
            second: self.enter(move || second::rewrite(black_box(table), black_box(&mut other))),
        }
    }

    /// Closing up changes the table, so before each call it is copied anew, by either program.
    pub fn compact(&mut self, table: &'a [u8]) -> Both {
        let (mut lent, mut map) = (table.to_vec(), vec![0; table.len().div_ceil(8)]);
        let (mut other, mut other_map) = (lent.clone(), map.clone());
        assert_eq!(linked::compact(&mut lent, &mut map), second::compact(&mut other, &mut other_map));
        assert!(lent == other && map == other_map && lent != table);
        Both {
            library: self.enter(move || {
                lent.copy_from_slice(black_box(table));
                linked::compact(black_box(&mut lent), black_box(&mut map))
            }),
            second: self.enter(move || {
                other.copy_from_slice(black_box(table));
                second::compact(black_box(&mut other), black_box(&mut other_map))
            }),
        }
    }

    /// All calls from begin to finish, which build this table.
    pub fn build(&mut self, calls: &'a [Call], table: &[u8]) -> Both {
        let (mut output, mut other) = (vec![0; table.len()], vec![0; table.len()]);
        let run = Run::of(calls);
        assert_eq!(run.make(&mut output).0, Answer::DONE);
        assert_eq!(make_all(calls, &mut other).0, Answer::DONE);
        assert!(output == table && other == table);
        Both {
            library: self.enter(move || black_box(&run).make(black_box(&mut output))),
            second: self.enter(move || make_all(black_box(calls), black_box(&mut other))),
        }
    }
}
