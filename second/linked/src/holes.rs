//! Tables whose heaps have bytes that nothing refers to, and tables in which a heap record shares bytes with something
//! else, or only just does not.

use second::compact::{sites, Site};
use second::damage::put_checksum_within_length;
use second::form::put_checksum;
use second::frame::{Frame, List};
use second::generate::random_meaning;
use second::identity::Identity;
use second::interface::Info;
use second::layout::{lay_out_freely, with_tail, Style};
use second::random::Random;
use second::record::Record;
use second::samples::smallest;
use second::security::Security;
use second::subsystem::Subsystem;
use second::wire::{put, put_reference, put_u16, put_u32, set_bit, u32_at};
use second::{check, Answer};
use std::ops::Range;

/// K1 with two bytes before its NQN.
pub fn two_bytes_before_the_name() -> Vec<u8> {
    let mut table = smallest();
    let name = table.split_off(160);
    table.extend([0xEE, 0xEE]);
    table.extend(name);
    for length_or_offset in [4, 40, 146] {
        table[length_or_offset] += 2;
    }
    put_checksum(&mut table);
    table
}

/// A good table without objects replaced, so that no heap record shares a byte.
fn without_overlap(random: &mut Random) -> Vec<u8> {
    let meaning = random_meaning(random);
    let style = *random.pick(&[Style::SEPARATE, Style::SHARED]);
    let table = lay_out_freely(random, &meaning, style);
    if random.one_in(4) { with_tail(random, table) } else { table }
}

fn sites_of(table: &[u8]) -> Vec<Site> {
    sites(table).expect("only a good table is changed")
}

fn heap_of(table: &[u8]) -> Range<usize> {
    let start = u32_at(table, 36) as usize;
    start..start + u32_at(table, 40) as usize
}

/// The change with the checksum put right, if the table stays good; or the table as it was.
fn kept_good(table: Vec<u8>, change: impl FnOnce(&mut [u8])) -> Vec<u8> {
    let mut changed = table.clone();
    change(&mut changed);
    put_checksum_within_length(&mut changed);
    if check(&changed) == Answer::DONE { changed } else { table }
}

/// Objects taken out here and there: references made absent where that may be, subsystems made unused.
pub fn with_holes(random: &mut Random) -> Vec<u8> {
    let mut table = without_overlap(random);
    for _ in 0..=random.below(12) {
        let site = *random.pick(&sites_of(&table));
        table = kept_good(table, |table| put(table, site.at, &[0; 6]));
    }
    let subsystems = Frame::read(&table).expect("it is good").subsystems;
    for start in starts(subsystems) {
        if random.one_in(4) {
            table = kept_good(table, |table| set_bit(table, start + Subsystem::VALID_AT, 0, false));
        }
    }
    table
}

/// Where each record of a list starts.
fn starts(list: List) -> impl Iterator<Item = usize> {
    let (start, length) = (list.offset as usize, usize::from(list.record_length));
    (0..usize::from(list.count)).map(move |place| start + place * length)
}

/// References that fields switch off, while they still look like good ones.
pub fn with_ignored_references(random: &mut Random) -> Vec<u8> {
    let table = without_overlap(random);
    let frame = Frame::read(&table).expect("it is good");
    let (subsystems, securities) = (frame.subsystems, frame.securities);
    let heap_records: Vec<Site> = sites_of(&table).into_iter().filter(|site| site.is_heap_record).collect();
    let mut changed = table.clone();
    for start in starts(securities).filter(|_| random.flag()) {
        put_u16(&mut changed, start + Security::VALID_AT, 1);
        changed[start + 4] = 0;
    }
    for start in starts(subsystems).filter(|_| random.flag()) {
        set_bit(&mut changed, start + Subsystem::VALID_AT, 4, false);
    }
    for site in heap_records.iter().filter(|_| random.flag()) {
        match changed[site.start] {
            Info::ID => changed[site.start + Info::VERSION_AT] = 1,
            Identity::ID => set_bit(&mut changed, site.start + 4, Identity::CLIENT_BIT as usize, false),
            _ => (),
        }
    }
    kept_good(table, |table| put(table, 0, &changed))
}

/// A heap record that shares a byte with something else, or touches it. A few tables are no longer good for it.
pub fn with_an_overlap(random: &mut Random) -> Vec<u8> {
    let table = without_overlap(random);
    let sites = sites_of(&table);
    let records: Vec<Site> = sites.iter().filter(|site| site.is_heap_record).copied().collect();
    if records.is_empty() {
        return table;
    }
    let sort = random.below(6);
    for _ in 0..20 {
        let record = *random.pick(&records);
        let mut changed = table.clone();
        match sort {
            0 | 1 => refer_into(random, &mut changed, &sites, &record),
            2 => refer_to_text_in(random, &mut changed, &sites, &record),
            3 => lengthen(random, &mut changed, &record),
            _ => move_into(random, &mut changed, &records, &record),
        }
        put_checksum_within_length(&mut changed);
        if check(&changed) == Answer::DONE || random.one_in(100) {
            return changed;
        }
    }
    table
}

/// A part of a heap record, one that reaches beyond it, or one right before or behind it.
fn part_about(random: &mut Random, record: &Site) -> Range<usize> {
    let (start, end) = (record.start, record.start + record.length);
    let inside = start + random.below(record.length);
    let more = 1 + random.below(12);
    match random.below(8) {
        0 => start..end,
        1 => start..start + 1,
        2 => end - 1..end,
        3 => start - more..start + random.below(3),
        4 => end - random.below(3)..end + more,
        5 => inside..end,
        6 => start - more..end + more,
        _ => inside..inside + 1,
    }
}

/// Some reference to bytes, or to text if luck has it, into a heap record or beside it.
fn refer_into(random: &mut Random, table: &mut [u8], sites: &[Site], record: &Site) {
    let heap = heap_of(table);
    let part = part_about(random, record);
    let (start, end) = (part.start.max(heap.start), part.end.min(heap.end));
    let site = random.pick(sites);
    if !site.is_heap_record {
        put_reference(table, site.at, start as u32, (end - start) as u16);
    }
}

/// Some reference to text that ends at a zero byte of a heap record.
fn refer_to_text_in(random: &mut Random, table: &mut [u8], sites: &[Site], record: &Site) {
    let heap = heap_of(table);
    let zeros: Vec<usize> = (record.start..record.start + record.length).filter(|at| table[*at] == 0).collect();
    let zero = if zeros.is_empty() { record.start } else { *random.pick(&zeros) };
    let before = table[heap.start..zero].iter().rev().take_while(|byte| **byte != 0).count();
    let words = random.below(before + 1);
    let site = random.pick(sites);
    if !site.is_heap_record {
        put_reference(table, site.at, (zero - words) as u32, words as u16 + 1);
    }
}

/// A heap record of which more bytes are stated, up to or over what stands behind it.
fn lengthen(random: &mut Random, table: &mut [u8], record: &Site) {
    let room = heap_of(table).end - record.start;
    let length = record.length + random.below(40);
    put_u16(table, record.at + 4, length.min(room) as u16);
}

/// A heap record copied into another, to bytes that say something there or nothing. Into an info it goes where any
/// bytes may be.
fn move_into(random: &mut Random, table: &mut [u8], records: &[Site], record: &Site) {
    let heap = heap_of(table);
    let other = random.pick(records);
    let free = match table[other.start] {
        Info::ID => 20..other.length,
        _ => 0..other.length,
    };
    let start = other.start + free.start + random.below(free.len());
    let end = (start + record.length).min(heap.end);
    table.copy_within(record.start..record.start + (end - start), start);
    put_u32(table, record.at, start as u32);
    put_u16(table, record.at + 4, (end - start) as u16);
}

#[cfg(test)]
mod tests {
    use super::*;
    use second::answer::number::OVERLAP;
    use std::collections::BTreeSet;

    fn answer(table: &[u8]) -> u8 {
        second::compact(&mut table.to_vec(), &mut [0; 8192]).0.number
    }

    fn share(one: &Site, other: &Site) -> bool {
        one.start < other.start + other.length && other.start < one.start + one.length
    }

    /// What shares a byte with a heap record, each by the kind of record that it belongs to or is.
    fn sorts_of_overlap(table: &[u8]) -> BTreeSet<&'static str> {
        let (sites, mut sorts) = (sites_of(table), BTreeSet::new());
        let records = sites.iter().filter(|site| site.is_heap_record);
        for (record, other) in records.flat_map(|record| sites.iter().map(move |site| (record, site))) {
            if record.at != other.at && share(record, other) {
                sorts.insert(sort_of(table, record, other));
            }
        }
        sorts
    }

    fn sort_of(table: &[u8], record: &Site, other: &Site) -> &'static str {
        let base = match table[record.start] {
            Info::ID => Info::SIZE,
            Identity::ID => Identity::SIZE,
            _ => 18,
        };
        let within = record.start..record.start + record.length;
        if other.start >= record.start + base {
            "in excess bytes"
        } else if other.is_heap_record {
            "another heap record"
        } else if other.at == 44 {
            "driver signature"
        } else if within.contains(&other.at) {
            "own object"
        } else if (other.start, other.length) == (record.start, record.length) {
            "the same bytes"
        } else if other.start < record.start {
            "over the start"
        } else if other.start + other.length > record.start + record.length {
            "over the end"
        } else {
            "inside"
        }
    }

    #[test]
    fn every_sort_of_overlap_is_met_and_many_tables_have_none() {
        let (mut random, mut sorts, mut numbers) = (Random::seeded(6), BTreeSet::new(), [0; 21]);
        for _ in 0..4000 {
            let table = with_an_overlap(&mut random);
            let number = answer(&table);
            numbers[usize::from(number)] += 1;
            if number == OVERLAP {
                sorts.extend(sorts_of_overlap(&table));
            }
        }
        assert_eq!(sorts.len(), 8, "{sorts:?}");
        assert!(numbers[0] > 400 && numbers[usize::from(OVERLAP)] > 1500, "{numbers:?}");
    }

    #[test]
    fn holes_and_ignored_references_leave_good_tables() {
        let mut random = Random::seeded(7);
        let mut moves = 0;
        for round in 0..600 {
            let table = if round % 2 == 0 { with_holes(&mut random) } else { with_ignored_references(&mut random) };
            let (answer, moved) = second::compact(&mut table.clone(), &mut [0; 8192]);
            assert_eq!(answer, Answer::DONE);
            moves += usize::from(moved > 0);
        }
        assert!(moves > 500, "{moves}");
        assert_eq!(second::compact(&mut two_bytes_before_the_name(), &mut [0; 1]), (Answer::DONE, 2));
    }
}
