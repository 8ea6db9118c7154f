//! How often a check looks at records.

use second::form::{put_checksum, record_start};
use second::generate::random_meaning;
use second::layout::{lay_out_freely, Style};
use second::looks::{most_looks, most_looks_at};
use second::random::Random;
use second::record::Record;
use second::samples::{crowded, known, machine, small, smallest};
use second::secondary::{self, all_indexes, listing, many_times_one, MOST};
use second::subsystem::Subsystem;
use second::vectors::vectors;
use second::{check, check_looks, form, Answer, Meaning};

/// A form with one byte changed.
fn with(said: &Meaning, place: usize, byte: u8) -> Vec<u8> {
    let mut table = form(said);
    table[place] = byte;
    put_checksum(&mut table);
    table
}

/// The same within the subsystem at this position.
fn with_subsystem(said: &Meaning, position: u16, offset: usize, byte: u8) -> Vec<u8> {
    let start = record_start::<Subsystem>(said.counts(), position);
    with(said, start + offset, byte)
}

fn at_subsystem(number: u8, position: u16) -> Answer {
    Answer::at(number, Subsystem::ID, position)
}

#[test]
fn good_tables_are_looked_at_as_counted_by_hand() {
    // The host.
    assert_eq!(check_looks(&smallest()), (Answer::DONE, 1));
    // Host 1, 255 of each list, none of them used.
    let unused = 1 + 4 * 255;
    assert_eq!(check_looks(&form(&crowded(95))), (Answer::DONE, unused));
    // Host 1, interfaces 2. Subsystem 1: itself, discovery, security, primary
    // and one secondary index, which is 5; subsystem 2 has no security, 4.
    // Security 1. Discovery: itself, interface and security index, 3.
    let looks = 1 + 2 + 5 + 4 + 1 + 3;
    assert_eq!(check_looks(&form(&machine())), (Answer::DONE, looks));
    // Host 1, interfaces 2. Subsystem: itself and its four indexes, 5.
    // Security 1. Discovery: itself and its interface, 2; one unused, 1.
    let looks = 1 + 2 + 5 + 1 + 2 + 1;
    assert_eq!(check_looks(&form(&small(4, 1))), (Answer::DONE, looks));
    // Behind unused ones: host 1, interfaces 3, subsystems 1 + 5, securities
    // 2, discoveries 1 + 2 + 1.
    let looks = 1 + 3 + 1 + 5 + 2 + 1 + 2 + 1;
    assert_eq!(check_looks(&form(&small(4, 2))), (Answer::DONE, looks));
    // Host 1, interfaces 3. Subsystem: itself, primary, two secondaries.
    let table = form(&listing(&[true, true, false], &[2, 1]));
    assert_eq!(check_looks(&table), (Answer::DONE, 1 + 3 + 4));
}

#[test]
fn tables_refused_before_their_records_are_not_looked_at() {
    for sample in vectors() {
        let before = sample.answer.number <= 9 && !sample.answer.is_done();
        let in_header = sample.answer.number == 11 && sample.answer.kind == 0;
        let (answer, looks) = check_looks(&sample.table);
        assert_eq!(answer, sample.answer);
        let is_looked_at = !before && !in_header;
        assert_eq!(looks != 0, is_looked_at, "{}", sample.name);
    }
    assert_eq!(check_looks(&[]), (Answer::plain(1), 0));
}

/// Every record before the refused one, and of that what was met until then.
#[test]
fn counting_stops_with_the_answer() {
    let said = machine();
    // The host, which is not valid, was visited; so was one with a bad name.
    let host = Answer::at(10, 2, 0);
    assert_eq!(check_looks(&with(&said, 129, 0)), (host, 1));
    let host = Answer::at(11, 2, 0);
    assert_eq!(check_looks(&with(&said, 150, 0)), (host, 1));
    // Host 1, the first of two interfaces: its info's version.
    let info = u32::from_le_bytes(form(&said)[176..180].try_into().unwrap()) as usize;
    let table = with(&said, info + 1, 2);
    assert_eq!(check_looks(&table), (Answer::at(12, 3, 1), 1 + 1));
    // Host 1, interfaces 2, then subsystem 1 itself: its fields, references
    // and list come before its indexes.
    for (offset, byte, number) in [(5, 4, 10), (14, 0, 11), (58, 1, 18), (52, 3, 20)] {
        let table = with_subsystem(&said, 1, offset, byte);
        assert_eq!(check_looks(&table), (at_subsystem(number, 1), 1 + 2 + 1));
    }
    // Of subsystem 2 itself, behind the 5 of the first.
    let table = with_subsystem(&said, 2, 52, 3);
    assert_eq!(check_looks(&table), (at_subsystem(20, 2), 1 + 2 + 5 + 1));
    // The discovery record's own fields: all before it, and itself.
    let discovery = form(&said)[104..108].try_into().unwrap();
    let discovery = u32::from_le_bytes(discovery) as usize;
    let before = 1 + 2 + 5 + 4 + 1;
    let table = with(&said, discovery, 5);
    assert_eq!(check_looks(&table), (Answer::at(10, 6, 1), before + 1));
    // Its interface index, and then its security index behind that.
    let table = with(&said, discovery + 3, 3);
    assert_eq!(check_looks(&table), (Answer::at(13, 6, 1), before + 2));
    let table = with(&said, discovery + 4, 2);
    assert_eq!(check_looks(&table), (Answer::at(13, 6, 1), before + 3));
}

/// An index that names nothing has been looked up, and none behind it is.
#[test]
fn the_failing_index_is_the_last_look() {
    let said = machine();
    // Host 1, interfaces 2, subsystem 1 itself.
    let before = 1 + 2 + 1;
    for (offset, byte, indexes) in [(8, 9, 1), (45, 9, 2), (45, 0, 2), (46, 9, 3), (46, 0, 3)] {
        let table = with_subsystem(&said, 1, offset, byte);
        assert_eq!(check_looks(&table), (at_subsystem(13, 1), before + indexes));
    }
    // Discovery index 0 is not resolved: primary 9 is the second index then.
    let start = record_start::<Subsystem>(said.counts(), 1);
    let mut table = with_subsystem(&said, 1, 46, 9);
    table[start + 8] = 0;
    put_checksum(&mut table);
    assert_eq!(check_looks(&table), (at_subsystem(13, 1), before + 2));
    // Nor is the security index where the flag is clear.
    table[start + 3] &= !4;
    put_checksum(&mut table);
    assert_eq!(check_looks(&table), (at_subsystem(13, 1), before + 1));
    // Host 1, interfaces 3, the subsystem itself, its primary interface, and
    // of the list as much as there is up to 3, which is not used.
    for (list, indexes) in [(&[3, 1][..], 1), (&[1, 3, 2], 2), (&[2, 1, 3], 3)] {
        let table = form(&listing(&[true, true, false], list));
        assert_eq!(
            check_looks(&table),
            (at_subsystem(13, 1), 1 + 3 + 2 + indexes)
        );
    }
}

/// Before there was a rule for it such a list took a look for each byte.
#[test]
fn a_list_that_is_refused_is_not_looked_up() {
    for times in [3, 60_000] {
        let table = many_times_one(times).table;
        assert_eq!(check_looks(&table), (at_subsystem(20, 1), 1 + 2 + 1));
    }
}

/// Every record used, and every index there can be.
#[test]
fn the_bound_is_reached() {
    // 1 + H + S * (4 + H) + C + 3 * D.
    assert_eq!(most_looks([3, 2, 1, 1]), 1 + 3 + 2 * 7 + 1 + 3);
    assert_eq!(most_looks([255; 4]), 1 + 255 + 255 * 259 + 255 + 765);
    assert_eq!(most_looks([0; 4]), 1);
    for counts in [[1; 4], [3, 2, 1, 1], [2, 5, 3, 4], [40, 6, 2, 7]] {
        let table = form(&all_indexes(counts));
        assert_eq!(check_looks(&table), (Answer::DONE, most_looks(counts)));
    }
    let table = secondary::most_looks();
    assert_eq!(table.len(), 65_536);
    assert_eq!(most_looks(MOST), 67_253);
    assert_eq!(check_looks(&table), (Answer::DONE, 67_253));
}

#[test]
fn no_table_passes_the_bound() {
    let mut tables: Vec<Vec<u8>> = vectors().into_iter().map(|vector| vector.table).collect();
    tables.extend(known().into_iter().map(|sample| sample.table));
    let mut random = Random::seeded(21);
    for _ in 0..300 {
        let said = random_meaning(&mut random);
        let mut table = lay_out_freely(&mut random, &said, Style::WILD);
        tables.push(table.clone());
        let place = 64 + random.below(table.len() - 64);
        table[place] = random.byte();
        put_checksum(&mut table);
        tables.push(table);
    }
    for table in tables {
        let (answer, looks) = check_looks(&table);
        assert_eq!(answer, check(&table));
        assert!(looks <= most_looks_at(&table));
    }
    assert_eq!(most_looks_at(&[255; 111]), 0);
    assert_eq!(most_looks_at(&[1; 112]), most_looks([1; 4]));
}
