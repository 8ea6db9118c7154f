//! Records read whole, alone and in a row.

use second::answer::number;
use second::generate::random_meaning;
use second::goods::with_empty_texts;
use second::layout::{lay_out_freely, with_tail, Style};
use second::random::Random;
use second::read::{field_length, has_object, Reading};
use second::samples::{crowded, dhcp, machine, mixed, refused, small, smallest};
use second::whole::{object_offsets, ENTRY_SIZE};
use second::wire::{u16_at, u32_at};
use second::{check, entry, form, records, Answer, EntryBytes, Records};

const NOT_THERE: Answer = Answer::plain(number::NO_SUCH_FIELD);

fn refused_with(answer: Answer) -> Records {
    Records {
        answer,
        written: 0,
        total: 0,
    }
}

fn done(written: usize, total: usize) -> Records {
    Records {
        answer: Answer::DONE,
        written,
        total,
    }
}

/// The entries from a record on through those of a last kind.
fn row(table: &[u8], (kind, position): (u8, u16), last: u8) -> Vec<EntryBytes> {
    let total = records(table, kind, position, last, &mut []).total;
    let mut out = vec![0xEE; (total + 1) * ENTRY_SIZE];
    let given = records(table, kind, position, last, &mut out);
    assert_eq!(given, done(total, total));
    let (written, behind) = out.split_at(total * ENTRY_SIZE);
    assert_eq!(behind, [0xEE; ENTRY_SIZE]);
    let entries = written.chunks_exact(ENTRY_SIZE);
    entries.map(|entry| entry.try_into().unwrap()).collect()
}

/// Kind and position of each.
fn names(entries: &[EntryBytes]) -> Vec<(u8, u8)> {
    entries.iter().map(|entry| (entry[0], entry[1])).collect()
}

/// An entry of these first bytes, image and places, all else zero.
fn made(first: [u8; 4], image: &[(usize, &[u8])], places: &[[u8; 8]]) -> EntryBytes {
    let mut entry = [0; ENTRY_SIZE];
    entry[..4].copy_from_slice(&first);
    for (offset, bytes) in image {
        entry[8 + offset..8 + offset + bytes.len()].copy_from_slice(bytes);
    }
    for (place, bytes) in places.iter().enumerate() {
        entry[136 + 8 * place..144 + 8 * place].copy_from_slice(bytes);
    }
    entry
}

#[test]
fn the_entries_of_the_smallest_table_are_these_bytes() {
    let table = smallest();
    let header = made([0, 0, 1, 64], &[], &[]);
    let control = made([1, 0, 1, 128], &[], &[]);
    let name = [160, 0, 0, 0, 1, 0, 1, 0];
    let host = made([2, 0, 1, 32], &[(0, &[2, 1])], &[name]);
    assert_eq!(row(&table, (0, 0), 10), [header, control, host]);
    for (kind, expected) in [(0, header), (1, control), (2, host)] {
        assert_eq!(entry(&table, kind, 0), Ok(expected));
    }
}

/// Behind header, control, host and two HFIs: the signature, the host NQN
/// with the byte that ends it, the info, its host name, the extended info.
#[test]
fn the_entries_of_an_interface_are_these_bytes() {
    let table = form(&small(10, 2));
    let unused = made([3, 1, 0, 32], &[], &[]);
    assert_eq!(entry(&table, 3, 1), Ok(unused));
    let used = made([3, 2, 1, 32], &[(0, &[3, 2, 1, 3])], &[]);
    assert_eq!(entry(&table, 3, 2), Ok(used));
    let signature = [224, 0, 0, 0, 3, 0, 1, 0];
    assert_eq!(entry(&table, 0, 0).unwrap()[136..144], signature);
    let name = [227, 0, 0, 0, 5, 0, 1, 0];
    assert_eq!(entry(&table, 2, 0).unwrap()[136..144], name);
    let (info, host_name) = (233, 233 + 128);
    let [low, high] = u16::to_le_bytes(host_name);
    let expected = made([7, 2, 1, 128], &[], &[[low, high, 0, 0, 4, 0, 1, 0]]);
    let given = entry(&table, 7, 2).unwrap();
    assert_eq!(
        (&given[..8], &given[136..]),
        (&expected[..8], &expected[136..])
    );
    assert_eq!(given[8..8 + 104], table[info..info + 104]);
    assert_eq!(given[8 + 104..136], [0; 24]);
    let [[a, b], [c, d]] = [host_name + 5 + 20, host_name + 5 + 24].map(u16::to_le_bytes);
    let clients = [[a, b, 0, 0, 4, 0, 1, 0], [c, d, 0, 0, 13, 0, 1, 0]];
    let image = [10, 1, 2, 0, 3];
    let expected = made([10, 2, 1, 20], &[(0, &image)], &clients);
    assert_eq!(entry(&table, 10, 2), Ok(expected));
}

#[test]
fn an_empty_text_has_a_place_and_an_absent_one_has_none() {
    let place = |entry: EntryBytes, place: usize| entry[136 + 8 * place..144 + 8 * place].to_vec();
    let empty = form(&with_empty_texts(6));
    let [address, name] = [0, 1].map(|at| place(entry(&empty, 6, 1).unwrap(), at));
    assert_eq!(address[4..], [0, 0, 1, 0]);
    assert_eq!(name[4..], [0, 0, 1, 0]);
    assert_eq!(u32_at(&name, 0), u32_at(&address, 0) + 1);
    let absent = form(&small(4, 1));
    assert_eq!(entry(&absent, 6, 1).unwrap()[136..], [0; 48]);
    assert_eq!(entry(&absent, 6, 1).unwrap()[2], 1);
}

/// A heap record that is not there is refused alone, and in a row an entry
/// of kind and position.
#[test]
fn owners_without_a_heap_record_keep_their_place_in_the_row() {
    let table = form(&dhcp());
    assert_eq!(
        names(&row(&table, (7, 2), 10)),
        [(7, 2), (7, 3), (9, 1), (10, 1), (10, 2), (10, 3)]
    );
    let identities = row(&table, (10, 1), 10);
    assert_eq!(Ok(identities[0]), entry(&table, 10, 1));
    for position in [2, 3] {
        assert_eq!(entry(&table, 10, position), Err(NOT_THERE));
        let blank = made([10, position as u8, 0, 0], &[], &[]);
        assert_eq!(identities[usize::from(position) - 1], blank);
    }
    let unused = form(&mixed());
    assert_eq!(row(&unused, (7, 2), 7)[0], made([7, 2, 0, 0], &[], &[]));
    assert_eq!(row(&unused, (9, 1), 9)[0], made([9, 1, 0, 0], &[], &[]));
}

#[test]
fn a_row_goes_on_kind_by_kind_through_the_last() {
    let table = form(&machine());
    let all = [
        (0, 0),
        (1, 0),
        (2, 0),
        (3, 1),
        (3, 2),
        (4, 1),
        (4, 2),
        (5, 1),
        (6, 1),
        (7, 1),
        (7, 2),
        (9, 1),
        (9, 2),
        (10, 1),
        (10, 2),
    ];
    for (first, (kind, position)) in all.iter().enumerate() {
        for last in 0..=u8::MAX {
            let through = all.iter().filter(|at| at.0 <= last.max(*kind)).count();
            let given = row(&table, (*kind, u16::from(*position)), last);
            assert_eq!(
                names(&given),
                all[first..through],
                "{kind} {position} {last}"
            );
        }
    }
}

#[test]
fn as_many_entries_are_written_as_there_is_room_for() {
    let table = form(&machine());
    let whole = row(&table, (3, 2), 7).concat();
    let total = whole.len() / ENTRY_SIZE;
    for room in 0..whole.len() + 2 * ENTRY_SIZE {
        let mut out = vec![0xEE; room];
        let written = total.min(room / ENTRY_SIZE);
        assert_eq!(records(&table, 3, 2, 7, &mut out), done(written, total));
        let (entries, behind) = out.split_at(written * ENTRY_SIZE);
        assert_eq!(entries, &whole[..entries.len()]);
        assert!(behind.iter().all(|byte| *byte == 0xEE));
    }
}

#[test]
fn a_refused_read_writes_nothing() {
    let (good, bad) = (form(&dhcp()), refused());
    let mut out = [0xEE; 2 * ENTRY_SIZE];
    let beside: [&[u16]; 12] = [
        &[1, 3],
        &[1, 256],
        &[1, 2],
        &[0, 4, 257],
        &[0, 2],
        &[0, 1],
        &[0, 1],
        &[0, 4, 259],
        &[0, 1],
        &[0, 2],
        &[0, 4],
        &[0, 1],
    ];
    for (kind, positions) in (0..).zip(beside) {
        for position in positions {
            let given = records(&good, kind, *position, 10, &mut out);
            assert_eq!(given, refused_with(NOT_THERE), "{kind} {position}");
            assert_eq!(entry(&good, kind, *position), Err(NOT_THERE));
            let given = records(&bad, kind, *position, 10, &mut out);
            assert_eq!(given, refused_with(check(&bad)));
            assert_eq!(entry(&bad, kind, *position), Err(check(&bad)));
        }
    }
    assert_eq!(out, [0xEE; 2 * ENTRY_SIZE]);
}

#[test]
fn full_lists_have_the_most_entries() {
    let table = form(&crowded(95));
    let given = row(&table, (0, 0), u8::MAX);
    assert_eq!(given.len(), 3 + 3 * 255 + 2 * 255 + 255 + 255);
    assert_eq!(records(&table, 0, 0, 10, &mut []), done(0, given.len()));
    assert!(given[3..].iter().all(|entry| entry[2] == 0));
    assert_eq!(names(&given[given.len() - 1..]), [(10, 255)]);
}

#[test]
fn places_are_those_of_all_objects_in_order() {
    for kind in 0..=u8::MAX {
        let all: Vec<u32> = (0..200)
            .filter(|offset| has_object(kind, *offset))
            .collect();
        assert_eq!(object_offsets(kind), all);
    }
}

/// What an entry says is what reads of its record's fields and objects say.
fn agrees_with_reads(reading: &Reading, entry: &EntryBytes) {
    let (kind, position) = (entry[0], u16::from(entry[1]));
    for offset in 0..128 {
        let Some(length) = field_length(kind, offset) else {
            continue;
        };
        let field = reading.field(kind, position, offset);
        let start = 8 + offset as usize;
        assert_eq!(entry[start..start + length], field.bytes[..length]);
        assert_eq!(entry[2], u8::from(field.used));
    }
    for (offset, place) in object_offsets(kind).iter().zip(entry[136..].chunks(8)) {
        let object = reading.object(kind, position, *offset).1;
        let start = u32_at(place, 0) as usize;
        let said = (place[6] == 1).then(|| start..start + usize::from(u16_at(place, 4)));
        assert_eq!(said, object);
    }
    let length = reading.record(kind, position).length;
    assert_eq!(usize::from(entry[3]), length);
    assert_eq!(entry[4..8], [0; 4]);
}

#[test]
fn entries_say_what_fields_and_objects_say() {
    let mut random = Random::seeded(31);
    for _ in 0..200 {
        let told = random_meaning(&mut random);
        let table = lay_out_freely(&mut random, &told, Style::SHARED);
        let table = with_tail(&mut random, table);
        let reading = Reading::of(&table);
        for given in row(&table, (0, 0), 10) {
            agrees_with_reads(&reading, &given);
            let alone = reading.entry(given[0], given[1].into());
            assert_eq!(alone.is_ok(), given[3] != 0);
            assert!(alone.is_err() || alone == Ok(given));
        }
    }
}
