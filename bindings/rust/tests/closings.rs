//! Heaps that are closed up.

mod common;

use common::{bytes, form, image, summed, DHCP, MACHINE, SAMPLES, SMALLEST};
use nbft::{check, compact, Kind, Number, Refusal};

fn closed(table: &[u8]) -> (Result<u32, Refusal>, Vec<u8>, Vec<u8>) {
    let (mut table, mut map) = (table.to_vec(), vec![0xA5; table.len().div_ceil(8)]);
    let moved = compact(&mut table, &mut map);
    (moved, table, map)
}

/// K1 with two bytes before its NQN.
fn with_a_hole() -> Vec<u8> {
    let mut table = [&SMALLEST[..160], b"??", &SMALLEST[160..]].concat();
    (table[4], table[40], table[146]) = (164, 4, 162);
    summed(table)
}

#[test]
fn bytes_that_nothing_names_are_given_up() {
    let table = with_a_hole();
    assert_eq!(check(&table), Ok(()));
    let (moved, left, map) = closed(&table);
    assert_eq!(moved, Ok(2));
    assert_eq!(left[160..], [b'n', 0, 0, 0]);
    assert_eq!((left[40], left[146], left[4]), (2, 160, 164));
    assert_eq!((map[0], &map[1..]), (0b1100, &[0; 20][..]));
    assert_eq!(check(&left), Ok(()));
    assert_eq!(form(&left), form(&table));
}

#[test]
fn a_table_that_is_closed_stays() {
    for table in SAMPLES {
        let (moved, left, _) = closed(table);
        assert_eq!((moved, left.as_slice()), (Ok(0), table));
    }
    let (_, once, _) = closed(&with_a_hole());
    let (moved, again, _) = closed(&once);
    assert_eq!((moved, again), (Ok(0), once));
}

/// The driver signature, which stands first in the heap, is taken out.
#[test]
fn what_a_table_says_stays() {
    for table in [MACHINE, DHCP] {
        let mut table = table.to_vec();
        let heap = table[40..44].to_vec();
        table[44..50].fill(0);
        let table = summed(table);
        let (moved, left, _) = closed(&table);
        assert!(moved.is_ok_and(|moved| moved > 0));
        assert_ne!(left[40..44], heap);
        assert_eq!(left.len(), table.len());
        assert_eq!(form(&left), form(&table));
        assert_eq!(image::<128>(&left, Kind::HfiInfo, 1), image::<128>(&table, Kind::HfiInfo, 1));
        assert_eq!(bytes(&left, Kind::HfiInfo, 1, 104), bytes(&table, Kind::HfiInfo, 1, 104));
    }
}

#[test]
fn bytes_behind_the_table_stay() {
    let table = [&with_a_hole()[..], b"behind"].concat();
    let (moved, left, _) = closed(&table);
    assert_eq!((moved, &left[164..]), (Ok(2), &b"behind"[..]));
}

#[test]
fn a_map_that_is_too_short_is_refused_and_table_and_map_stay() {
    let heap = u32::from_le_bytes(MACHINE[40..44].try_into().unwrap()) as usize;
    let needed = heap.div_ceil(8);
    for room in [0, 1, needed - 1] {
        let (mut table, mut map) = (MACHINE.to_vec(), vec![0xA5; room]);
        let refusal = compact(&mut table, &mut map).unwrap_err();
        assert_eq!((refusal.number, refusal.kind, refusal.position), (Number::OutputTooShort, Kind::Header, 0));
        assert_eq!((table.as_slice(), map), (MACHINE, vec![0xA5; room]));
    }
    assert_eq!(compact(&mut MACHINE.to_vec(), &mut vec![0xA5; needed]), Ok(0));
}

/// The driver signature made the first byte of an info.
#[test]
fn an_object_over_a_heap_record_is_refused_and_table_and_map_stay() {
    let mut table = MACHINE.to_vec();
    let hfi = u32::from_le_bytes(table[80..84].try_into().unwrap()) as usize;
    table.copy_within(hfi + 16..hfi + 20, 44);
    table[48..50].copy_from_slice(&[1, 0]);
    let table = summed(table);
    assert_eq!(check(&table), Ok(()));
    let (moved, left, map) = closed(&table);
    let refusal = moved.unwrap_err();
    assert_eq!((refusal.number, refusal.number as u8), (Number::Overlap, 19));
    assert_eq!((refusal.kind, refusal.position), (Kind::Header, 0));
    assert_eq!(refusal.to_string(), "a heap record shares a byte with another object");
    assert_eq!(left, table);
    assert!(map.iter().all(|byte| *byte == 0xA5));
}

#[test]
fn a_table_that_is_refused_stays() {
    let mut table = MACHINE.to_vec();
    table[1000] ^= 1;
    let (moved, left, map) = closed(&table);
    assert_eq!(moved.map(|_| ()), check(&table));
    assert_eq!(check(&table).unwrap_err().number, Number::Checksum);
    assert_eq!(left, table);
    assert!(map.iter().all(|byte| *byte == 0xA5));
}
