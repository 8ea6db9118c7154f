//! Heaps that are closed up in place.

use second::answer::number;
use second::compact::{sites, Site};
use second::damage::put_checksum_within_length;
use second::form::{lay_out_front, put_checksum, record_start, seal, HOST_START};
use second::frame::DRIVER_SIGNATURE_AT;
use second::generate::random_meaning;
use second::identity::Identity;
use second::interface::{Info, Interface};
use second::layout::{lay_out_freely, with_tail, Style};
use second::meaning::Origin;
use second::random::Random;
use second::record::Record;
use second::samples::{host_only, known, machine, small, smallest};
use second::security::Security;
use second::subsystem::{Extended, Subsystem};
use second::wire::{put, put_reference, put_u16, put_u32, u16_at, u32_at};
use second::{check, compact, form, meaning, Answer};
use std::ops::Range;

const OVERLAP: Answer = Answer::plain(number::OVERLAP);
const TOO_SHORT: Answer = Answer::plain(number::OUTPUT_TOO_SHORT);
const HEAP: usize = 160;

/// What a call leaves of a table and of a map full of noise, long enough for any heap.
fn closed(table: &[u8]) -> (Answer, usize, Vec<u8>, Vec<u8>) {
    let (mut lent, mut map) = (table.to_vec(), vec![0xA5; 8192]);
    let (answer, moved) = compact(&mut lent, &mut map);
    (answer, moved, lent, map)
}

/// The call is refused with this answer, and table and map stay.
fn assert_refused(table: &[u8], expected: Answer, what: &str) {
    let (answer, moved, lent, map) = closed(table);
    assert_eq!((answer, moved), (expected, 0), "{what}");
    assert_eq!(lent, table, "{what}");
    assert!(map.iter().all(|byte| *byte == 0xA5), "{what}");
}

/// A host with a driver signature, both at these places of this heap.
fn host_table(heap: &[u8], signature: Range<usize>, name: Range<usize>) -> Vec<u8> {
    let reference = |place: &Range<usize>| ((HEAP + place.start) as u32, place.len() as u16);
    let mut table = lay_out_front(&Origin::default(), [0; 4], reference(&signature));
    table.resize(HEAP, 0);
    host_only().host.write_fields(0, &mut table[HOST_START..]);
    let (offset, length) = reference(&name);
    put_reference(&mut table, HOST_START + 18, offset, length);
    table.extend_from_slice(heap);
    seal(&mut table, heap.len(), 0);
    table
}

/// Where its two references lead, by the heap's start.
fn host_places(table: &[u8]) -> [Range<usize>; 2] {
    [DRIVER_SIGNATURE_AT, HOST_START + 18].map(|at| {
        let start = u32_at(table, at) as usize - HEAP;
        start..start + usize::from(u16_at(table, at + 4))
    })
}

fn heap_of(table: &[u8]) -> &[u8] {
    let (start, length) = (u32_at(table, 36) as usize, u32_at(table, 40) as usize);
    &table[start..start + length]
}

/// K1 with two bytes before its NQN.
#[test]
fn the_smallest_table_closes_up_by_two_bytes() {
    let mut table = smallest();
    put(&mut table, 160, &[0xEE, 0xEE]);
    table.extend([0x6E, 0]);
    table[4] += 2;
    table[40] += 2;
    table[146] += 2;
    put_checksum(&mut table);
    let (answer, moved, lent, map) = closed(&table);
    assert_eq!((answer, moved), (Answer::DONE, 2));
    let mut expected = smallest();
    expected.extend([0, 0]);
    expected[4] = 164;
    put_checksum(&mut expected);
    assert_eq!(lent, expected);
    assert_eq!(map[0], 0b1100);
    assert!(map[1..].iter().all(|byte| *byte == 0));
}

#[test]
fn known_samples_that_are_good_are_closed_and_others_refused() {
    for sample in known() {
        let (answer, moved, lent, _) = closed(&sample.table);
        assert_eq!(answer, sample.answer, "{}", sample.name);
        assert!(answer.is_done() || lent == sample.table, "{}", sample.name);
        let expected = usize::from(sample.name == "known-7");
        assert_eq!(moved, expected, "{}", sample.name);
    }
}

#[test]
fn holes_before_between_and_behind_are_closed() {
    let table = host_table(b"xxsig..nqn\0zzzz", 2..5, 7..11);
    let (answer, moved, lent, map) = closed(&table);
    assert_eq!((answer, moved), (Answer::DONE, 7));
    assert_eq!(heap_of(&lent), b"signqn\0");
    assert_eq!(host_places(&lent), [0..3, 3..7]);
    assert_eq!(lent[HEAP + 7..], [0; 8]);
    assert_eq!(u32_at(&lent, 4), u32_at(&table, 4));
    assert_eq!(map[..3], [0b1001_1100, 0b0000_0111, 0]);
}

/// What is given up behind the last byte that is kept is no move.
#[test]
fn a_hole_at_the_end_moves_nothing() {
    let (answer, moved, lent, _) = closed(&host_table(b"signqn\0zzzz", 0..3, 3..7));
    assert_eq!((answer, moved), (Answer::DONE, 0));
    assert_eq!(heap_of(&lent), b"signqn\0");
    assert_eq!(lent[HEAP + 7..], [0; 4]);
}

#[test]
fn what_is_shared_stays_shared() {
    let cases = [
        ("the same", 2..6, 2..6, [0..4, 0..4]),
        ("in part", 2..4, 3..6, [0..2, 1..4]),
        ("one in the other", 2..6, 4..6, [0..4, 2..4]),
        ("one behind the other", 2..3, 3..6, [0..1, 1..4]),
    ];
    for (what, signature, name, expected) in cases {
        let (answer, moved, lent, _) = closed(&host_table(b"xxabc\0yy", signature, name));
        assert_eq!((answer, moved), (Answer::DONE, 4), "{what}");
        assert_eq!(heap_of(&lent), b"abc\0", "{what}");
        assert_eq!(host_places(&lent), expected, "{what}");
    }
}

/// The form of a small meaning with something changed, and where its first record of this kind stands.
fn changed<R: Record<'static>>(kind: u8, change: impl Fn(&mut Vec<u8>, usize)) -> Vec<u8> {
    let meaning = small(kind, 1);
    let mut table = form(&meaning);
    change(&mut table, record_start::<R>(meaning.counts(), 1));
    put_checksum(&mut table);
    assert_eq!(check(&table), Answer::DONE);
    table
}

fn target(table: &[u8], at: usize) -> usize {
    u32_at(table, at) as usize
}

/// The driver signature, which may be any bytes, over parts of an info or right beside it.
#[test]
fn an_object_may_touch_a_heap_record_but_not_share_its_bytes() {
    let with_signature = |place: fn(usize) -> Range<usize>| {
        changed::<Interface>(Interface::ID, |table, hfi| {
            let place = place(target(table, hfi + 16));
            let (start, length) = (place.start as u32, place.len() as u16);
            put_reference(table, DRIVER_SIGNATURE_AT, start, length);
        })
    };
    assert!(closed(&with_signature(|info| info - 2..info)).0.is_done());
    assert!(closed(&with_signature(|info| info + 128..info + 130))
        .0
        .is_done());
    let overlaps: [(&str, fn(usize) -> Range<usize>); 7] = [
        ("whole", |info| info..info + 128),
        ("more than whole", |info| info - 1..info + 129),
        ("first byte", |info| info..info + 1),
        ("last byte", |info| info + 127..info + 128),
        ("over the start", |info| info - 3..info + 1),
        ("over the end", |info| info + 127..info + 131),
        ("inside", |info| info + 40..info + 60),
    ];
    for (what, place) in overlaps {
        assert_refused(&with_signature(place), OVERLAP, what);
    }
}

/// A reference to text, anywhere, made to name one zero byte.
fn as_empty_text(table: &mut [u8], at: usize, zero: usize) {
    assert_eq!(table[zero], 0);
    put_reference(table, at, zero as u32, 1);
}

#[test]
fn a_text_inside_a_heap_record_is_an_overlap() {
    let name = changed::<Interface>(Interface::ID, |table, hfi| {
        let zero = target(table, hfi + 16) + 116;
        as_empty_text(table, HOST_START + 18, zero);
    });
    assert_refused(&name, OVERLAP, "host name in an info");
    let own = changed::<Interface>(Interface::ID, |table, hfi| {
        let info = target(table, hfi + 16);
        as_empty_text(table, info + 104, info + 53);
    });
    assert_refused(&own, OVERLAP, "an info's host name in the info");
    let path = changed::<Subsystem>(Subsystem::ID, |table, ssns| {
        let extended = target(table, ssns + 60);
        as_empty_text(table, extended + 12, extended + 7);
    });
    assert_refused(&path, OVERLAP, "a root path in its extended info");
}

#[test]
fn indexes_and_other_bytes_inside_a_heap_record_are_an_overlap() {
    let others = changed::<Subsystem>(Subsystem::ID, |table, ssns| {
        let extended = target(table, ssns + 60);
        assert_eq!(table[extended + 1], 1);
        put_reference(table, ssns + 48, extended as u32 + 1, 1);
    });
    assert_refused(&others, OVERLAP, "secondary list in an extended info");
    for field in [8, 14] {
        let client = changed::<Interface>(Identity::ID, |table, hfi| {
            let identity = target(table, target(table, hfi + 16) + 110);
            put_reference(table, identity + field, identity as u32, 20);
        });
        assert_refused(&client, OVERLAP, "a client in its identity");
    }
    let list = changed::<Subsystem>(Subsystem::ID, |table, ssns| {
        let extended = target(table, ssns + 60);
        put_reference(table, ssns + 10, extended as u32 + 17, 2);
    });
    assert_refused(&list, OVERLAP, "an address over an extended info's end");
}

/// Bytes that a heap record has beyond its base size say nothing, but are its own.
#[test]
fn excess_bytes_of_a_heap_record_are_its_own() {
    for more in 1..=5 {
        let table = changed::<Interface>(Interface::ID, |table, hfi| {
            assert_eq!(
                target(table, target(table, hfi + 16) + 104),
                target(table, hfi + 16) + 128
            );
            put_u16(table, hfi + 20, 128 + more);
        });
        assert_refused(&table, OVERLAP, "an info over its host name");
    }
    let table = changed::<Subsystem>(Subsystem::ID, |table, ssns| {
        let more = table.len() - target(table, ssns + 60);
        put_u16(table, ssns + 64, more as u16);
    });
    assert_refused(&table, OVERLAP, "an extended info up to the heap's end");
    let table = changed::<Interface>(Interface::ID, |table, hfi| {
        put_u16(table, hfi + 20, 133);
        let name = target(table, hfi + 16) + 104;
        put(table, name, &[0; 6]);
    });
    let (answer, moved, lent, _) = closed(&table);
    assert_eq!((answer, moved), (Answer::DONE, 0));
    assert_eq!(lent, table);
}

/// A heap record in bytes of another that may have any value.
#[test]
fn a_heap_record_inside_another_is_an_overlap() {
    let identity = changed::<Interface>(Identity::ID, |table, hfi| {
        let info = target(table, hfi + 16);
        let old = target(table, info + 110);
        table.copy_within(old..old + Identity::SIZE, info + 56);
        put_u32(table, info + 110, info as u32 + 56);
    });
    assert_refused(&identity, OVERLAP, "an identity in its info");
    let extended = changed::<Subsystem>(Subsystem::ID, |table, ssns| {
        let info = target(table, record_start::<Interface>([2, 1, 1, 2], 1) + 16);
        let old = target(table, ssns + 60);
        table.copy_within(old..old + Extended::SIZE, info + 20);
        put_u32(table, ssns + 60, info as u32 + 20);
    });
    assert_refused(&extended, OVERLAP, "an extended info in an info");
    let behind = changed::<Interface>(Identity::ID, |table, hfi| {
        let info = target(table, hfi + 16);
        let old = target(table, info + 110);
        let end = info + Info::SIZE;
        assert!(old >= end);
        put_u16(table, hfi + 20, (old + 1 - info) as u16);
        put(table, info + 104, &[0; 6]);
    });
    assert_refused(&behind, OVERLAP, "an info that ends in an identity");
}

#[test]
fn a_map_needs_a_bit_for_each_heap_byte() {
    for length in 2..40 {
        let table = host_table(&vec![0; length], length - 1..length, 0..1);
        let needed = length.div_ceil(8);
        for room in 0..needed {
            let (mut lent, mut map) = (table.clone(), vec![0xA5; room]);
            assert_eq!(compact(&mut lent, &mut map), (TOO_SHORT, 0), "{length}");
            assert_eq!((lent, map), (table.clone(), vec![0xA5; room]));
        }
        let mut map = vec![0xFF; needed];
        let (answer, moved) = compact(&mut table.clone(), &mut map);
        let expected = usize::from(length > 2);
        assert_eq!((answer, moved), (Answer::DONE, expected), "{length}");
        let mut bits = vec![0; needed];
        bits[0] |= 1;
        bits[(length - 1) / 8] |= 1 << ((length - 1) % 8);
        assert_eq!(map, bits);
    }
}

/// The reader's answer, then 14, then 19.
#[test]
fn refusals_come_in_their_order() {
    let mut table = changed::<Interface>(Interface::ID, |table, hfi| {
        let info = target(table, hfi + 16);
        put_reference(table, DRIVER_SIGNATURE_AT, info as u32, 1);
    });
    assert_eq!(compact(&mut table, &mut [0; 100]), (OVERLAP, 0));
    assert_eq!(compact(&mut table, &mut [0; 10]), (TOO_SHORT, 0));
    table[9] ^= 1;
    let sum = Answer::plain(number::CHECKSUM);
    assert_eq!(compact(&mut table, &mut [0; 10]), (sum, 0));
    let few = Answer::plain(number::TOO_FEW_BYTES);
    assert_eq!(compact(&mut [], &mut []), (few, 0));
}

/// The references of a security record whose flags switch nothing on.
#[test]
fn ignored_references_mark_nothing_and_stay() {
    let plain = small(Subsystem::ID, 1);
    let security = record_start::<Security>(plain.counts(), 1);
    let fields = [6, 12, 18, 24, 30, 36];
    let mut table = form(&plain);
    let heap = target(&table, 36);
    // The heap starts with a driver signature of three bytes, which goes.
    put_reference(&mut table, DRIVER_SIGNATURE_AT, 0, 0);
    for field in fields {
        put_reference(&mut table, security + field, heap as u32, 3);
    }
    put_checksum(&mut table);
    let (answer, moved, lent, map) = closed(&table);
    assert_eq!(answer, Answer::DONE);
    assert_eq!(map[0] & 0b1111, 0b1000);
    assert_eq!(moved, heap_of(&table).len() - 3);
    let record = security..security + Security::SIZE;
    assert_eq!(lent[record.clone()], table[record]);
    assert_eq!(meaning(&lent), meaning(&table));
}

#[test]
fn bytes_beyond_the_length_stay() {
    let mut table = host_table(b"xxsig..nqn\0zzzz", 2..5, 7..11);
    let length = table.len();
    table.extend(b"not the table's");
    let (answer, moved, lent, _) = closed(&table);
    assert_eq!((answer, moved), (Answer::DONE, 7));
    assert_eq!(lent[length..], table[length..]);
    assert_eq!(check(&lent[..length]), Answer::DONE);
}

#[test]
fn the_form_of_a_table_is_closed_already() {
    for told in [machine(), small(Identity::ID, 2), small(Subsystem::ID, 2)] {
        let table = form(&told);
        let (answer, moved, lent, map) = closed(&table);
        assert_eq!((answer, moved), (Answer::DONE, 0));
        assert_eq!(lent, table);
        let ones: u32 = map.iter().map(|byte| byte.count_ones()).sum();
        assert_eq!(ones as usize, heap_of(&table).len());
    }
}

fn covers(sites: &[Site], place: usize) -> bool {
    let holds = |site: &Site| (site.start..site.start + site.length).contains(&place);
    sites.iter().any(holds)
}

fn share(one: &Site, other: &Site) -> bool {
    one.start < other.start + other.length && other.start < one.start + one.length
}

fn overlaps(sites: &[Site]) -> bool {
    let pairs = sites.iter().enumerate();
    let mut pairs = pairs.flat_map(|(place, one)| sites[..place].iter().map(move |two| (one, two)));
    pairs.any(|(one, two)| (one.is_heap_record || two.is_heap_record) && share(one, two))
}

/// Byte by byte what the rules say of a table that was closed, from its sites before.
fn assert_closed(table: &[u8], lent: &[u8], moved: usize, map: &[u8]) {
    let before = sites(table).expect("it is good");
    let (start, length) = (target(table, 36), heap_of(table).len());
    let marked = |n: usize| covers(&before, start + n);
    let places: Vec<usize> = (0..length).filter(|n| marked(*n)).collect();
    let slid = |n: usize| places.iter().filter(|place| **place < n).count();
    let mut expected = table.to_vec();
    for site in &before {
        put_u32(
            &mut expected,
            site.at,
            (start + slid(site.start - start)) as u32,
        );
    }
    let kept: Vec<u8> = places.iter().map(|n| expected[start + n]).collect();
    expected[start..start + length].fill(0);
    put(&mut expected, start, &kept);
    put_u32(&mut expected, 40, kept.len() as u32);
    put_checksum_within_length(&mut expected);
    assert_eq!(lent, expected);
    assert_eq!(moved, places.iter().filter(|n| slid(**n) != **n).count());
    for bit in 0..8 * map.len() {
        let set = map[bit / 8] >> (bit % 8) & 1 == 1;
        assert_eq!(set, bit < length && marked(bit));
    }
}

/// The closed table says the same, has no byte to give up, and stays when it is closed again.
fn assert_full(table: &[u8], lent: &[u8]) {
    assert_eq!(check(lent), Answer::DONE);
    assert_eq!(meaning(lent), meaning(table));
    let (before, after) = (
        sites(table).expect("it is good"),
        sites(lent).expect("it is good"),
    );
    assert_eq!(before.len(), after.len());
    for (one, two) in before.iter().zip(&after) {
        assert_eq!(
            (one.length, one.is_heap_record),
            (two.length, two.is_heap_record)
        );
    }
    let start = target(lent, 36);
    let full = start..start + heap_of(lent).len();
    assert!(full.clone().all(|place| covers(&after, place)));
    let (answer, moved, again, _) = closed(lent);
    assert_eq!((answer, moved, again.as_slice()), (Answer::DONE, 0, lent));
}

#[test]
fn generated_tables_are_closed_by_the_rules() {
    let mut random = Random::seeded(5);
    let mut met = [0, 0];
    for round in 0..900 {
        let told = random_meaning(&mut random);
        let style = [Style::SEPARATE, Style::SHARED, Style::WILD][round % 3];
        let table = lay_out_freely(&mut random, &told, style);
        let table = with_tail(&mut random, table);
        let (answer, moved, lent, map) = closed(&table);
        let refused = overlaps(&sites(&table).expect("it is good"));
        met[usize::from(refused)] += 1;
        if refused {
            assert_refused(&table, OVERLAP, "a wild layout");
        } else {
            assert_eq!(answer, Answer::DONE);
            assert_closed(&table, &lent, moved, &map);
            assert_full(&table, &lent);
        }
    }
    assert!(met[0] > 600 && met[1] > 50, "{met:?}");
}
