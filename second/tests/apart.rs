//! Pairs of tables that say the same but for one thing: that there is one for
//! all that a table can say, and that the two are shown differently.

use second::answer::number;
use second::apart::{all, seats, Pair};
use second::changes::{changes, Line};
use second::form::put_checksum;
use second::pairs::flags;
use second::random::Random;
use second::read::{field_length, has_object, Reading};
use second::{check, form, meaning, show};
use std::collections::BTreeSet;
use std::path::Path;
use std::process::Command;
use std::{env, fs, process};

/// A kind and the offset of one of its fields or objects.
type Part = (u8, u32);

fn of_seed(seed: u64) -> Vec<Pair> {
    all(&mut Random::seeded(seed))
}

fn lines(pair: &Pair) -> Vec<Line> {
    changes(&meaning(&pair.first), &meaning(&pair.second))
}

fn parts(lines: &[Line]) -> BTreeSet<Part> {
    let part = |line: &Line| match line {
        Line::Field { place, offset, .. } | Line::Object { place, offset, .. } => {
            Some((place.kind, *offset as u32))
        }
        Line::Only(..) | Line::Used(..) => None,
    };
    lines.iter().filter_map(part).collect()
}

/// All fields and objects that can be read of a table with every kind in it.
fn readable(table: &[u8]) -> BTreeSet<Part> {
    let reading = Reading::of(table);
    let is_there = |kind, offset| {
        let field = reading.field(kind, position(kind), offset).answer;
        let object = reading.object(kind, position(kind), offset).0;
        field.number != number::NO_SUCH_FIELD || object.number != number::NO_SUCH_FIELD
    };
    let offsets = |kind: u8| (0..=256).map(move |offset| (kind, offset));
    let all = (0..=11).flat_map(offsets);
    all.filter(|(kind, offset)| is_there(*kind, *offset))
        .collect()
}

/// The first of its kind has all there is.
fn position(kind: u8) -> u16 {
    if kind < 3 {
        0
    } else {
        1
    }
}

#[test]
fn the_two_say_different_things_and_are_shown_differently() {
    for seed in 0..3 {
        for pair in of_seed(seed) {
            let Pair {
                name,
                first,
                second,
            } = &pair;
            assert!(check(first).is_done() && check(second).is_done(), "{name}");
            assert_ne!(meaning(first), meaning(second), "{name}");
            assert_eq!(form(&meaning(first)), *first, "{name}");
            assert_eq!(form(&meaning(second)), *second, "{name}");
            let [one, other] = [first, second].map(|table| show(b"NBFT", table).to_string());
            assert_ne!(one, other, "{name}");
        }
    }
}

/// A name has the place of each thing that differs, and none has more.
#[test]
fn names_tell_what_differs() {
    let kinds = "header control host hfi ssns security discovery info - extended hfi-extended";
    let kinds: Vec<&str> = kinds.split(' ').collect();
    for pair in of_seed(6) {
        let name = pair.name.as_str();
        let lines = lines(&pair);
        let others = name.split_once("-with-").map(|(_, others)| others);
        let others = others.map_or(0, |others| others.split("-and-").count());
        assert_eq!(lines.len(), 1 + others, "{name}: {lines:?}");
        for line in lines {
            let (kind, rest) = match line {
                Line::Field { place, offset, .. } | Line::Object { place, offset, .. } => {
                    (place.kind, offset.to_string())
                }
                Line::Only(place, _) => (place.kind, "there".to_string()),
                Line::Used(place, _) => (place.kind, "used".to_string()),
            };
            let subject = format!("{}-{rest}", kinds[usize::from(kind)]);
            assert!(name.contains(&subject), "{name}: {subject}");
        }
    }
}

/// Whether a field says the same in every good table that uses the record:
/// whatever is put there, the table is refused, or says what it said.
fn is_fixed(table: &[u8], (kind, offset): Part) -> bool {
    let of_kind = seats(table).into_iter().filter(|seat| seat.kind == kind);
    let width = field_length(kind, offset).expect("it is a field");
    let told = meaning(table);
    // Two of a kind are enough: all of them are read alike.
    for seat in of_kind.take(2) {
        for at in (seat.start + offset as usize..).take(width) {
            for value in 0..=u8::MAX {
                let mut other = table.to_vec();
                other[at] = value;
                put_checksum(&mut other);
                let is_used = || Reading::of(&other).record(kind, seat.position).used;
                if check(&other).is_done() && is_used() && meaning(&other) != told {
                    return false;
                }
            }
        }
    }
    true
}

/// The list is that of the reads. What no pair differs in cannot differ.
#[test]
fn every_field_and_every_object_differs_in_some_pair() {
    let pairs = of_seed(7);
    let covered: BTreeSet<Part> = pairs.iter().flat_map(|pair| parts(&lines(pair))).collect();
    let table = &pairs.last().expect("there are pairs").first;
    let all = readable(table);
    assert!(covered.is_subset(&all));
    let listed = (0..=11).flat_map(|kind| (0..=256).map(move |offset| (kind, offset)));
    let listed = listed.filter(|(kind, offset)| {
        field_length(*kind, *offset).is_some() || has_object(*kind, *offset)
    });
    assert_eq!(listed.collect::<BTreeSet<Part>>(), all);
    for part in all.difference(&covered) {
        assert!(!has_object(part.0, part.1), "{part:?}");
        assert!(
            is_fixed(table, *part),
            "{part:?} has no name in src/apart.rs"
        );
    }
    // IDs, versions, indexes and transports of eight kinds, and the flags
    // that have the valid bit alone.
    assert_eq!((all.len(), covered.len()), (82, 59));
}

/// Of every field all bytes, so that none is lost where it is shown.
#[test]
fn every_byte_of_a_field_differs_in_some_pair() {
    let pairs = of_seed(8);
    let mut bytes = BTreeSet::new();
    for pair in &pairs {
        for line in lines(pair) {
            if let Line::Field {
                place,
                offset,
                values,
            } = line
            {
                let [one, other] = values.map(|value| value.0);
                let places = (offset..).zip(one.iter().zip(&other));
                let differing = places.filter(|(_, (one, other))| one != other);
                bytes.extend(differing.map(|(at, _)| (place.kind, offset, at)));
            }
        }
    }
    let widths = bytes.iter().filter(|(_, offset, at)| offset == at);
    let wanted: usize = widths
        .map(|(kind, offset, _)| field_length(*kind, *offset as u32).expect("a field"))
        .sum();
    // Of the SSNS's transport flags and of the flags of both extended infos
    // no bit counts in the bytes behind the first.
    assert_eq!(bytes.len(), wanted - 1 - 3 - 3);
}

/// The bits are those that the other pairs change.
#[test]
fn every_flag_that_counts_differs_in_some_pair() {
    let pairs = of_seed(9);
    let mut count = 0;
    for kind in 0..=11 {
        for (byte, bit) in flags(kind) {
            let is_field = |offset: &u32| field_length(kind, *offset).is_some();
            let offset = (0..=byte as u32).rev().find(is_field).expect("a field");
            let place = 8 * (byte - offset as usize) + usize::from(bit);
            let end = format!("flags-bit-{place}");
            let part = (kind, offset);
            let has_it = |pair: &Pair| {
                let own = pair.name.split("-with-").next().expect("its own name");
                own.ends_with(&end) && parts(&lines(pair)).contains(&part)
            };
            assert!(pairs.iter().any(has_it), "{part:?} bit {place}");
            count += 1;
        }
    }
    assert_eq!(count, 4 + 11 + 12 + 3 + 1 + 1);
}

#[test]
fn absent_and_unused_things_differ_in_some_pair() {
    let pairs = of_seed(10);
    let names: BTreeSet<&str> = pairs.iter().map(|pair| pair.name.as_str()).collect();
    let wanted = [
        "hfi-used",
        "ssns-used",
        "security-used",
        "discovery-used",
        "hfi-extended-there",
        "ssns-3-flags-bit-4-with-extended-there",
        "control-87-hfis-with-hfi-there",
        "control-95-ssns-with-ssns-there",
        "control-103-security-with-security-there",
        "control-111-discovery-with-discovery-there",
        "header-44-driver-signature-absent",
        "ssns-48-secondary-hfis-absent",
        "host-18-nqn-empty",
        "ssns-54-nqn-empty",
        "info-104-host-name-empty-or-absent",
        "extended-12-root-path-empty-or-absent",
        "discovery-6-uri-empty-or-absent",
        "discovery-12-nqn-empty-or-absent",
        // Both values of two bits, since 0 has pairs with each.
        "host-1-flags-bits-3-4",
        "ssns-3-flags-bits-7-8",
        "security-2-flags-bits-1-2",
        "security-2-flags-bits-3-4",
        "security-2-flags-bits-5-6",
        "security-2-flags-bits-7-8",
    ];
    for name in wanted {
        assert!(names.contains(name), "{name}");
    }
    assert_eq!(names.len(), pairs.len());
    for seed in 11..13 {
        let others = of_seed(seed);
        assert_ne!(others, pairs);
        let others: BTreeSet<&str> = others.iter().map(|pair| pair.name.as_str()).collect();
        assert_eq!(others, names);
    }
}

#[test]
fn the_program_writes_them() {
    let folder = env::temp_dir().join(format!("second-apart-{}", process::id()));
    fs::create_dir(&folder).expect("it can be made");
    let run = |folder: &Path| {
        let mut program = Command::new(env!("CARGO_BIN_EXE_second"));
        let words = program.args(["apart", "write"]).arg(folder).arg("3");
        assert!(words.status().expect("it can be run").success());
    };
    run(&folder);
    let pairs = of_seed(3);
    for pair in &pairs {
        let file = |end: &str| fs::read(folder.join(format!("{}.{end}", pair.name)));
        assert_eq!(file("a").expect("it is written"), pair.first);
        assert_eq!(file("b").expect("it is written"), pair.second);
    }
    let files = fs::read_dir(&folder).expect("it is there").count();
    assert_eq!(files, 2 * pairs.len());
    fs::remove_dir_all(&folder).expect("it can be removed");
}
