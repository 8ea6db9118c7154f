//! Generated pairs of tables, and what holds of the differences between any
//! two.

use second::changes::{changes, report, Line, Place, Side, Value};
use second::pairs::pairs;
use second::random::Random;
use second::read::Reading;
use second::{check, meaning};
use std::collections::{BTreeMap, BTreeSet};
use std::path::Path;
use std::process::Command;
use std::{env, fs, process};

type Tables = (Vec<u8>, Vec<u8>);

fn generated(seed: u64, count: usize) -> Vec<Tables> {
    let mut random = Random::seeded(seed);
    (0..count).map(|_| pairs(&mut random)).collect()
}

/// Those of which both are good.
fn generated_good(seed: u64, count: usize) -> Vec<Tables> {
    let mut all = generated(seed, count);
    all.retain(|(one, other)| check(one).is_done() && check(other).is_done());
    all
}

/// The part of a line that says what differs, but not how.
fn subject(line: &Line) -> String {
    match line {
        Line::Field { place, offset, .. } => format!("{} field {offset}", place.kind),
        Line::Object { place, offset, .. } => format!("{} object {offset}", place.kind),
        Line::Only(place, side) => format!("{} only {side}", place.kind),
        Line::Used(place, side) => format!("{} used {side}", place.kind),
    }
}

/// In how many pairs there is a line of each sort.
fn subjects(all: &[Tables]) -> BTreeMap<String, usize> {
    let mut met = BTreeMap::new();
    for (one, other) in all {
        let lines = changes(&meaning(one), &meaning(other));
        let of_pair: BTreeSet<String> = lines.iter().map(subject).collect();
        for subject in of_pair {
            *met.entry(subject).or_default() += 1;
        }
    }
    met
}

#[test]
fn every_sort_of_line_is_met_often() {
    let met = subjects(&generated_good(1, 600));
    let often = |subject: String, least: usize| {
        let times = met.get(&subject).copied().unwrap_or(0);
        assert!(times >= least, "{subject}: {times}");
    };
    for side in [1, 2] {
        for kind in 3..=6 {
            often(format!("{kind} only {side}"), 30);
            often(format!("{kind} used {side}"), 5);
        }
        for kind in [9, 10] {
            often(format!("{kind} only {side}"), 5);
        }
    }
    for (kind, offsets) in [(0, &[10, 16, 24, 28, 32][..]), (1, &[87, 95, 103, 111])] {
        for offset in offsets {
            often(format!("{kind} field {offset}"), 30);
        }
    }
}

/// Every field that can differ does, and every object. The others say the
/// same in any two good tables: IDs, versions, types and indexes. An info is
/// never the one thing that a used interface lacks.
#[test]
fn all_that_can_differ_does() {
    let fields: [(u8, &[u32]); 8] = [
        (0, &[10, 16, 24, 28, 32]),
        (1, &[87, 95, 103, 111]),
        (2, &[1, 2]),
        (4, &[3, 6, 8, 22, 24, 28, 29, 45, 46]),
        (5, &[2, 4]),
        (6, &[3, 4]),
        (7, &[3, 6, 7, 11, 17, 19, 20, 36, 37, 54, 56, 72, 88]),
        (9, &[4, 8, 10]),
    ];
    let objects: [(u8, &[u32]); 8] = [
        (0, &[44]),
        (2, &[18]),
        (4, &[10, 16, 48, 54]),
        (5, &[6, 12, 18, 24, 30, 36]),
        (6, &[6, 12]),
        (7, &[104]),
        (9, &[12]),
        (10, &[8, 14]),
    ];
    let mut expected = BTreeSet::from(["10 field 4".to_string()]);
    for (word, kinds) in [("field", fields), ("object", objects)] {
        for (kind, offsets) in kinds {
            let subject = |offset| format!("{kind} {word} {offset}");
            expected.extend(offsets.iter().map(subject));
        }
    }
    for side in [1, 2] {
        expected.extend([3, 4, 5, 6, 9, 10].map(|kind| format!("{kind} only {side}")));
        expected.extend([3, 4, 5, 6].map(|kind| format!("{kind} used {side}")));
    }
    let met = subjects(&generated_good(2, 2000));
    assert_eq!(met.keys().cloned().collect::<BTreeSet<_>>(), expected);
    assert!(met.values().all(|times| *times >= 10), "{met:?}");
}

/// Positions of three digits, with lines of every sort.
#[test]
fn far_positions_are_met() {
    let mut met = [0; 4];
    for (one, other) in generated_good(10, 2000) {
        for line in changes(&meaning(&one), &meaning(&other)) {
            let (sort, place) = match line {
                Line::Field { place, .. } => (0, place),
                Line::Object { place, .. } => (1, place),
                Line::Only(place, _) => (2, place),
                Line::Used(place, _) => (3, place),
            };
            met[sort] += usize::from(place.position > 99);
        }
    }
    assert!(met.iter().all(|times| *times >= 10), "{met:?}");
}

#[test]
fn some_pairs_are_equal_and_a_few_are_refused() {
    let all = generated(3, 600);
    let mut equal = 0;
    let mut refused = [[0; 2]; 2];
    for (one, other) in &all {
        let [one_is_refused, other_is_refused] = [one, other].map(|table| !check(table).is_done());
        refused[usize::from(one_is_refused)][usize::from(other_is_refused)] += 1;
        equal += usize::from(report(one, other).is_empty());
    }
    let [[good, second], [first, both]] = refused;
    assert!(good > 500 && equal >= 30, "{good} {equal}");
    assert!(first >= 5 && second >= 5 && both >= 5, "{refused:?}");
}

#[test]
fn refused_tables_are_told_and_nothing_else() {
    for (one, other) in generated(4, 900) {
        let answers = [check(&one), check(&other)];
        if answers.iter().any(|answer| !answer.is_done()) {
            let refused = answers.iter().filter(|answer| !answer.is_done());
            let expected: String = refused.map(|answer| format!("{answer}\n")).collect();
            assert_eq!(report(&one, &other), expected);
        }
    }
}

#[test]
fn nothing_is_told_exactly_where_the_meanings_are_equal() {
    for (one, other) in generated_good(5, 900) {
        let [one, other] = [&one, &other].map(|table| meaning(table));
        assert_eq!(changes(&one, &other).is_empty(), one == other);
        assert_eq!(changes(&one, &one), []);
    }
}

fn other_side(side: Side) -> Side {
    match side {
        Side::First => Side::Second,
        Side::Second => Side::First,
    }
}

/// The line as it is where the first table comes second.
fn turned(line: Line) -> Line {
    match line {
        Line::Field {
            place,
            offset,
            values: [one, other],
        } => Line::Field {
            place,
            offset,
            values: [other, one],
        },
        Line::Object {
            place,
            offset,
            lengths: [one, other],
            at,
        } => Line::Object {
            place,
            offset,
            lengths: [other, one],
            at,
        },
        Line::Only(place, side) => Line::Only(place, other_side(side)),
        Line::Used(place, side) => Line::Used(place, other_side(side)),
    }
}

#[test]
fn the_other_way_round_the_lines_are_turned() {
    for (one, other) in generated_good(6, 900) {
        let [one, other] = [&one, &other].map(|table| meaning(table));
        let lines = changes(&one, &other);
        let turned: Vec<Line> = lines.into_iter().map(turned).collect();
        assert_eq!(changes(&other, &one), turned);
    }
}

/// Where a record's lines stand: its list, its position, and the reference
/// fields that lead to it from there.
fn standing(place: Place) -> (usize, u16, Vec<usize>) {
    let (list, path) = match place.kind {
        1 => (0, vec![]),
        0 => (1, vec![]),
        7 => (3, vec![16]),
        10 => (3, vec![16, 110]),
        9 => (4, vec![60]),
        kind => (kind.into(), vec![]),
    };
    (list, place.position, path)
}

fn standing_of(line: &Line) -> (usize, u16, Vec<usize>) {
    match line {
        Line::Field { place, offset, .. } | Line::Object { place, offset, .. } => {
            let (list, position, mut path) = standing(*place);
            path.push(*offset);
            (list, position, path)
        }
        Line::Only(place, _) | Line::Used(place, _) => standing(*place),
    }
}

#[test]
fn lines_stand_in_the_order_of_records_and_offsets() {
    for (one, other) in generated_good(7, 900) {
        let lines = changes(&meaning(&one), &meaning(&other));
        let places: Vec<_> = lines.iter().map(standing_of).collect();
        assert!(places.windows(2).all(|two| two[0] < two[1]), "{lines:?}");
    }
}

/// A field that two tables read differently, as a line.
fn field_apart(readings: &[Reading; 2], place: Place, offset: u32) -> Option<String> {
    let values = readings.each_ref().map(|reading| {
        let field = reading.field(place.kind, place.position, offset);
        Value(field.bytes[..field.length].to_vec())
    });
    let [one, other] = &values;
    (one != other).then(|| format!("{place} {offset} {one} {other}"))
}

/// An object that they read differently, as the beginning of a line, since a
/// reader hands back no zero byte at the end of a text.
fn object_apart(
    tables: [&[u8]; 2],
    readings: &[Reading; 2],
    place: Place,
    offset: u32,
) -> Option<String> {
    let [one, other] = [0, 1].map(|side| {
        let (_, part) = readings[side].object(place.kind, place.position, offset);
        part.map(|part| &tables[side][part])
    });
    (one != other).then(|| format!("{place} {offset} object"))
}

/// Whether a table has a record, and whether it uses it.
fn read_there(reading: &Reading, kind: u8, position: u16) -> [bool; 2] {
    let image = reading.record(kind, position);
    [image.answer.is_done(), image.used]
}

fn only_side(one: bool, other: bool) -> u8 {
    match (one, other) {
        (true, false) => 1,
        (false, true) => 2,
        _ => panic!("not one side alone"),
    }
}

/// What the reads tell apart in one record.
fn told_by_reads(tables: [&[u8]; 2], readings: &[Reading; 2], place: Place) -> Vec<String> {
    let Place { kind, position } = place;
    let owner = match kind {
        7 | 10 => 3,
        9 => 4,
        _ => kind,
    };
    let there = |kind| {
        readings
            .each_ref()
            .map(|reading| read_there(reading, kind, position))
    };
    let owners_used = there(owner).iter().all(|[_, used]| *used);
    let [[one, one_used], [other, other_used]] = there(kind);
    if owner != kind && !owners_used {
        Vec::new()
    } else if one != other {
        vec![format!("{place} only {}", only_side(one, other))]
    } else if one_used != other_used {
        vec![format!("{place} used {}", only_side(one_used, other_used))]
    } else if !one_used {
        Vec::new()
    } else {
        let field = |offset| field_apart(readings, place, offset);
        let object = |offset| object_apart(tables, readings, place, offset);
        (0..=128)
            .filter_map(|offset| field(offset).or(object(offset)))
            .collect()
    }
}

/// As much of a line as the reads can tell.
fn readable(line: &Line) -> String {
    match line {
        Line::Object { place, offset, .. } => format!("{place} {offset} object"),
        _ => line.to_string(),
    }
}

/// The reads have their own list of fields and references.
#[test]
fn lines_tell_what_the_reads_tell_apart() {
    for (one, other) in generated_good(8, 200) {
        let tables = [one.as_slice(), other.as_slice()];
        let readings = tables.map(Reading::of);
        let mut expected = BTreeSet::new();
        for kind in 0..=11 {
            for position in 0..=256 {
                let place = Place { kind, position };
                expected.extend(told_by_reads(tables, &readings, place));
            }
        }
        let lines = changes(&meaning(&one), &meaning(&other));
        let told: BTreeSet<String> = lines.iter().map(readable).collect();
        assert_eq!(told, expected);
    }
}

fn run(words: &[&str]) -> String {
    let run = Command::new(env!("CARGO_BIN_EXE_second"))
        .args(words)
        .output();
    let output = run.expect("the program can be run");
    assert!(output.status.success(), "{words:?}");
    String::from_utf8(output.stdout).expect("it prints text")
}

fn assert_written(directory: &Path, seed: &str, count: usize) {
    let name = directory.to_str().expect("its name is text");
    let printed = run(&["pairs", "write", name, &count.to_string(), seed]);
    assert_eq!(printed, "");
    let seed = seed.parse().expect("it is a number");
    for (pair, (one, other)) in generated(seed, count).iter().enumerate() {
        let [a, b, expected] =
            ["a", "b", "expected"].map(|end| directory.join(format!("{pair}.{end}")));
        assert_eq!(fs::read(&a).expect("it is written"), *one);
        assert_eq!(fs::read(&b).expect("it is written"), *other);
        let told = run(&["diff", a.to_str().unwrap(), b.to_str().unwrap()]);
        assert_eq!(told, report(one, other));
        assert_eq!(fs::read(expected).expect("it is written"), told.as_bytes());
    }
    let files = fs::read_dir(directory).expect("it is there").count();
    assert_eq!(files, 3 * count);
}

#[test]
fn the_program_writes_pairs_and_prints_their_differences() {
    let name = format!("second-pairs-{}", process::id());
    let directory = env::temp_dir().join(name);
    fs::create_dir(&directory).expect("it can be made");
    assert_written(&directory, "9", 40);
    fs::remove_dir_all(&directory).expect("it can be removed");
}
