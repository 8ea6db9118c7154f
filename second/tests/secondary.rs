//! Secondary lists of tables, and those that the builder is told.

use second::answer::number;
use second::builder::{self, ToldSubsystem};
use second::faults::damages;
use second::form::record_start;
use second::generate::random_meaning;
use second::goods::goods;
use second::random::Random;
use second::record::Record;
use second::samples::Sample;
use second::secondary::{listing, lists, many_times_one};
use second::subsystem::Subsystem;
use second::vectors::vectors;
use second::wire::u16_at;
use second::{check, field, form, meaning, object, rewrite, Answer, Entry, State};
use std::collections::BTreeSet;

fn refused(number: u8) -> Answer {
    Answer::at(number, Subsystem::ID, 1)
}

#[test]
fn lists_get_their_answers() {
    let all = lists();
    let names: BTreeSet<&str> = all.iter().map(|sample| sample.name.as_str()).collect();
    assert_eq!(names.len(), all.len());
    for Sample {
        name,
        table,
        answer,
    } in &all
    {
        assert_eq!(check(table), *answer, "{name}");
    }
}

/// Each list of up to four bytes of 0 to 4, for three interface positions of
/// which two are used.
#[test]
fn short_lists_are_judged_as_their_bytes_say() {
    let mut judged = 0;
    for length in 0..=4 {
        for choice in 0..5_u32.pow(length) {
            let list: Vec<u8> = (0..length)
                .map(|place| (choice / 5_u32.pow(place) % 5) as u8)
                .collect();
            let mut later = list.iter().enumerate();
            let twice = later.any(|(place, byte)| list[..place].contains(byte));
            let expected = if list.len() > 3 || twice {
                refused(number::SECONDARY)
            } else if list.iter().any(|byte| ![1, 2].contains(byte)) {
                refused(number::INDEX)
            } else {
                Answer::DONE
            };
            let table = form(&listing(&[true, true, false], &list));
            assert_eq!(check(&table), expected, "{list:?}");
            judged += 1;
        }
    }
    assert_eq!(judged, 1 + 5 + 25 + 125 + 625);
}

/// What counts is how many positions there are, not how many of them are
/// used.
#[test]
fn a_full_list_of_255_is_taken_and_one_more_is_not() {
    let every: Vec<u8> = (1..=255).rev().collect();
    let table = form(&listing(&[true; 255], &every));
    assert_eq!(check(&table), Answer::DONE);
    let all: Vec<u8> = (0..=255).collect();
    let longer = form(&listing(&[true; 255], &all));
    assert_eq!(check(&longer), refused(number::SECONDARY));
    let mut used = [false; 255];
    used[0] = true;
    assert_eq!(
        check(&form(&listing(&used, &every))),
        refused(number::INDEX)
    );
    assert_eq!(check(&form(&listing(&used, &[1]))), Answer::DONE);
}

#[test]
fn reads_and_rewrites_give_the_number() {
    for sample in [many_times_one(2), many_times_one(60_000)] {
        let (table, wrong) = (&sample.table, refused(number::SECONDARY));
        assert_eq!(sample.answer, wrong);
        assert_eq!(field(table, 2, 0, 1).answer, wrong);
        assert_eq!(object(table, 99, 0, 1), (wrong, None));
        assert_eq!(rewrite(table, &mut [0; 1000]), (wrong, 0));
    }
}

/// All secondary lists of a meaning, each with how many interfaces there are.
fn secondaries(said: &second::Meaning) -> Vec<(Vec<u8>, usize)> {
    let used = said.subsystems.iter().filter_map(Entry::used);
    let lists = used.filter_map(|subsystem| subsystem.secondary_interfaces.as_ref());
    lists
        .map(|list| (list.to_vec(), said.interfaces.len()))
        .collect()
}

#[test]
fn generated_lists_have_every_length_and_no_byte_twice() {
    let mut random = Random::seeded(20);
    let mut met = BTreeSet::new();
    for _ in 0..600 {
        for (list, interfaces) in secondaries(&random_meaning(&mut random)) {
            assert_eq!(BTreeSet::from_iter(&list).len(), list.len());
            met.insert((list.len(), interfaces));
        }
    }
    for interfaces in 1..=4 {
        for length in 1..=interfaces {
            assert!(met.contains(&(length, interfaces)), "{length} {interfaces}");
        }
    }
}

#[test]
fn lists_of_good_tables_have_no_byte_twice() {
    let mut longest = 0;
    for sample in goods() {
        for (list, interfaces) in secondaries(&meaning(&sample.table)) {
            assert_eq!(BTreeSet::from_iter(&list).len(), list.len());
            assert!(list.len() <= interfaces);
            longest = longest.max(list.len());
        }
    }
    assert!(longest >= 1);
}

#[test]
fn every_list_can_be_damaged_in_every_way() {
    let good = form(&listing(&[true; 3], &[3, 1, 2]));
    let found = damages(&good).into_iter();
    let found = found.filter(|damage| damage.answer.number == number::SECONDARY);
    let names: Vec<String> = found.map(|damage| damage.name).collect();
    for way in [
        "one-too-long",
        "over-255",
        "first-twice",
        "last-twice",
        "last-as-first",
    ] {
        let name = format!("subsystem-1-secondary-{way}");
        assert!(names.contains(&name), "{name}");
    }
    let without = form(&listing(&[true; 3], &[]));
    let found = damages(&without).into_iter();
    let too_long = found.filter(|damage| damage.answer.number == number::SECONDARY);
    assert_eq!(too_long.count(), 2);
}

/// Two faults at once, so that the number shows its place between the
/// references around it.
#[test]
fn the_number_comes_between_two_references() {
    let good = form(&listing(&[true; 3], &[3, 1, 2]));
    let all = damages(&good);
    let mut pairs = BTreeSet::new();
    for (first, second) in all
        .iter()
        .flat_map(|first| all.iter().map(move |s| (first, s)))
    {
        let [one, other] = [first, second].map(|damage| damage.answer.number);
        if one != number::SECONDARY && other != number::SECONDARY {
            continue;
        }
        if let Some(sample) = first.before(second, &good) {
            assert_eq!(check(&sample.table), sample.answer, "{}", sample.name);
            pairs.insert((one, other));
        }
    }
    for pair in [(10, 20), (11, 20), (20, 11), (20, 18), (20, 13)] {
        assert!(pairs.contains(&pair), "{pair:?}");
    }
}

#[test]
fn vectors_have_lists_beside_every_other_fault() {
    let found = vectors();
    let has = |name: &str| found.iter().any(|vector| vector.name == name);
    for name in [
        "secondary-as-many-as-positions",
        "secondary-one-too-many",
        "secondary-before-name",
        "secondary-60000-times-one",
    ] {
        assert!(has(name), "{name}");
    }
}

/// The turn of the only subsystem of a table with so many interfaces.
fn turn_behind(interfaces: u8) -> State {
    State {
        turn: Subsystem::ID.into(),
        position: 1,
        counts: [interfaces, 1, 0, 0],
        used: 288 + 32 * u32::from(interfaces),
        minor: 0,
    }
}

/// The answer to a call with this list and name, where all else is fine, and
/// the buffer when it has ended.
fn told(state: State, list: &[u8], name: &[u8], room: usize) -> (Answer, State, Vec<u8>) {
    let told = ToldSubsystem {
        record: [0; 128],
        address: b"a",
        service: b"s",
        secondary_interfaces: list,
        name,
        extended: [0; 18],
        root_path: b"",
    };
    let mut buffer = vec![0xEE; room];
    let (answer, next) = builder::ssns(&mut buffer, state, &told);
    (answer, next, buffer)
}

#[test]
fn told_lists_are_judged_by_the_count_of_the_state() {
    for (interfaces, list) in [
        (0, &[][..]),
        (1, &[1]),
        (1, &[200]),
        (3, &[3, 0, 255]),
        (255, &[9, 8]),
    ] {
        let state = turn_behind(interfaces);
        let (answer, _, buffer) = told(state, list, b"n", 9000);
        assert_eq!(answer, Answer::DONE, "{list:?}");
        let start = record_start::<Subsystem>(state.counts, 1);
        assert_eq!(usize::from(u16_at(&buffer, start + 52)), list.len());
    }
    for (interfaces, list) in [
        (0, &[1][..]),
        (1, &[1, 2]),
        (2, &[1, 1]),
        (3, &[1, 2, 1]),
        (3, &[1, 2, 3, 4]),
        (255, &[0; 60_000]),
        (255, &[1; 65_535]),
    ] {
        let state = turn_behind(interfaces);
        let (answer, next, buffer) = told(state, list, b"n", 9000);
        assert_eq!((answer, next), (refused(number::SECONDARY), state));
        assert_eq!(buffer, [0xEE; 9000]);
    }
}

/// A list of more bytes than a reference can say is no list at all; and what
/// is wrong with the name, or with the room, comes behind the list.
#[test]
fn a_told_list_is_judged_in_its_turn() {
    let state = turn_behind(3);
    let full = State {
        used: 65_536,
        ..state
    };
    let (good, bad): (&[u8], &[u8]) = (&[3, 2, 1], &[1, 1]);
    let cases: [(State, &[u8], &[u8], u8); 8] = [
        (state, &[1; 65_536], b"", number::REFERENCE),
        (state, bad, b"", number::SECONDARY),
        (state, bad, b"n\0", number::SECONDARY),
        (full, bad, b"n", number::SECONDARY),
        (state, bad, b"n", number::SECONDARY),
        (state, good, b"", number::REFERENCE),
        (state, good, b"n\0", number::TEXT),
        (full, good, b"n\0", number::TEXT),
    ];
    for (state, list, name, number) in cases {
        assert_eq!(told(state, list, name, 0).0, refused(number));
    }
    let too_long = Answer::plain(number::FORM_TOO_LONG);
    assert_eq!(told(full, good, b"n", 0).0, too_long);
    let too_short = Answer::plain(number::OUTPUT_TOO_SHORT);
    assert_eq!(told(state, good, b"n", 0).0, too_short);
    let other_turn = State { turn: 3, ..state };
    let out_of_turn = Answer::plain(number::OUT_OF_TURN);
    assert_eq!(told(other_turn, bad, b"n", 0).0, out_of_turn);
}
